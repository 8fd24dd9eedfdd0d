//! "The double array" of document 01, with the markers of T-01, the two sides of T-09 and the longest rows of T-14, as it is read: any two lent slices,
//! whoever wrote them.

use super::list::{Refusal, ACCEPTED, LARGEST_B, LARGEST_WORD, LOWEST_P, MOST_ROWS};
use std::collections::HashMap;

pub const MOST_SLOTS: usize = 1_048_576;
pub const ROOT: usize = 0;

/// "CHECK[0] becomes n + 24" (T-14).
pub const HEAD: i32 = 24;

/// The two sides of a node's d on which a child may lie: d − w and d + w.
#[derive(Clone, Copy, Debug, PartialEq, Eq)]
pub enum Side {
    Behind,
    Ahead,
}

impl Side {
    /// The slot of the child for a word; behind d there is one only where it is at least 1.
    pub fn slot(self, d: usize, word: usize) -> Option<usize> {
        match self {
            Side::Behind => d.checked_sub(word).filter(|&slot| slot >= 1),
            Side::Ahead => Some(d + word),
        }
    }
}

/// What a sound marker holds, or the BASE of a node that has none.
#[derive(Clone, Copy, Debug, PartialEq, Eq)]
pub struct Marker {
    pub p: i32,
    pub b: i32,
    pub e: i32,
    pub f: i32,
}

impl Marker {
    /// "The p and b read from it are in range", nothing where they are not: of p − 1 and 4 × b + 2 × e + f (T-01).
    fn read(p_less_1: i32, packed: i32) -> Option<Marker> {
        let p = p_less_1.checked_add(1)?;
        let (b, bits) = (packed.div_euclid(4), packed.rem_euclid(4));
        let in_range = (LOWEST_P..=0).contains(&p) && (-LARGEST_B..=LARGEST_B).contains(&b);
        in_range.then_some(Marker { p, b, e: bits / 2, f: bits % 2 })
    }

    /// "A row is live if its b is not 0 or its f is 1."
    pub fn live(self) -> bool {
        self.b != 0 || self.f == 1
    }
}

/// Two lent slices whose lengths and slots 0 and 1 pass check 11.
#[derive(Clone, Copy)]
pub struct Array<'a> {
    base: &'a [i32],
    check: &'a [i32],
}

impl<'a> Array<'a> {
    /// Nothing where 11 refuses.
    pub fn new(base: &'a [i32], check: &'a [i32]) -> Option<Array<'a>> {
        let orders = HEAD + 1..=HEAD + 5;
        let head = |array: &Array| base[0] == 1 && orders.contains(&check[0]) && check[1] == -1 && (3..=MOST_ROWS).contains(&array.rows());
        let array = Array { base, check };
        (lengths_fit(base, check) && head(&array)).then_some(array)
    }

    pub fn order(&self) -> usize {
        (self.check[0] - HEAD) as usize
    }

    /// The number of rows that the head tells.
    pub fn rows(&self) -> usize {
        self.base[1] as usize
    }

    pub fn slots(&self) -> usize {
        self.base.len()
    }

    /// "A child exists if 1 ≤ d, d + w < N and CHECK[d + w] = s", and "a walk looks at d + w, then at d − w if that is at least 1" (T-09); a word
    /// outside 1..65,535 has none.
    pub fn child(&self, node: usize, word: u32) -> Option<usize> {
        let d = self.base[node];
        if d < 1 || !(1..=LARGEST_WORD as u32).contains(&word) {
            return None;
        }
        let slots = [Side::Ahead, Side::Behind].map(|side| side.slot(d as usize, word as usize));
        slots.into_iter().flatten().find(|&slot| self.check.get(slot) == Some(&(node as i32)))
    }

    /// All children that exist, words and slots, by the slot of their parent.
    pub fn children(&self) -> HashMap<usize, Vec<(u32, usize)>> {
        let mut children: HashMap<usize, Vec<(u32, usize)>> = HashMap::new();
        for slot in 0..self.slots() {
            let Some(parent) = usize::try_from(self.check[slot]).ok().filter(|&parent| parent < self.slots()) else { continue };
            let word = (slot as i32).abs_diff(self.base[parent]);
            if self.child(parent, word) == Some(slot) {
                children.entry(parent).or_default().push((word, slot));
            }
        }
        children
    }

    /// What the node holds to which so many words lead: "a marker is sound if 1 ≤ d < N and the p and b read from it are in range", nothing where it is
    /// not. Rows of n words "give up their marker: the node's own BASE holds p − 1" (T-14); they "have no back-off", and no longer row can tell of them.
    pub fn marker(&self, depth: usize, node: usize) -> Option<Marker> {
        if depth == self.order() {
            return Marker::read(self.base[node], 0);
        }
        let d = usize::try_from(self.base[node]).ok().filter(|&d| 1 <= d && d < self.slots())?;
        Marker::read(self.check[d], self.base[d])
    }
}

/// The part of the checks 2 and 11 that both share.
pub fn lengths_fit(base: &[i32], check: &[i32]) -> bool {
    base.len() == check.len() && (2..=MOST_SLOTS).contains(&base.len())
}

/// The answer of a lookup: number and place, found or not, p and b, and whether some row puts a further word in front (T-01).
pub type Found = (Refusal, bool, i32, i32, bool);

/// Looks a sequence up, oldest word first: 11, 14, 12.
pub fn lookup(base: &[i32], check: &[i32], words: &[u32]) -> Found {
    let refused = |number| ((number, 0), false, 0, 0, false);
    let not_found = (ACCEPTED, false, 0, 0, false);
    let Some(array) = Array::new(base, check) else { return refused(11) };
    if words.is_empty() || words.len() > 5 {
        return refused(14);
    }
    if words.len() > array.order() {
        return not_found;
    }
    let mut node = ROOT;
    let mut found = not_found;
    for (depth, &word) in (1..).zip(words.iter().rev()) {
        let Some(child) = array.child(node, word) else { return not_found };
        let Some(marker) = array.marker(depth, child) else { return refused(12) };
        node = child;
        found = (ACCEPTED, true, marker.p, marker.b, marker.e == 1);
    }
    found
}
