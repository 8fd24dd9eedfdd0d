//! Arrays to lend: those of the placing rule, those of another rule, changed ones, and ones that no build wrote.

use crate::random::Random;
use crate::reference::array::{Array, Side, HEAD, ROOT};
use crate::reference::build::{place, place_by, slots_used, write, Node, FREE};
use crate::reference::list::{Row, LARGEST_B, LOWEST_P};
use crate::reference::sentences::usable_words;

#[derive(Clone, Debug, PartialEq, Eq)]
pub struct Arrays {
    pub base: Vec<i32>,
    pub check: Vec<i32>,
}

impl Arrays {
    pub fn slots(&self) -> usize {
        self.base.len()
    }

    /// The order that the head tells.
    pub fn order(&self) -> i32 {
        self.check[0] - HEAD
    }

    /// How many words are usable in small sentences, where 11 lets the head pass.
    pub fn usable(&self) -> usize {
        usable_words(&Array::new(&self.base, &self.check).expect("a head that 11 lets pass")).len()
    }

    /// How many words and totals all sentences of k words have.
    pub fn listing(&self, k: u32) -> (usize, usize) {
        let count = self.usable().pow(k);
        (k as usize * count, count)
    }

    /// The slot of the node of a row's words.
    pub fn node(&self, words: &[i32]) -> usize {
        let array = Array::new(&self.base, &self.check).expect("a head that 11 lets pass");
        words.iter().rev().fold(ROOT, |node, &word| array.child(node, word as u32).expect("a row's words"))
    }

    /// The words of a walk, oldest first: so many, or as many as have children.
    pub fn walked(&self, random: &mut Random, most: usize) -> Vec<u32> {
        let children = Array::new(&self.base, &self.check).expect("a head that 11 lets pass").children();
        let (mut node, mut words) = (ROOT, vec![]);
        while let Some(children) = children.get(&node).filter(|_| words.len() < most) {
            let (word, slot) = random.pick(children);
            words.insert(0, word);
            node = slot;
        }
        words
    }

    /// Item i of BASE, then of CHECK.
    pub fn item(&mut self, i: usize) -> &mut i32 {
        let slots = self.slots();
        if i < slots {
            &mut self.base[i]
        } else {
            &mut self.check[i - slots]
        }
    }

    /// Writes what would be a node's child if any number were a word, with a sound marker behind it.
    pub fn plant(&mut self, node: usize, word: usize) {
        let slot = self.base[node] as usize + word;
        let slots = self.slots().max(slot + 2);
        self.base.resize(slots, 0);
        self.check.resize(slots, FREE);
        (self.base[slot], self.check[slot]) = (slot as i32 + 1, node as i32);
        (self.base[slot + 1], self.check[slot + 1]) = (0, -5);
    }
}

/// The array of the placing rule, with some spare slots behind it.
pub fn built(rows: &[Row], spare: usize) -> Arrays {
    written(rows, &place(rows), spare)
}

/// An array of the same nodes that another rule placed: each d, and the side on which each child lies, is drawn until all fits.
pub fn spread(random: &mut Random, rows: &[Row]) -> Arrays {
    let highest = rows.iter().map(|row| row.words[0]).max().unwrap_or(0) as usize;
    let room = 4 * rows.len() + 16;
    let mut taken = vec![false; room + highest + 1];
    taken[0] = true;
    let mut root = true;
    let nodes = place_by(rows, |words| loop {
        let d = if root { 1 } else { 2 + random.below(room - 2) };
        let drawn = |word: &usize| random.pick(&[Side::Behind, Side::Ahead]).slot(d, *word).unwrap_or(d + word);
        let slots: Vec<usize> = words.iter().map(drawn).collect();
        if !taken[d] && slots.iter().all(|&slot| !taken[slot]) {
            root = false;
            taken[d] = true;
            slots.iter().for_each(|&slot| taken[slot] = true);
            break (d, slots);
        }
    });
    written(rows, &nodes, random.below(20))
}

fn written(rows: &[Row], nodes: &[Node], spare: usize) -> Arrays {
    let slots = slots_used(nodes) + spare;
    let mut arrays = Arrays { base: vec![0; slots], check: vec![FREE; slots] };
    write(rows, nodes, &mut arrays.base, &mut arrays.check);
    arrays
}

/// Calls `see` with the array after each change of one number to one of several values: limits of every range, and neighbours.
pub fn each_change(arrays: &Arrays, mut see: impl FnMut(&Arrays)) {
    let slots = arrays.slots() as i32;
    let mut changed = arrays.clone();
    for i in 0..2 * arrays.slots() {
        let old = *changed.item(i);
        let near = [old.wrapping_sub(1), old.wrapping_add(1), old ^ 1, old ^ 2, -old.max(-i32::MAX)];
        let slot_limits = [0, 1, 2, slots / 2, slots - 1, slots];
        let p_limits = [-1, LOWEST_P - 1, LOWEST_P - 2];
        let packed_limits = [-4 * LARGEST_B - 1, -4 * LARGEST_B, 4 * LARGEST_B + 3, 4 * LARGEST_B + 4];
        let other = [3, 5, 11, 19, 43, HEAD, HEAD + 1, HEAD + 5, HEAD + 6, 65_535, 65_536, i32::MAX, i32::MIN];
        for value in near.into_iter().chain(slot_limits).chain(p_limits).chain(packed_limits).chain(other) {
            *changed.item(i) = value;
            see(&changed);
        }
        *changed.item(i) = old;
    }
}

/// A small array of an accepted head whose other numbers are drawn so that walks often go on, and often end in a node whose BASE holds p − 1.
pub fn drawn(random: &mut Random) -> Arrays {
    let slots = 2 + random.below(40);
    let last = slots as i32 - 1;
    let mut arrays = Arrays { base: vec![1; slots], check: vec![-1; slots] };
    for slot in 2..slots {
        arrays.base[slot] = match random.below(8) {
            0 => random.pick(&[0, -1, last + 1, LOWEST_P - 1, LOWEST_P - 2, 4 * LARGEST_B + 4, i32::MIN, i32::MAX]),
            1..=2 => -random.between(1, 5),
            _ => random.between(1, last),
        };
        arrays.check[slot] = match random.below(8) {
            0 => random.pick(&[LOWEST_P - 1, LOWEST_P - 2, last + 1, i32::MIN, i32::MAX]),
            1..=3 => -random.between(1, 5),
            4..=5 => 0,
            _ => random.between(0, last),
        };
    }
    arrays.base[1] = random.between(3, 12);
    arrays.check[0] = HEAD + random.between(1, 5);
    arrays
}
