//! The placing rule of document 01 with the two sides of T-09, in room without an upper end, and the build, with the markers of T-01 and the longest rows
//! of T-14.

use super::array::{lengths_fit, Side, HEAD};
use super::list::{continued, extended, rows, verdict, Refusal, Row, ACCEPTED};
use std::collections::HashMap;

pub const FREE: i32 = i32::MIN;

/// A node as it is placed: its slot, its d, and the slot of its parent. A row of n words has no d.
#[derive(Clone, Copy, Default)]
pub struct Node {
    pub slot: usize,
    pub d: Option<usize>,
    pub parent: usize,
}

/// Builds the double array of a list: 1, 2, row by row 3 to 8, 9, 10.
pub fn build(table: &[i32], base: &mut [i32], check: &mut [i32], work: &mut [u32]) -> Refusal {
    let verdict = verdict(table);
    if verdict.0 == 1 {
        return verdict;
    }
    let count = table.len() / 8;
    if !lengths_fit(base, check) || work.len() < count {
        return (2, 0);
    }
    if verdict != ACCEPTED {
        return verdict;
    }
    let rows = rows(table);
    let nodes = place(&rows);
    base.fill(0);
    check.fill(FREE);
    if slots_used(&nodes) > base.len() {
        work[..count].fill(0);
        return (10, 0);
    }
    write(&rows, &nodes, base, check);
    for (item, node) in work.iter_mut().zip(&nodes[1..]) {
        *item = node.slot as u32;
    }
    ACCEPTED
}

/// The smallest N at which the nodes fit.
pub fn slots_used(nodes: &[Node]) -> usize {
    nodes.iter().map(|node| node.slot.max(node.d.unwrap_or(0)) + 1).max().unwrap_or(0)
}

/// "Nodes are placed in the order root, row 1, row 2 and so on."
pub fn place(rows: &[Row]) -> Vec<Node> {
    let mut room = Room::default();
    room.take(0);
    place_by(rows, |words| room.first_fit(words))
}

/// Places the root and the rows' nodes where `find` tells: it is given each node's child words, and gives its d and the children's slots. Rows of n words come
/// last; they "give up their marker" (T-14) and have no children, so `find` is not asked for them.
pub fn place_by(rows: &[Row], mut find: impl FnMut(&[usize]) -> (usize, Vec<usize>)) -> Vec<Node> {
    let children = children(rows);
    let mut nodes = vec![Node::default(); rows.len() + 1];
    let shorter = rows.iter().filter(|row| row.words.len() < order(rows)).count();
    for i in 0..=shorter {
        let words: Vec<usize> = children[i].iter().map(|&child| rows[child - 1].words[0] as usize).collect();
        let (d, slots) = find(&words);
        nodes[i].d = Some(d);
        for (slot, &child) in slots.into_iter().zip(&children[i]) {
            nodes[child].slot = slot;
            nodes[child].parent = nodes[i].slot;
        }
    }
    nodes
}

/// The children of the root (0) and of each row's node (from 1): the child for word w is the row with w in front.
fn children(rows: &[Row]) -> Vec<Vec<usize>> {
    let mut numbers: HashMap<&[i32], usize> = HashMap::from([(&[][..], 0)]);
    numbers.extend(rows.iter().enumerate().map(|(i, row)| (&row.words[..], i + 1)));
    let mut children = vec![Vec::new(); rows.len() + 1];
    for (i, row) in rows.iter().enumerate() {
        children[numbers[&row.words[1..]]].push(i + 1);
    }
    children
}

/// Slots without an upper end.
#[derive(Default)]
struct Room {
    taken: Vec<bool>,
    /// All slots below are taken.
    front: usize,
}

impl Room {
    /// "The smallest d that fits is taken", and all that it needs; the room has no end, so that "slots ≥ N" count "as free here".
    fn first_fit(&mut self, words: &[usize]) -> (usize, Vec<usize>) {
        while !self.free(self.front) {
            self.front += 1;
        }
        let mut d = self.front;
        let side = loop {
            match self.side(d, words) {
                Some(side) => break side,
                None => d += 1,
            }
        };
        let slots: Vec<usize> = words.iter().filter_map(|&word| side.slot(d, word)).collect();
        self.take(d);
        slots.iter().for_each(|&slot| self.take(slot));
        (d, slots)
    }

    /// "At each d the children's slots d − w (all ≥ 1) are tried first, then d + w"; "all children of a node lie on one side".
    fn side(&self, d: usize, words: &[usize]) -> Option<Side> {
        let fits = |side: &Side| words.iter().all(|&word| side.slot(d, word).is_some_and(|slot| self.free(slot)));
        [Side::Behind, Side::Ahead].into_iter().find(|side| self.free(d) && fits(side))
    }

    fn free(&self, slot: usize) -> bool {
        !self.taken.get(slot).is_some_and(|&taken| taken)
    }

    fn take(&mut self, slot: usize) {
        if slot >= self.taken.len() {
            self.taken.resize(2 * slot + 1, false);
        }
        self.taken[slot] = true;
    }
}

/// "The order n is the last row's m."
fn order(rows: &[Row]) -> usize {
    rows.last().map_or(0, |row| row.words.len())
}

/// Writes the nodes, their markers and the head into free slots; "the node's own BASE holds p − 1" where it has no marker (T-14).
pub fn write(rows: &[Row], nodes: &[Node], base: &mut [i32], check: &mut [i32]) {
    let (extended, continued) = (extended(rows), continued(rows));
    for (row, node) in rows.iter().zip(&nodes[1..]) {
        base[node.slot] = node.d.map_or(row.p - 1, |d| d as i32);
        check[node.slot] = node.parent as i32;
        if let Some(d) = node.d {
            base[d] = 4 * row.b + 2 * extended.contains(&row.words[..]) as i32 + continued.contains(&row.words[..]) as i32;
            check[d] = row.p - 1;
        }
    }
    base[0] = 1;
    check[0] = HEAD + order(rows) as i32;
    base[1] = rows.len() as i32;
    check[1] = -1;
}
