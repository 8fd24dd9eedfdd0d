//! Unloading: the rows of any lent array, if they are an accepted list.

use super::array::{Array, ROOT};
use super::list::{continued, extended, verdict, Refusal, Row, ACCEPTED};

/// A node found by walking: the row that it stands for, its e and f, and its slot.
struct Node {
    row: Row,
    e: i32,
    f: i32,
    slot: usize,
}

/// Gives the list back in the order of its rows, and the slots of its nodes: 11, 15, 12.
pub fn unload(base: &[i32], check: &[i32], table: &mut [i32], work: &mut [u32]) -> Refusal {
    let Some(array) = Array::new(base, check) else { return (11, 0) };
    let rows = array.rows();
    if table.len() < 8 * rows || work.len() < rows {
        return (15, 0);
    }
    let (table, work) = (&mut table[..8 * rows], &mut work[..rows]);
    let Some(nodes) = found(&array).filter(|nodes| fits(&array, nodes)) else {
        table.fill(0);
        work.fill(0);
        return (12, 0);
    };
    for (i, node) in nodes.iter().enumerate() {
        table[8 * i..8 * i + 8].copy_from_slice(&node.row.cells());
        work[i] = node.slot as u32;
    }
    ACCEPTED
}

/// The sequences of up to n words found by walking, in the order of a list; nothing where a node has no sound marker.
fn found(array: &Array) -> Option<Vec<Node>> {
    let children = array.children();
    let mut nodes = Vec::new();
    let mut level = vec![(ROOT, vec![])];
    for depth in 1..=array.order() {
        let mut next = Vec::new();
        for (parent, words) in level {
            for &(word, slot) in children.get(&parent).into_iter().flatten() {
                let words = [&[word as i32], &words[..]].concat();
                let marker = array.marker(depth, slot)?;
                nodes.push(Node { row: Row { words: words.clone(), p: marker.p, b: marker.b }, e: marker.e, f: marker.f, slot });
                next.push((slot, words));
            }
        }
        level = next;
    }
    nodes.sort_by_key(|node| (node.row.words.len(), node.row.words.iter().rev().copied().collect::<Vec<i32>>()));
    Some(nodes)
}

/// They are "an accepted list of order n and BASE[1] rows", and no e and no f is wrong.
fn fits(array: &Array, nodes: &[Node]) -> bool {
    let table: Vec<i32> = nodes.iter().flat_map(|node| node.row.cells()).collect();
    let (extended, continued) = (extended(nodes.iter().map(|node| &node.row)), continued(nodes.iter().map(|node| &node.row)));
    nodes.len() == array.rows()
        && verdict(&table) == ACCEPTED
        && nodes[nodes.len() - 1].row.words.len() == array.order()
        && nodes.iter().all(|node| node.e == extended.contains(&node.row.words[..]) as i32)
        && nodes.iter().all(|node| node.f == continued.contains(&node.row.words[..]) as i32)
}
