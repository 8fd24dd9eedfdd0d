//! Draws docs/double-array.svg: the sample's double array and the walk of one lookup, from what the library's own calls leave and answer.
//!
//! `cargo run --release --offline -p tests --example picture > docs/double-array.svg`

use ::tests::drawing::{Drawing, STYLE};
use ::tests::lists::{sample, table};
use ::tests::reference::list::Row;

fn main() {
    print!("{}", picture());
}

/// The sequence that is looked up, oldest word first.
const LOOKED_UP: [i32; 3] = [2, 4, 5];

const WIDTH: usize = 1080;
const HEIGHT: usize = 680;

fn picture() -> String {
    let array = Array::build(sample());
    let walk = array.walk(&LOOKED_UP);
    let title = format!("The sample's double array, and the lookup of {}", spaced(&LOOKED_UP));
    let mut drawing = Drawing::new(WIDTH, HEIGHT, &title, &format!("<style>\n{STYLE}{OWN_STYLE}</style>\n{TIP}"));
    draw_trie(&mut drawing, &array, &walk);
    draw_steps(&mut drawing, &array, &walk);
    draw_slots(&mut drawing, &array, &walk);
    draw_jumps(&mut drawing, &walk);
    draw_markers(&mut drawing, &array, &walk);
    draw_legend(&mut drawing, &array);
    drawing.finish()
}

const OWN_STYLE: &str = "  .on-line { paint-order: stroke; stroke: #fcfcfa; stroke-width: 5px; text-anchor: middle }
  .walked { fill: #b91c1c; font-weight: bold }
  .node { fill: #dbeafe; stroke: #3b6ea5 }
  .longest { fill: #d3f0dd; stroke: #2f855a }
  .marker { fill: #fdf0d0; stroke: #a87b24 }
  .free { fill: #fcfcfa; stroke: #c5ccd3 }
  .edge { fill: none; stroke: #7b8794; stroke-width: 1.3 }
  .step { fill: none; stroke: #b91c1c; stroke-width: 2.2 }
  .tip { fill: #b91c1c }
";

/// The end of an arrow.
const TIP: &str = "<defs><marker id=\"tip\" viewBox=\"0 0 8 8\" refX=\"7\" refY=\"4\" markerWidth=\"5\" markerHeight=\"5\" orient=\"auto\"><path class=\"tip\" d=\"M0 0 L8 4 L0 8 Z\"/></marker></defs>";

/// A list and the double array that `backoff::build` leaves, in as few slots as it accepts.
struct Array {
    rows: Vec<Row>,
    base: Vec<i32>,
    check: Vec<i32>,
    nodes: Vec<u32>,
}

/// What a slot holds, with the words of its row; the root has none. The node of a longest row has no marker.
#[derive(Clone, Copy, PartialEq)]
enum Held<'a> {
    Node(&'a [i32]),
    Longest(&'a [i32]),
    Marker(&'a [i32]),
    Free,
}

impl Array {
    fn build(rows: Vec<Row>) -> Array {
        let table = table(&rows);
        for slots in 2.. {
            let (mut base, mut check, mut nodes) = (vec![0; slots], vec![0; slots], vec![0; rows.len()]);
            let status = backoff::build(&table, &mut base, &mut check, &mut nodes);
            if status.number == 0 {
                return Array { rows, base, check, nodes };
            }
            assert_eq!(status.number, 10, "the sample is accepted");
        }
        unreachable!("some number of slots is enough")
    }

    fn slots(&self) -> usize {
        self.base.len()
    }

    fn order(&self) -> usize {
        self.rows.last().map_or(0, |row| row.words.len())
    }

    /// The slot of the marker of a node to which so many words lead, nothing where it has none.
    fn marker(&self, length: usize, node: usize) -> Option<usize> {
        (length < self.order()).then(|| self.base[node] as usize)
    }

    fn held(&self, slot: usize) -> Held<'_> {
        let rows = self.rows.iter().map(|row| &row.words[..]).zip(self.nodes.iter().map(|&node| node as usize));
        for (words, node) in std::iter::once((&[][..], 0)).chain(rows) {
            let marker = self.marker(words.len(), node);
            if slot == node {
                return if marker.is_some() { Held::Node(words) } else { Held::Longest(words) };
            }
            if marker == Some(slot) {
                return Held::Marker(words);
            }
        }
        assert_eq!((self.base[slot], self.check[slot]), (0, i32::MIN), "slot {slot} is free");
        Held::Free
    }

    /// What a node to which so many words lead says, as its marker or its own BASE holds it: p, b and e.
    fn says(&self, length: usize, node: usize) -> (i32, i32, i32) {
        match self.marker(length, node) {
            Some(marker) => (self.check[marker] + 1, self.base[marker] >> 2, self.base[marker] >> 1 & 1),
            None => (self.base[node] + 1, 0, 0),
        }
    }

    /// The slots of the nodes from the root on, newest word first, each ahead of its parent's BASE; `backoff::lookup` must answer what the nodes say.
    fn walk(&self, words: &[i32]) -> Vec<usize> {
        let mut walk = vec![0];
        for length in 1..=words.len() {
            let walked = &words[words.len() - length..];
            let node = walk[length - 1];
            let slot = (self.base[node] + walked[0]) as usize;
            let sequence: Vec<u32> = walked.iter().map(|&word| word as u32).collect();
            let found = backoff::lookup(&self.base, &self.check, &sequence);
            assert_eq!((found.number, found.found, self.check[slot]), (0, 1, node as i32), "the walk goes on");
            assert_eq!((found.p, found.b, found.left as i32), self.says(length, slot), "the node says p, b and e");
            walk.push(slot);
        }
        walk
    }
}

/// A step of the walk.
fn arrow(drawing: &mut Drawing, path: &str) {
    drawing.add(&format!("<path class=\"step\" d=\"{path}\" marker-end=\"url(#tip)\"/>"));
}

/// The trie: a circle with its slot for each node, its word beside the line that leads to it.
fn draw_trie(drawing: &mut Drawing, array: &Array, walk: &[usize]) {
    let places = places(array);
    drawing.text("small", 28, 62, "The trie of the rows, newest word first; in each node its slot");
    for (row, &node) in array.rows.iter().zip(&array.nodes) {
        let (slot, parent) = (node as usize, array.check[node as usize] as usize);
        let ((x, y), (from_x, from_y)) = (places[slot], places[parent]);
        let walked = walk.contains(&slot);
        let path = format!("M{from_x} {} L{x} {}", from_y + 15, y - 17);
        if walked {
            arrow(drawing, &path);
        } else {
            drawing.path("edge", &path);
        }
        let class = if walked { "word on-line walked" } else { "word on-line" };
        drawing.text(class, (x + from_x) / 2, (y + from_y) / 2 + 3, &row.words[0].to_string());
    }
    for slot in 0..array.slots() {
        let class = match array.held(slot) {
            Held::Node(_) => "node",
            Held::Longest(_) => "longest",
            Held::Marker(_) | Held::Free => continue,
        };
        let (x, y) = places[slot];
        let walked = if walk.contains(&slot) { " style=\"stroke:#b91c1c;stroke-width:2.2\"" } else { "" };
        drawing.add(&format!("<circle class=\"{class}\" cx=\"{x}\" cy=\"{y}\" r=\"15\"{walked}/>"));
        drawing.text("number middle", x, y + 4, &slot.to_string());
    }
}

/// Where each node of the trie stands: a column for each leaf, a line for each length, a parent above its middle child.
fn places(array: &Array) -> Vec<(usize, usize)> {
    let mut places = vec![(0, 0); array.slots()];
    let mut columns = 0;
    place_below(array, 0, 0, &mut columns, &mut places);
    places
}

fn place_below(array: &Array, slot: usize, depth: usize, columns: &mut usize, places: &mut [(usize, usize)]) {
    let child = |node: &&u32| array.check[**node as usize] == slot as i32;
    let children: Vec<usize> = array.nodes.iter().filter(child).map(|&node| node as usize).collect();
    for &child in &children {
        place_below(array, child, depth + 1, columns, places);
    }
    let x = match (children.first(), children.last()) {
        (Some(&first), Some(&last)) => (places[first].0 + places[last].0) / 2,
        _ => {
            *columns += 1;
            96 * *columns - 30
        }
    };
    places[slot] = (x, 92 + 72 * depth);
}

/// The walk in words.
fn draw_steps(drawing: &mut Drawing, array: &Array, walk: &[usize]) {
    let (left, mut y) = (590, 92);
    drawing.text("word", left, y, &format!("Lookup of {}, newest word first", spaced(&LOOKED_UP)));
    drawing.text("small", left, y + 18, "A word is looked for ahead of BASE, then behind it; the sample has all its nodes ahead.");
    for ((step, &word), length) in walk.windows(2).zip(LOOKED_UP.iter().rev()).zip(1..) {
        let (node, slot) = (step[0], step[1]);
        let marker = array.marker(length, slot).map_or(String::new(), |marker| format!(" Its marker is in slot {marker}."));
        y += 44;
        drawing.text(
            "",
            left,
            y,
            &format!("Slot {node} has BASE {}; word {word} leads to {} + {word} = {slot}.", array.base[node], array.base[node]),
        );
        drawing.text("small", left, y + 17, &format!("CHECK of slot {slot} is {node}: it is the child.{marker}"));
    }
    let (node, order) = (walk[LOOKED_UP.len()], array.order());
    assert_eq!(LOOKED_UP.len(), order, "a longest row is looked up");
    let (p, b, e) = array.says(order, node);
    drawing.text("", left, y + 44, &format!("The row has n = {order} words, the most there are, and no marker:"));
    drawing.text(
        "small",
        left,
        y + 61,
        &format!("BASE of slot {node} is p − 1 = {}. Such a row has no back-off, and no row is longer.", signed(p - 1)),
    );
    drawing.text("word walked", left, y + 86, &format!("p = {}, b = {}, e = {e}, f = 0", signed(p), signed(b)));
}

/// The left edge of slot 0, the width of a slot, and the upper edge of BASE.
const LEFT: usize = 78;
const SLOT: usize = 49;
const TOP: usize = 462;
const CELL: usize = 28;

fn middle(slot: usize) -> usize {
    LEFT + SLOT * slot + SLOT / 2
}

/// The two arrays, and below each slot what it holds.
fn draw_slots(drawing: &mut Drawing, array: &Array, walk: &[usize]) {
    for (label, y) in
        [("slot", TOP - 9), ("BASE", TOP + 18), ("CHECK", TOP + CELL + 18), ("holds", TOP + 2 * CELL + 18), ("of row", TOP + 2 * CELL + 33)]
    {
        drawing.text("small end", LEFT - 10, y, label);
    }
    for slot in 0..array.slots() {
        let row = |words: &[i32]| if words.is_empty() { "root".to_string() } else { spaced(words) };
        let (class, kind, of) = match array.held(slot) {
            Held::Node(words) => ("node", "node", row(words)),
            Held::Longest(words) => ("longest", "node", row(words)),
            Held::Marker(words) => ("marker", "marker", row(words)),
            Held::Free => ("free", "free", String::new()),
        };
        let (left, walked) = (LEFT + SLOT * slot, if walk.contains(&slot) { " walked" } else { "" });
        drawing.rectangle(class, left, TOP, SLOT, CELL);
        drawing.rectangle(class, left, TOP + CELL, SLOT, CELL);
        drawing.text(&format!("number middle{walked}"), middle(slot), TOP - 9, &slot.to_string());
        drawing.text("number middle", middle(slot), TOP + 18, &signed(array.base[slot]));
        drawing.text("number middle", middle(slot), TOP + CELL + 18, &signed(array.check[slot]));
        drawing.text("small middle", middle(slot), TOP + 2 * CELL + 18, kind);
        drawing.text("number middle", middle(slot), TOP + 2 * CELL + 33, &of);
    }
}

/// The walk over the slots, from node to child.
fn draw_jumps(drawing: &mut Drawing, walk: &[usize]) {
    let edge = TOP - 24;
    for (step, word) in walk.windows(2).zip(LOOKED_UP.iter().rev()) {
        let (from, to) = (middle(step[0]), middle(step[1]));
        let top = edge - 30 - from.abs_diff(to) / 8;
        arrow(drawing, &format!("M{from} {edge} C{from} {top} {to} {top} {to} {edge}"));
        drawing.text("walked middle", (from + to) / 2, edge - 3 * (edge - top) / 4 - 6, &format!("word {word}"));
    }
}

/// What the walk reads of each node, below the slots: its marker, or its own BASE where it has none.
fn draw_markers(drawing: &mut Drawing, array: &Array, walk: &[usize]) {
    let (edge, low) = (TOP + 2 * CELL + 41, TOP + 2 * CELL + 78);
    for (length, &node) in walk.iter().enumerate().skip(1) {
        let from = middle(node);
        let Some(marker) = array.marker(length, node) else {
            drawing.text("walked middle", from, low - 8, "no marker");
            continue;
        };
        let to = middle(marker);
        arrow(drawing, &format!("M{from} {edge} C{from} {low} {to} {low} {to} {edge}"));
        drawing.text("walked middle", (from + to) / 2, low + 6, "marker");
    }
}

fn draw_legend(drawing: &mut Drawing, array: &Array) {
    let head = format!(
        "node: BASE is d, its marker's slot; CHECK is its parent, at the root the order + {}",
        array.check[0] - array.order() as i32
    );
    let entries = [
        ("node", 28, 46, &head[..]),
        ("marker", 525, 46, "marker: BASE is 4 × b + 2 × e + f, CHECK is p − 1; the root's: the rows, −1"),
        ("longest", 28, 24, "node of a longest row: BASE is p − 1, CHECK is its parent; it has no marker"),
        ("free", 525, 24, "free: BASE is 0, CHECK is −2,147,483,648 (−2³¹)"),
    ];
    for (class, x, above_the_end, text) in entries {
        let y = HEIGHT - above_the_end;
        drawing.rectangle(class, x, y - 11, 18, 13);
        drawing.text("small", x + 26, y, text);
    }
}

fn spaced(words: &[i32]) -> String {
    words.iter().map(i32::to_string).collect::<Vec<_>>().join(" ")
}

/// A number with the sign that print uses; the lowest, which is too wide for its place, as a power.
fn signed(number: i32) -> String {
    match number {
        i32::MIN => "−2³¹".to_string(),
        _ => number.to_string().replace('-', "−"),
    }
}

#[cfg(test)]
mod tests {
    /// The picture in docs is the one that the library's array gives.
    #[test]
    fn committed_picture() {
        assert!(super::picture() == include_str!("../../docs/double-array.svg"), "make docs/double-array.svg again");
    }

    /// The facts of K7 and K8, and where the longest row is.
    #[test]
    fn marked_cases() {
        let array = super::Array::build(super::sample());
        assert_eq!(array.slots(), 20);
        assert!(array.held(12) == super::Held::Node(&[2, 4]) && array.held(16) == super::Held::Marker(&[2, 4]));
        assert!(array.held(18) == super::Held::Free && array.held(19) == super::Held::Longest(&[2, 4, 5]));
    }
}
