//! Draws docs/crates.svg: the crates as crates.txt has them, and what two calls pass through from C to the list, as the sources have it.
//!
//! `cargo run --release --offline -p tests --example crates > docs/crates.svg`

mod graph;
mod layers;

use ::tests::drawing::{Drawing, STYLE};
use graph::{Crates, Passed};
use layers::{place, Places};
use std::collections::BTreeSet;

fn main() {
    print!("{}", picture());
}

/// A call that is followed, and the class of what is drawn of it.
struct Followed {
    call: &'static str,
    class: &'static str,
    note: &'static str,
}

const FOLLOWED: [Followed; 2] = [
    Followed { call: "backoff_build", class: "build", note: "from the list to the array" },
    Followed { call: "backoff_run", class: "run", note: "over the array, which holds the list" },
];

const OWN_STYLE: &str = "  .code { fill: #dbeafe; stroke: #3b6ea5 }
  .program { fill: #d3f0dd; stroke: #2f855a }
  .laws { fill: #fcfcfa; stroke: #7b8794; stroke-dasharray: 5 3 }
  .outside { fill: #fcfcfa; stroke: #52606d }
  .line { fill: none; stroke: #aab4be; stroke-width: 1.2 }
  .step { fill: none; stroke: currentColor; stroke-width: 2.2 }
  .tip { fill: currentColor }
  .call { fill: currentColor; font-weight: bold }
  .build { color: #a87b24 }
  .run { color: #b91c1c }
";

const TITLE: &str = "The crates, and what a call passes through";

/// The height of a box, the distance from a row to the next, where the highest begins, and what stands free beside all.
const HEIGHT: usize = 46;
const ROW: usize = 92;
const TOP: usize = 84;
const EDGE: usize = 28;

/// What is drawn: the crates and, numbered after them, what calls from outside, each in a row counted from below; lines from one down to another.
struct House {
    crates: Crates,
    rows: Vec<usize>,
    lines: Vec<(usize, usize)>,
    passed: Vec<Passed>,
    /// The width of a box.
    width: usize,
    places: Places,
}

impl House {
    fn new() -> House {
        let crates = Crates::read();
        let outside = crates.crates.len();
        let mut rows = crates.heights();
        rows.push(rows.iter().max().map_or(0, |highest| highest + 1));
        let follow = |followed: &Followed| {
            let export = crates.exports().find(|&export| crates.functions[export].name == followed.call).expect("the call is an export");
            let mut passed = crates.passed(export);
            passed.entry((outside, crates.functions[export].of)).or_default().insert(export);
            passed
        };
        let passed: Vec<Passed> = FOLLOWED.iter().map(follow).collect();
        let mut lines = crates.pairs();
        lines.extend(passed.iter().flat_map(|passed| passed.keys()));
        let lines: Vec<(usize, usize)> = lines.into_iter().collect();
        let width = 8 * crates.crates.iter().map(|known| known.name.len()).max().unwrap_or(0) + 16;
        let places = place(&rows, &lines, width);
        House { crates, rows, lines, passed, width, places }
    }

    /// The number of what calls from outside.
    fn outside(&self) -> usize {
        self.crates.crates.len()
    }

    /// The upper edge of a row of boxes.
    fn top(&self, row: usize) -> usize {
        TOP + ROW * (self.rows[self.outside()] - row)
    }

    fn middle(&self, own: usize) -> usize {
        EDGE + self.places.boxes[own]
    }

    /// Where a line touches a box, among those that touch it on the same side, ordered by where they come from.
    fn touch(&self, line: usize, touched: impl Fn(usize) -> usize, from: impl Fn(usize) -> usize) -> usize {
        let mut beside: Vec<usize> = (0..self.lines.len()).filter(|&other| touched(other) == touched(line)).collect();
        beside.sort_by_key(|&other| from(other));
        let apart = ((self.width - 14) / beside.len()).min(16);
        let before = beside.iter().take_while(|&&other| other != line).count();
        self.middle(touched(line)) - apart * (beside.len() - 1) / 2 + apart * before
    }

    /// The points from left to right at which a line leaves its upper box, bends, and comes to its lower one.
    fn stops(&self, line: usize) -> Vec<usize> {
        let (upper, lower) = (|line: usize| self.lines[line].0, |line: usize| self.lines[line].1);
        let bends = |line: usize| self.places.bends[line].iter().map(|bend| EDGE + bend);
        let first = |line: usize| bends(line).next().unwrap_or_else(|| self.middle(lower(line)));
        let last = |line: usize| bends(line).next_back().unwrap_or_else(|| self.middle(upper(line)));
        let mut stops = vec![self.touch(line, upper, first)];
        stops.extend(bends(line));
        stops.push(self.touch(line, lower, last));
        stops
    }

    /// The path of a line, moved to the right by so much.
    fn path(&self, line: usize, moved: isize) -> String {
        let (upper, lower) = self.lines[line];
        let stops: Vec<usize> = self.stops(line).into_iter().map(|stop| stop.saturating_add_signed(moved)).collect();
        let mut path = format!("M{} {}", stops[0], self.top(self.rows[upper]));
        for (stop, row) in stops.windows(2).zip((self.rows[lower]..self.rows[upper]).rev()) {
            let (begin, end) = (self.top(row + 1) + HEIGHT, self.top(row));
            let half = (begin + end) / 2;
            path += &format!(" V{begin} C{} {half} {} {half} {} {end}", stop[0], stop[1], stop[1]);
        }
        path
    }
}

fn picture() -> String {
    let house = House::new();
    let width = house.places.width + 2 * EDGE;
    let steps = house.top(0) + HEIGHT + 44;
    let texts: Vec<Vec<(&str, String)>> =
        house.passed.iter().map(|passed| entered(&house, passed, (width / 2 - EDGE - NAMES) / 7)).collect();
    let legend = steps + STEP * texts.iter().map(Vec::len).max().unwrap_or(0) + 54;
    let mut drawing = Drawing::new(width, legend + 46, TITLE, &format!("<style>\n{STYLE}{OWN_STYLE}</style>\n{}", tips()));
    drawing.text(
        "small",
        EDGE,
        62,
        "A line leads from a crate down to one that it stands on; where that follows from other lines it is left out. An arrow is a call",
    );
    draw_lines(&mut drawing, &house);
    draw_boxes(&mut drawing, &house);
    for (i, (followed, texts)) in FOLLOWED.iter().zip(&texts).enumerate() {
        draw_steps(&mut drawing, followed, texts, if i == 0 { EDGE } else { width * i / FOLLOWED.len() }, steps);
    }
    draw_legend(&mut drawing, &house, width / 2, legend);
    drawing.finish()
}

/// The ends of the arrows.
fn tips() -> String {
    let tip = |Followed { class, .. }: &Followed| {
        format!(
            "<marker id=\"{class}\" viewBox=\"0 0 8 8\" refX=\"7\" refY=\"4\" markerWidth=\"5\" markerHeight=\"5\" orient=\"auto\">\
             <path class=\"tip {class}\" d=\"M0 0 L8 4 L0 8 Z\"/></marker>"
        )
    };
    format!("<defs>{}</defs>", FOLLOWED.iter().map(tip).collect::<String>())
}

/// Lines that no call passes first, so that the others lie on them.
fn draw_lines(drawing: &mut Drawing, house: &House) {
    let passing = |line: &(usize, usize)| -> Vec<&str> {
        let both = FOLLOWED.iter().zip(&house.passed);
        both.filter(|(_, passed)| passed.contains_key(line)).map(|(followed, _)| followed.class).collect()
    };
    let (passed, other): (Vec<usize>, Vec<usize>) = (0..house.lines.len()).partition(|&line| !passing(&house.lines[line]).is_empty());
    for line in other {
        drawing.path("line", &house.path(line, 0));
    }
    for line in passed {
        let classes = passing(&house.lines[line]);
        for (class, i) in classes.iter().zip(0..) {
            let path = house.path(line, 12 * i - 6 * (classes.len() as isize - 1));
            drawing.add(&format!("<path class=\"step {class}\" d=\"{path}\" marker-end=\"url(#{class})\"/>"));
        }
    }
}

fn draw_boxes(drawing: &mut Drawing, house: &House) {
    for (own, known) in house.crates.crates.iter().enumerate() {
        let class = match (known.is_program, house.crates.has_code(own)) {
            (true, _) => "program",
            (_, true) => "code",
            (_, false) => "laws",
        };
        draw_box(drawing, house, own, class, &known.name, &answered(&house.crates, own));
    }
    draw_box(drawing, house, house.outside(), "outside", "C", &["include/backoff.h"]);
}

fn draw_box(drawing: &mut Drawing, house: &House, own: usize, class: &str, name: &str, below: &[&str]) {
    let (middle, top) = (house.middle(own), house.top(house.rows[own]));
    drawing.rectangle(class, middle - house.width / 2, top, house.width, HEIGHT);
    let first = top + HEIGHT / 2 + 5 - 6 * below.len();
    drawing.text("word middle", middle, first, name);
    for (text, i) in below.iter().zip(1..) {
        drawing.text("number middle", middle, first + 1 + 12 * i, text);
    }
}

/// The calls of C that a crate answers.
fn answered(crates: &Crates, own: usize) -> Vec<&str> {
    let exports = crates.exports().filter(|&export| crates.answering(export) == Some(own));
    exports.map(|export| crates.functions[export].name.trim_start_matches("backoff_")).collect()
}

/// The room for a crate's name before the functions, and the distance from a line of them to the next.
const NAMES: usize = 112;
const STEP: usize = 18;

/// The crates that a call passes through, each with the functions by which it is entered, in lines of so many letters.
fn entered<'a>(house: &'a House, passed: &Passed, letters: usize) -> Vec<(&'a str, String)> {
    let mut lines = Vec::new();
    for (own, known) in house.crates.crates.iter().enumerate().rev() {
        let functions: BTreeSet<&usize> = passed.iter().filter(|(pair, _)| pair.1 == own).flat_map(|(_, functions)| functions).collect();
        let mut name = &known.name[..];
        let mut line = String::new();
        for function in functions.into_iter().map(|&function| &house.crates.functions[function].name) {
            if line.len() + function.len() > letters {
                lines.push((std::mem::take(&mut name), std::mem::take(&mut line) + ","));
            }
            line += if line.is_empty() { "" } else { ", " };
            line += function;
        }
        if !line.is_empty() {
            lines.push((name, line));
        }
    }
    lines
}

fn draw_steps(drawing: &mut Drawing, followed: &Followed, lines: &[(&str, String)], left: usize, top: usize) {
    drawing.text(&format!("call {}", followed.class), left, top, &format!("{}: {}", followed.call, followed.note));
    drawing.text("small", left, top + 18, "The crates that it passes through, and the functions by which it enters them");
    for ((name, functions), i) in lines.iter().zip(1..) {
        let y = top + 20 + STEP * i;
        drawing.text("", left, y, name);
        drawing.text("number", left + NAMES, y, functions);
    }
}

fn draw_legend(drawing: &mut Drawing, house: &House, half: usize, top: usize) {
    let programs = house.crates.crates.iter().filter(|known| known.is_program);
    let of_the_kit: Vec<&str> = programs.flat_map(|known| &known.of_the_kit).map(|name| &name[..]).collect();
    let entries = [
        ("code", EDGE, 0, "a crate with code; below its name the calls of C that it answers, without backoff_"),
        ("laws", half, 0, "definitions and laws, without code"),
        ("program", EDGE, 22, &format!("a program, over the kit's crates {} too", of_the_kit.join(", "))),
    ];
    for (class, x, down, text) in entries {
        drawing.rectangle(class, x, top + down - 11, 18, 13);
        drawing.text("small", x + 26, top + down, text);
    }
}

#[cfg(test)]
mod tests {
    use super::{House, FOLLOWED};

    /// The picture in docs is the one that crates.txt and the sources give.
    #[test]
    fn committed_picture() {
        assert!(super::picture() == include_str!("../../../docs/crates.svg"), "make docs/crates.svg again");
    }

    /// No box lies on another, and no line that passes a row lies on a box of it.
    #[test]
    fn nothing_overlaps() {
        let house = House::new();
        let boxes = (0..house.rows.len()).map(|own| (house.rows[own], house.places.boxes[own], house.width));
        let bends = house.lines.iter().zip(&house.places.bends).flat_map(|(&(upper, lower), bends)| {
            let rows = (house.rows[lower] + 1..house.rows[upper]).rev();
            rows.zip(bends).map(|(row, &bend)| (row, bend, 0))
        });
        let mut all: Vec<(usize, usize, usize)> = boxes.chain(bends).collect();
        all.sort();
        for pair in all.windows(2).filter(|pair| pair[0].0 == pair[1].0) {
            assert!(2 * pair[0].1 + pair[0].2 < 2 * pair[1].1 - pair[1].2, "{pair:?}");
        }
    }

    /// A build comes to the list, and a run to the array and not to the list.
    #[test]
    fn followed_calls() {
        let house = House::new();
        let reached = |passed: &super::Passed| -> Vec<&str> { passed.keys().map(|pair| &house.crates.crates[pair.1].name[..]).collect() };
        assert_eq!(FOLLOWED.map(|followed| followed.call), ["backoff_build", "backoff_run"]);
        assert!(["grader", "build", "list"].iter().all(|name| reached(&house.passed[0]).contains(name)));
        assert!(["grader", "score", "double_array"].iter().all(|name| reached(&house.passed[1]).contains(name)));
        assert!(!reached(&house.passed[1]).contains(&"list"));
    }
}
