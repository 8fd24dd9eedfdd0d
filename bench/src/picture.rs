//! Draws docs/performance.svg from the tables of the page.

use crate::figures::Table;
use crate::lists::KINDS;
use crate::pictured::{CALL, SCORER};
use crate::report::thousands;
use ::tests::drawing::{Drawing, STYLE};

const TITLE: &str = "Words a second, and how check, build and unload grow with the rows";

const WIDTH: usize = 1080;
const HEIGHT: usize = 560;

/// Where the two parts begin and end from above; a part's heading stands above its top.
const HEADING: usize = 78;
const TOP: usize = 116;
const BOTTOM: usize = 500;

const OWN_STYLE: &str = "  .grid { stroke: #e4e7eb; stroke-width: 1 }
  .on-grid { paint-order: stroke; stroke: #fcfcfa; stroke-width: 4px }
  .ours { fill: #3b6ea5 }
  .other { fill: #b8c2cc }
  .line { fill: none; stroke: currentColor; stroke-width: 2 }
  .point, .name { fill: currentColor }
  .dashed { stroke-dasharray: 6 4 }
  .dotted { stroke-dasharray: 1 4 }
  .check { color: #3b6ea5 }
  .build { color: #b91c1c }
  .unload { color: #8a6116 }
  .rows { color: #7b8794 }
";

/// The lines of the growth table that are drawn, and how.
const DRAWN: [(&str, &str); 4] =
    [("build, order 2", "build dashed"), ("build, natural", "build"), ("unload, natural", "unload"), ("check, natural", "check")];

/// The picture of a page; nothing where the page lacks a figure.
pub fn draw(page: &str) -> Option<String> {
    let (words, growth) = (Table::read(page, SCORER)?, Table::read(page, CALL)?);
    let description = format!("Million words a second: {}. Milliseconds for so many rows: {}.", told(&words), told(&growth));
    let head = format!("<desc>{description}</desc>\n<style>\n{STYLE}{OWN_STYLE}</style>");
    let mut drawing = Drawing::new(WIDTH, HEIGHT, TITLE, &head);
    draw_words(&mut drawing, &words)?;
    draw_growth(&mut drawing, &growth)?;
    Some(drawing.finish())
}

/// A table in words.
fn told(table: &Table) -> String {
    let line = |(name, figures): &(String, Vec<f64>)| {
        let figures: Vec<String> = table.columns.iter().zip(figures).map(|(column, figure)| format!("{figure} for {column}")).collect();
        format!("{name}: {}", figures.join(", "))
    };
    table.lines.iter().map(line).collect::<Vec<_>>().join("; ")
}

/// The figures from `low` to `high` on the pixels from `start` to `end`.
struct Scale {
    low: f64,
    high: f64,
    start: usize,
    end: usize,
}

impl Scale {
    fn place(&self, figure: f64) -> usize {
        let (start, end) = (self.start as f64, self.end as f64);
        (start + (figure - self.low) / (self.high - self.low) * (end - start)).round() as usize
    }
}

/// Where the bars begin from the left, where the last tick stands, and the heights of a list's group and of a bar with its gap.
const BARS: usize = 100;
const LAST_TICK: usize = 440;
const GROUP: usize = 130;
const BAR: usize = 24;

/// Bars, in a group for each list: the longest is the fastest.
fn draw_words(drawing: &mut Drawing, words: &Table) -> Option<()> {
    drawing.text("word", 28, HEADING, "Million words a second");
    drawing.text("small", 28, HEADING + 18, "Lists of 65,535 rows; every scorer scores the same words");
    let highest = words.lines.iter().flat_map(|line| &line.1).copied().fold(0.0, f64::max);
    let step = tick(highest)?;
    let ticks = (highest / step).ceil() as usize;
    let scale = Scale { low: 0.0, high: step * ticks as f64, start: BARS, end: LAST_TICK };
    for figure in (0..=ticks).map(|i| step * i as f64) {
        let x = scale.place(figure);
        drawing.path("grid", &format!("M{x} {TOP} V{BOTTOM}"));
        drawing.text("small middle", x, BOTTOM + 20, &figure.to_string());
    }
    for (i, list) in words.columns.iter().enumerate() {
        let kind = KINDS.iter().find(|kind| kind.name == list)?;
        let top = TOP + GROUP * i;
        drawing.text("small on-grid", BARS, top + 14, &format!("{list}: {}", kind.note));
        for (j, (scorer, figures)) in words.lines.iter().enumerate() {
            let (figure, y) = (*figures.get(i)?, top + 20 + BAR * j);
            let end = scale.place(figure);
            drawing.text("end", BARS - 8, y + 15, scorer);
            drawing.rectangle(if j == 0 { "ours" } else { "other" }, BARS, y, end - BARS, BAR - 4);
            drawing.text("on-grid", end + 6, y + 15, &format!("{figure:.1}"));
        }
    }
    Some(())
}

/// A round distance at which at most five ticks lead up to a figure.
fn tick(highest: f64) -> Option<f64> {
    let mut steps = (0..6).flat_map(|power| [1.0, 2.0, 5.0].map(|digit| digit * 10f64.powi(power)));
    steps.find(|step| highest <= 5.0 * step)
}

/// Where the lines begin and end from the left; their names stand behind them.
const LEFT: usize = 595;
const RIGHT: usize = 870;

/// Lines over the rows, both scales logarithmic.
fn draw_growth(drawing: &mut Drawing, growth: &Table) -> Option<()> {
    drawing.text("word", LEFT - 48, HEADING, "Time of a call against the rows");
    drawing.text("small", LEFT - 48, HEADING + 18, "Both scales are logarithmic; list natural where no other is named");
    let rows: Vec<f64> = growth.columns.iter().map(|rows| rows.replace(',', "").parse()).collect::<Result<_, _>>().ok()?;
    let lines = lines(growth, &rows)?;
    let figures = || lines.iter().flat_map(|line| &line.figures).map(|figure| figure.log10());
    let (low, high) = (figures().fold(f64::INFINITY, f64::min).floor(), figures().fold(f64::NEG_INFINITY, f64::max).ceil());
    let y = Scale { low, high, start: BOTTOM, end: TOP };
    let x = Scale { low: rows.first()?.log10(), high: rows.last()?.log10(), start: LEFT, end: RIGHT };
    let columns: Vec<usize> = rows.iter().map(|rows| x.place(rows.log10())).collect();
    for power in low as i32..=high as i32 {
        let place = y.place(power as f64);
        drawing.path("grid", &format!("M{LEFT} {place} H{RIGHT}"));
        drawing.text("small end", LEFT - 8, place + 4, &time(power));
    }
    for (place, name) in columns.iter().zip(&growth.columns) {
        drawing.path("grid", &format!("M{place} {TOP} V{BOTTOM}"));
        drawing.text("small middle", *place, BOTTOM + 20, name);
    }
    drawing.text("small middle", (LEFT + RIGHT) / 2, BOTTOM + 38, "rows");
    let mut names = Vec::new();
    for line in &lines {
        let places: Vec<(usize, usize)> =
            columns.iter().zip(&line.figures).map(|(&column, figure)| (column, y.place(figure.log10()))).collect();
        draw_line(drawing, line, &places);
        names.push((places.last()?.1, line));
    }
    draw_names(drawing, names);
    Some(())
}

/// A line that is drawn.
struct Line {
    name: String,
    class: &'static str,
    figures: Vec<f64>,
}

/// The lines of `DRAWN`, and below them one in proportion to the rows.
fn lines(growth: &Table, rows: &[f64]) -> Option<Vec<Line>> {
    let drawn = |&(name, class): &(&str, &'static str)| {
        let figures = growth.line(name).filter(|figures| figures.len() == rows.len())?.to_vec();
        let last = *figures.last()?;
        let last = if last < 100.0 { format!("{last:.1}") } else { thousands(last.round() as usize) };
        Some(Line { name: format!("{}: {last} ms", name.trim_end_matches(", natural")), class, figures })
    };
    let mut lines: Vec<Line> = DRAWN.iter().map(drawn).collect::<Option<_>>()?;
    let lowest = lines.iter().map(|line| line.figures[0]).fold(f64::INFINITY, f64::min) / 3.0;
    let figures = rows.iter().map(|row| lowest * row / rows[0]).collect();
    lines.push(Line { name: "in proportion to the rows".to_string(), class: "rows dotted", figures });
    Some(lines)
}

fn draw_line(drawing: &mut Drawing, line: &Line, places: &[(usize, usize)]) {
    let path: Vec<String> = places.iter().map(|(x, y)| format!("{x} {y}")).collect();
    drawing.path(&format!("line {}", line.class), &format!("M{}", path.join(" L")));
    if !line.class.contains("dotted") {
        for (x, y) in places {
            drawing.add(&format!("<circle class=\"point {}\" cx=\"{x}\" cy=\"{y}\" r=\"3\"/>", line.class));
        }
    }
}

/// The lines' names at their ends, one below the other.
fn draw_names(drawing: &mut Drawing, mut names: Vec<(usize, &Line)>) {
    const APART: usize = 16;
    names.sort_by_key(|name| name.0);
    let mut free = 0;
    for (place, line) in names {
        let y = free.max(place + 4);
        drawing.text(&format!("name {}", line.class), RIGHT + 12, y, &line.name);
        free = y + APART;
    }
}

/// A power of ten, in milliseconds.
fn time(power: i32) -> String {
    match power {
        3.. => format!("{} s", 10i32.pow(power as u32 - 3)),
        0..=2 => format!("{} ms", 10i32.pow(power as u32)),
        _ => format!("{:.*} ms", -power as usize, 10f64.powi(power)),
    }
}

#[cfg(test)]
mod tests {
    use super::draw;

    const PAGE: &str = "# Page\n
| scorer | natural | uniform | order 2 |
|---|--:|--:|--:|
| ours | 100.0 | 99.5 | 150.2 |
| Darts | 50.0 | 40.0 | 30.0 |
| irstlm | 10.0 | 11.0 | 12.0 |
| HashMap | 6.0 | 7.0 | 8.0 |

| call and list | 1,000 | 4,000 | 16,000 | 65,535 |
|---|--:|--:|--:|--:|
| check, natural | 0.044 | 0.215 | 1.079 | 5.549 |
| build, natural | 0.096 | 0.517 | 3.282 | 23.841 |
| build, order 2 | 0.140 | 6.837 | 94.889 | 1362.970 |
| unload, natural | 0.060 | 0.321 | 1.639 | 5.550 |
";

    /// The picture in docs is the one of the page.
    #[test]
    fn committed_picture() {
        let picture = draw(include_str!("../../docs/performance.md"));
        assert!(picture.as_deref() == Some(include_str!("../../docs/performance.svg")), "make docs/performance.svg again");
    }

    #[test]
    fn everything_is_drawn() {
        let picture = draw(PAGE).expect("the page has every figure");
        assert!(well_formed(&picture));
        let labels =
            ["Darts", "irstlm", "HashMap", "150.2", "4,000", "0.1 ms", "build, order 2: 1,363 ms", "build: 23.8 ms", "check: 5.5 ms"];
        for label in labels {
            assert!(picture.contains(&format!(">{label}</text>")), "{label} is missing");
        }
        let drawn = |element: &str| picture.matches(element).count();
        assert_eq!((drawn("<rect class=\"ours\""), drawn("<rect class=\"other\"")), (3, 9));
        assert_eq!((drawn("<path class=\"line "), drawn("<circle ")), (5, 16));
    }

    /// Unload and check end at one place, and their names stand one below the other.
    #[test]
    fn names_are_apart() {
        let picture = draw(PAGE).expect("the page has every figure");
        let mut places: Vec<usize> = picture.lines().filter(|line| line.starts_with("<text class=\"name ")).map(height).collect();
        places.sort();
        assert_eq!(places.len(), 5);
        assert!(places.windows(2).all(|pair| pair[1] - pair[0] >= 16));
    }

    fn height(element: &str) -> usize {
        element.split('"').nth(5).and_then(|y| y.parse().ok()).expect("a text with its y")
    }

    #[test]
    fn a_page_without_a_figure() {
        assert_eq!(draw(&PAGE.replace("build, order 2", "build")), None);
        assert_eq!(draw(&PAGE.replace("| 11.0 ", "")), None);
        assert_eq!(draw(""), None);
    }

    /// Every element is closed in its turn, and no text has a character that it must not have.
    fn well_formed(picture: &str) -> bool {
        let mut open = Vec::new();
        for part in picture.trim_end().split('<').skip(1) {
            let Some((tag, text)) = part.split_once('>') else { return false };
            let name = tag.split(' ').next().unwrap_or_default();
            match name.strip_prefix('/') {
                Some(name) if open.pop() != Some(name) => return false,
                None if !tag.ends_with('/') => open.push(name),
                _ => {}
            }
            if tag.matches('"').count() % 2 != 0 || text.contains(['>', '&']) {
                return false;
            }
        }
        open.is_empty()
    }
}
