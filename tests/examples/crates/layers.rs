//! Places for boxes in rows and for the lines between them, so that few lines cross and most run straight.

/// Where everything stands from the left. A line bends in each row between its ends.
pub struct Places {
    pub boxes: Vec<usize>,
    pub bends: Vec<Vec<usize>>,
    pub width: usize,
}

/// Boxes and, numbered after them, the bends of the lines; a link joins two of them in neighbouring rows.
struct Layers {
    rows: Vec<Vec<usize>>,
    links: Vec<Link>,
    widths: Vec<f64>,
}

struct Link {
    upper: usize,
    lower: usize,
    row: usize,
    weight: f64,
}

const GAP: f64 = 16.0;
const BEND: f64 = 4.0;

/// Places boxes of one width, of which each has a row, counted from below; a line leads from an upper box to a lower one.
pub fn place(rows: &[usize], lines: &[(usize, usize)], width: usize) -> Places {
    let mut layers = Layers::new(rows, lines, width as f64);
    layers.order();
    let middles = layers.middles();
    let left = |i: usize| middles[i] - layers.widths[i] / 2.0;
    let first = (0..middles.len()).map(left).fold(f64::INFINITY, f64::min);
    let last = (0..middles.len()).map(|i| left(i) + layers.widths[i]).fold(0.0, f64::max);
    let mut places = middles.iter().map(|middle| (middle - first).round() as usize);
    let boxes = places.by_ref().take(rows.len()).collect();
    let bends = lines.iter().map(|&(upper, lower)| places.by_ref().take(rows[upper] - rows[lower] - 1).collect()).collect();
    Places { boxes, bends, width: (last - first).ceil() as usize }
}

impl Layers {
    fn new(heights: &[usize], lines: &[(usize, usize)], width: f64) -> Layers {
        let mut layers = Layers { rows: Vec::new(), links: Vec::new(), widths: vec![width; heights.len()] };
        for row in 0..=heights.iter().copied().max().unwrap_or(0) {
            layers.rows.push((0..heights.len()).filter(|&own| heights[own] == row).collect());
        }
        for &(top, bottom) in lines {
            let mut upper = top;
            for row in (heights[bottom]..heights[top]).rev() {
                let lower = if row == heights[bottom] { bottom } else { layers.bend(row) };
                let bends = (upper >= heights.len()) as u32 + (lower >= heights.len()) as u32;
                layers.links.push(Link { upper, lower, row, weight: f64::from(1 << bends) });
                upper = lower;
            }
        }
        layers
    }

    fn bend(&mut self, row: usize) -> usize {
        self.widths.push(BEND);
        self.rows[row].push(self.widths.len() - 1);
        self.widths.len() - 1
    }

    /// Orders each row by its neighbours above and below in turn, and keeps what has the fewest crossings.
    fn order(&mut self) {
        let mut best = (self.crossings(), self.rows.clone());
        for round in 0..40 {
            for i in 0..self.rows.len() {
                let row = if round % 2 == 0 { self.rows.len() - 1 - i } else { i };
                self.sort(row, round % 2 == 0);
            }
            self.exchange();
            let crossings = self.crossings();
            if crossings < best.0 {
                best = (crossings, self.rows.clone());
            }
        }
        self.rows = best.1;
    }

    /// The neighbours of a box or bend, with the weights of their links.
    fn neighbours(&self, own: usize, above: bool) -> impl Iterator<Item = (usize, f64)> + '_ {
        let end = move |link: &Link| if above { (link.lower, link.upper) } else { (link.upper, link.lower) };
        self.links.iter().filter(move |link| end(link).0 == own).map(move |link| (end(link).1, link.weight))
    }

    fn sort(&mut self, row: usize, above: bool) {
        let at = self.at();
        let mean = |own: usize| {
            let places: Vec<f64> = self.neighbours(own, above).map(|(other, _)| at[other] as f64).collect();
            if places.is_empty() {
                at[own] as f64
            } else {
                places.iter().sum::<f64>() / places.len() as f64
            }
        };
        let mut sorted: Vec<(f64, usize)> = self.rows[row].iter().map(|&own| (mean(own), own)).collect();
        sorted.sort_by(|one, other| one.0.total_cmp(&other.0));
        self.rows[row] = sorted.into_iter().map(|(_, own)| own).collect();
    }

    /// The place of each box or bend in its row.
    fn at(&self) -> Vec<usize> {
        let mut at = vec![0; self.widths.len()];
        for row in &self.rows {
            for (i, &own) in row.iter().enumerate() {
                at[own] = i;
            }
        }
        at
    }

    fn crossings(&self) -> usize {
        let at = self.at();
        let cross = |one: &Link, other: &Link| one.row == other.row && at[one.upper] < at[other.upper] && at[one.lower] > at[other.lower];
        self.links.iter().map(|one| self.links.iter().filter(|other| cross(one, other)).count()).sum()
    }

    /// Exchanges neighbours of a row as long as that leaves fewer crossings.
    fn exchange(&mut self) {
        let mut fewest = self.crossings();
        loop {
            let before = fewest;
            for row in 0..self.rows.len() {
                for i in 1..self.rows[row].len() {
                    self.rows[row].swap(i - 1, i);
                    let crossings = self.crossings();
                    if crossings < fewest {
                        fewest = crossings;
                    } else {
                        self.rows[row].swap(i - 1, i);
                    }
                }
            }
            if fewest == before {
                return;
            }
        }
    }

    /// The middle of each box and bend: near its neighbours, and apart from those beside it. What is far counts less, so that a line makes one wide bend and not many small ones.
    fn middles(&self) -> Vec<f64> {
        let mut middles = vec![0.0; self.widths.len()];
        for round in 0..400 {
            let near = 4000.0 / f64::from(round + 10);
            for row in self.rows.iter().rev().chain(&self.rows) {
                let wanted: Vec<(f64, f64)> = row.iter().map(|&own| self.wanted(own, &middles, near)).collect();
                for (&own, middle) in row.iter().zip(self.apart(row, &wanted)) {
                    middles[own] = middle;
                }
            }
        }
        middles
    }

    /// The place that a box or bend would have by its neighbours alone, and its weight.
    fn wanted(&self, own: usize, middles: &[f64], near: f64) -> (f64, f64) {
        let (mut sum, mut weights) = (0.0, 0.0);
        for (other, weight) in self.neighbours(own, true).chain(self.neighbours(own, false)) {
            let weight = weight / ((middles[own] - middles[other]).abs() + near);
            sum += middles[other] * weight;
            weights += weight;
        }
        (sum / weights, weights)
    }

    /// The places that lie nearest to the wanted ones, by their weights, among those that keep the row's order and gaps.
    fn apart(&self, row: &[usize], wanted: &[(f64, f64)]) -> Vec<f64> {
        let mut offsets = vec![0.0];
        for pair in row.windows(2) {
            offsets.push(offsets[offsets.len() - 1] + (self.widths[pair[0]] + self.widths[pair[1]]) / 2.0 + GAP);
        }
        let mut blocks: Vec<(f64, f64, usize)> = Vec::new();
        for (&(place, weight), offset) in wanted.iter().zip(&offsets) {
            let mut block = (place - offset, weight, 1);
            while let Some(last) = blocks.pop_if(|last| last.0 > block.0) {
                let weight = last.1 + block.1;
                block = ((last.0 * last.1 + block.0 * block.1) / weight, weight, last.2 + block.2);
            }
            blocks.push(block);
        }
        let places = blocks.iter().flat_map(|&(place, _, count)| std::iter::repeat_n(place, count));
        places.zip(offsets).map(|(place, offset)| place + offset).collect()
    }
}
