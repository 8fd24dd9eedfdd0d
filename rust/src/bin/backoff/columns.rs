//! Cells in columns, each as wide as its widest cell.

/// The side of its column on which a cell stands.
#[derive(Clone, Copy, PartialEq)]
pub enum Side {
    Left,
    Right,
}

/// What stands between two columns.
const GAP: usize = 2;

pub struct Columns<const N: usize> {
    sides: [Side; N],
    widths: [usize; N],
}

impl<const N: usize> Columns<N> {
    pub fn new(sides: [Side; N]) -> Columns<N> {
        Columns { sides, widths: [0; N] }
    }

    /// Makes room for the cells of a line.
    pub fn fit(&mut self, cells: &[Vec<u8>; N]) {
        for (width, cell) in self.widths.iter_mut().zip(cells) {
            *width = (*width).max(letters(cell));
        }
    }

    /// All columns, and what stands between them.
    pub fn width(&self) -> usize {
        self.widths.iter().sum::<usize>() + GAP * (N - 1)
    }

    /// Prints a line behind so many spaces; none are left at its end.
    pub fn print(&self, indent: usize, cells: &[Vec<u8>; N], out: &mut Vec<u8>) {
        let mut spaces = indent;
        for (place, cell) in cells.iter().enumerate() {
            let rest = self.widths[place] - letters(cell);
            let (before, behind) = if self.sides[place] == Side::Left { (0, rest) } else { (rest, 0) };
            spaces += before;
            if !cell.is_empty() {
                space(out, spaces);
                out.extend(cell);
                spaces = 0;
            }
            spaces += behind + GAP;
        }
        out.push(b'\n');
    }
}

pub fn space(out: &mut Vec<u8>, count: usize) {
    out.extend(std::iter::repeat_n(b' ', count));
}

/// How many letters are shown for bytes.
pub fn letters(bytes: &[u8]) -> usize {
    String::from_utf8_lossy(bytes).chars().count()
}

#[cfg(test)]
mod tests {
    use super::{Columns, Side};

    #[test]
    fn sides() {
        let lines = [["a", "1", ""], ["", "-23", "x"], ["l\u{e4}nger", "", "yy"]].map(|cells| cells.map(|cell| cell.as_bytes().to_vec()));
        let mut columns = Columns::new([Side::Left, Side::Right, Side::Left]);
        lines.iter().for_each(|cells| columns.fit(cells));
        let mut out = Vec::new();
        lines.iter().for_each(|cells| columns.print(1, cells, &mut out));
        assert_eq!(String::from_utf8(out).unwrap(), " a         1\n         -23  x\n l\u{e4}nger       yy\n");
        assert_eq!(columns.width(), 6 + 2 + 3 + 2 + 2);
    }
}
