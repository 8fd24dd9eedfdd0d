//! Pictures as SVG texts, all in one manner.

/// What every picture's style begins with.
pub const STYLE: &str = "  text { font-family: Helvetica, Arial, sans-serif; font-size: 13px; fill: #1f2933 }
  .panel { fill: #fcfcfa; stroke: #c5ccd3 }
  .title { font-size: 19px; font-weight: bold }
  .small { font-size: 11px; fill: #52606d }
  .number { font-family: Menlo, Consolas, 'DejaVu Sans Mono', monospace; font-size: 10.5px }
  .middle { text-anchor: middle }
  .end { text-anchor: end }
  .word { font-weight: bold }
";

/// An SVG text that grows.
pub struct Drawing(String);

impl Drawing {
    /// A panel with its title; `head` stands before everything that is drawn.
    pub fn new(width: usize, height: usize, title: &str, head: &str) -> Drawing {
        let mut drawing = Drawing(format!(
            "<svg xmlns=\"http://www.w3.org/2000/svg\" viewBox=\"0 0 {width} {height}\" role=\"img\">\n<title>{title}</title>\n{head}\n\
             <rect class=\"panel\" x=\"1\" y=\"1\" width=\"{}\" height=\"{}\" rx=\"12\"/>\n",
            width - 2,
            height - 2
        ));
        drawing.text("title", 28, 40, title);
        drawing
    }

    pub fn add(&mut self, element: &str) {
        self.0 += element;
        self.0 += "\n";
    }

    pub fn text(&mut self, class: &str, x: usize, y: usize, text: &str) {
        self.add(&format!("<text class=\"{class}\" x=\"{x}\" y=\"{y}\">{text}</text>"));
    }

    pub fn rectangle(&mut self, class: &str, x: usize, y: usize, width: usize, height: usize) {
        self.add(&format!("<rect class=\"{class}\" x=\"{x}\" y=\"{y}\" width=\"{width}\" height=\"{height}\"/>"));
    }

    pub fn path(&mut self, class: &str, path: &str) {
        self.add(&format!("<path class=\"{class}\" d=\"{path}\"/>"));
    }

    pub fn finish(self) -> String {
        self.0 + "</svg>\n"
    }
}
