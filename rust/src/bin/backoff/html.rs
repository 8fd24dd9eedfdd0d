//! Texts and numbers as a page shows them.

use crate::decimal::log10_text;

/// A minus as it is printed.
const MINUS: &str = "\u{2212}";

/// A text, in which nothing is markup; what cannot be shown is written out.
pub fn text(bytes: &[u8]) -> String {
    String::from_utf8_lossy(bytes).chars().map(letter).collect()
}

fn letter(letter: char) -> String {
    match letter {
        '&' => "&amp;".to_string(),
        '<' => "&lt;".to_string(),
        '>' => "&gt;".to_string(),
        '"' => "&quot;".to_string(),
        '\'' => "&#39;".to_string(),
        '\u{feff}' => "\\u{feff}".to_string(),
        letter if letter.is_control() => letter.escape_default().to_string(),
        letter => letter.to_string(),
    }
}

/// Words, whose direction of writing does not move what stands around them.
pub fn words(bytes: &[u8]) -> String {
    format!("<bdi>{}</bdi>", text(bytes))
}

/// Whole points: digits in threes, which are set apart and read as one number.
pub fn points(points: i64) -> String {
    let digits = points.unsigned_abs().to_string();
    let first = (digits.len() - 1) % 3 + 1;
    let mut shown = if points < 0 { MINUS.to_string() } else { String::new() };
    shown += &digits[..first];
    for three in digits.as_bytes()[first..].as_chunks::<3>().0 {
        shown += &format!("<span>{}</span>", String::from_utf8_lossy(three));
    }
    shown
}

/// Points as a base-10 logarithm.
pub fn log10(points: i64) -> String {
    log10_text(points).replace('-', MINUS)
}

#[cfg(test)]
mod tests {
    use super::{log10, points, text};

    #[test]
    fn texts_and_numbers() {
        assert_eq!(text(b"<a href='x'>&\"\x1b\xff"), "&lt;a href=&#39;x&#39;&gt;&amp;&quot;\\u{1b}\u{fffd}");
        assert_eq!(points(0), "0");
        assert_eq!(points(-12), "\u{2212}12");
        assert_eq!(points(123), "123");
        assert_eq!(points(-1_234_567), "\u{2212}1<span>234</span><span>567</span>");
        assert_eq!(log10(-5_350_000), "\u{2212}5.35");
    }
}
