//! The form of ARPA texts: which lines `backoff_arpa` takes and where it refuses them, worked by hand, and by the second reader.

mod reader;

use reader::{read, verdict, ENOUGH, SAMPLE};
use tests::arpa::{bytes, log, replace};
use tests::random::Random;
use tests::reference::arpa::LONGEST_TEXT;

fn lines_of(text: &str) -> Vec<Vec<u8>> {
    text.lines().map(|line| line.as_bytes().to_vec()).collect()
}

/// The sample with a line (from 1) in place of another.
fn sample_with(line: usize, text: impl AsRef<[u8]>) -> Vec<u8> {
    let mut lines = lines_of(SAMPLE);
    lines[line - 1] = text.as_ref().to_vec();
    bytes(&lines)
}

/// Counts: the four spellings of the sign and up to nine digits; all else is 17.
#[test]
fn forms_of_counts() {
    for good in ["ngram 1=5", "ngram 1 =5", "ngram 1= 5", "ngram 1 = 5", "ngram 1=05", "ngram 1 = 000000005"] {
        assert_eq!(verdict(sample_with(2, good)), (0, 0), "{good}");
    }
    let bad = "ngram 1=|ngram 1|ngram 1=5 | ngram 1=5|ngram  1=5|ngram 1  =5|ngram 1=  5|ngram 1=0000000005|ngram 01=5|ngram 2=5\
        |ngram 0=5|ngram 6=5|Ngram 1=5|ngram 1=+5|ngram 1=-5|ngram 1=5.0|ngram 1\t=5|ngram 1=\t5|ngram\t1=5|ngram 1=5\r\
        |ngram1=5|ngram 1 5|ngram 1==5|ngram 1=5 5|ngram 1=x|ngram =5|ngram|1=5|\\data\\|\\1-grams:|\\end\\| |-1\t<s>";
    for bad in bad.split('|') {
        assert_eq!(verdict(sample_with(2, bad)), (17, 2), "{bad}");
    }
    assert_eq!(verdict(sample_with(2, "ngram 1=6")), (19, 13));
    assert_eq!(verdict(sample_with(2, "ngram 1=999999999")), (19, 13));
    assert_eq!(verdict(sample_with(2, "ngram 1=0")), (19, 13));
    assert_eq!(verdict(sample_with(3, "ngram 2=2")), (19, 18));
    assert_eq!(verdict(sample_with(4, "ngram 3=2")), (19, 21));
}

/// Headings, the data line and the end line are fixed; only the next one has a place.
#[test]
fn forms_of_headings() {
    for (line, heading) in [(1, "\\data\\"), (6, "\\1-grams:"), (13, "\\2-grams:"), (18, "\\3-grams:"), (21, "\\end\\")] {
        let place = line as u64;
        assert_eq!(verdict(sample_with(line, heading)), (0, 0));
        for bad in [
            heading.to_uppercase(),
            format!(" {heading}"),
            format!("{heading} "),
            format!("{heading}\r"),
            format!("{heading}:"),
            format!("\\{heading}"),
        ] {
            assert_eq!(verdict(sample_with(line, &bad)), (17, place), "{bad}");
        }
        for length in 1..heading.len() {
            assert_eq!(verdict(sample_with(line, &heading[..length])), (17, place), "{heading} cut at {length}");
        }
        for other in ["\\data\\", "\\0-grams:", "\\1-grams:", "\\2-grams:", "\\3-grams:", "\\4-grams:", "\\end\\", "ngram 1=5"] {
            if other != heading {
                assert_eq!(verdict(sample_with(line, other)), (17, place), "{other} for {heading}");
            }
        }
    }
}

/// Up to five lengths; an announced length without rows does not count for the order; none, a sixth or a gap is 17.
#[test]
fn announced_lengths() {
    let marks = "-1\t<unk>\n-1\t<s>\n-1\t</s>\n";
    let text = |counts: &str, sections: &str| format!("\\data\\\n{counts}\\1-grams:\n{marks}{sections}\\end\\\n");
    assert_eq!(verdict(text("ngram 1=3\n", "")), (0, 0));
    assert_eq!(verdict(text("ngram 1=3\nngram 2=0\n", "\\2-grams:\n")), (0, 0));
    let five = "ngram 1=3\nngram 2=0\nngram 3=0\nngram 4=0\nngram 5=0\n";
    assert_eq!(verdict(text(five, "\\2-grams:\n\\3-grams:\n\\4-grams:\n\\5-grams:\n")), (0, 0));
    assert_eq!(verdict(text(five, "\\2-grams:\n\\3-grams:\n\\4-grams:\n")), (17, 14));
    assert_eq!(verdict(text(&format!("{five}ngram 6=0\n"), "")), (17, 7));
    assert_eq!(verdict(text("", "")), (17, 2));
    assert_eq!(verdict(text("ngram 2=3\n", "")), (17, 2));
    assert_eq!(verdict(text("ngram 1=3\nngram 3=0\n", "")), (17, 3));
    assert_eq!(verdict(text("ngram 1=3\nngram 1=3\n", "")), (17, 3));
    assert_eq!(verdict("\\data\\\nngram 1=0\n\\1-grams:\n\\end\\\n"), (1, 0));
    assert_eq!(verdict("\\data\\\nngram 1=0\nngram 2=1\n\\1-grams:\n\\2-grams:\n-1\t<s> </s>\n\\end\\\n"), (18, 6));
}

/// Rows: p, words and b parted by single tabs and spaces.
#[test]
fn forms_of_rows() {
    for good in ["-0.3\tfour five", "-0.3\tfour five\t0", "-0\tfour five\t-0.0"] {
        assert_eq!(verdict(sample_with(14, good)), (0, 0), "{good}");
    }
    let bad = "-0.3 four five|-0.3\tfour\tfive|-0.3\tfour  five|-0.3\t four five|-0.3\tfour five |-0.3\tfour five\t\
        |-0.3\tfour five\t\t0|-0.3\t\tfour five|-0.3\tfour|-0.3\tfour five four|-0.3\t|-0.3|\tfour five|four five\
        |-0.3\tfour five\t0\t|-0.3\tfour five\t0 |-0.3\tfour five\t 0| -0.3\tfour five|-0.3 \tfour five|-0.3\tfour\u{1f}five\
        |-0.3\tfour five\r|-0.3\tfour five\t0\r|-0.3\tfour five\tx|-0.3\tfour five four\t0|-0.3\t\t0|-0.3\tfour \t0|\\2-grams:\
        |ngram 2=3|\\data\\|\\end\\|\t\t| |\r|\0";
    for bad in bad.split('|') {
        assert_eq!(verdict(sample_with(14, bad)), (17, 14), "{bad:?}");
    }
    assert_eq!(verdict(sample_with(14, "-0.3\tfour six")), (18, 14));
    assert_eq!(verdict(sample_with(14, "-0.3\tFour five")), (18, 14));
    assert_eq!(verdict(sample_with(14, "-0.3\tfour fiv")), (18, 14));
    assert_eq!(verdict(sample_with(14, "-0.3\tfour six\tx")), (17, 14));
}

/// Logarithms in form with their points, as p where they may be one and as b; and those that are not.
#[test]
fn forms_of_logs() {
    let good: [(&str, i32); 24] = [
        ("0", 0),
        ("-0", 0),
        ("000", 0),
        ("-000.0000000", 0),
        ("1", 1_000_000),
        ("-1", -1_000_000),
        ("007", 7_000_000),
        ("-0.5", -500_000),
        ("-000.5", -500_000),
        ("0.0000004", 0),
        ("0.0000005", 1),
        ("0.0000006", 1),
        ("-0.0000004", 0),
        ("-0.0000005", -1),
        ("-0.0000006", -1),
        ("-0.0000014", -1),
        ("-0.0000015", -2),
        ("98.9999995", 99_000_000),
        ("98.9999994", 98_999_999),
        ("-99.0000004", -99_000_000),
        ("99.0000004", 99_000_000),
        ("-99", -99_000_000),
        ("-1.2345678", -1_234_568),
        ("-12.3456494", -12_345_649),
    ];
    for (log, points) in good {
        let found = read(&sample_with(10, format!("-0.6\tfour\t{log}")), ENOUGH);
        assert_eq!((found.answer.number, found.table[8 * 3 + 7]), (0, points), "b {log}");
        if points <= 0 {
            let found = read(&sample_with(10, format!("{log}\tfour")), ENOUGH);
            assert_eq!((found.answer.number, found.table[8 * 3 + 6]), (0, points), "p {log}");
        }
    }
    let out_of_range = ["99.0000005", "-99.0000005", "100", "-100", "999.9999999", "-999.9999999"];
    for log in out_of_range {
        assert_eq!(verdict(sample_with(10, format!("-0.6\tfour\t{log}"))), (6, 4), "b {log}");
        assert_eq!(verdict(sample_with(10, format!("{log}\tfour"))), (5, 4), "p {log}");
    }
    assert_eq!(verdict(sample_with(10, "0.0000005\tfour")), (5, 4));
    assert_eq!(verdict(sample_with(10, "0.0000004\tfour")), (0, 0));
    let bad = "|-|.|-.|+1|.5|-.5|1.|-1.|1e2|1e-2|-inf|inf|nan|1000|-1000|0000|0.12345678|-0.00000000|1,5|1 | 1|--1|1-|1.-5|1..5|1.5.\
        |1.5.5|0x1|1_0|\u{661}|1.5f|- 1|1.2345678\0";
    for log in bad.split('|') {
        assert_eq!(verdict(sample_with(10, format!("-0.6\tfour\t{log}"))), (17, 10), "b {log:?}");
        assert_eq!(verdict(sample_with(10, format!("{log}\tfour\t0"))), (17, 10), "p {log:?}");
    }
}

/// Every rounding edge of some logarithms: the nearest point, a half away from zero, in every spelling.
#[test]
fn rounding_edges() {
    let mut random = Random::new(4);
    for points in [0, 1, 2, 9, 10, 499_999, 500_000, 999_999, 1_000_000, 9_999_999, 10_000_000, 98_999_999, 99_000_000]
        .into_iter()
        .chain((0..200).map(|_| random.between(0, 99_000_000)))
    {
        for units in [-6, -5, -4, -1, 0, 1, 4, 5, 6].map(|away| points as i64 * 10 + away) {
            for signed in [units, -units] {
                let mut random = Random::new(units.unsigned_abs());
                let text = String::from_utf8(log(&mut random, signed)).unwrap();
                let found = read(&sample_with(10, format!("-0.6\tfour\t{text}")), ENOUGH);
                // Twice the distance is at most a point's units, and at a half the size is the larger one.
                let nearest = (signed.abs() * 2 + 10) / 20 * signed.signum();
                assert!((2 * (nearest * 10 - signed)).abs() <= 10);
                if nearest.abs() <= 99_000_000 {
                    assert_eq!((found.answer.number, found.table[8 * 3 + 7] as i64), (0, nearest), "{text}");
                } else {
                    assert_eq!((found.answer.number, found.answer.place), (6, 4), "{text}");
                }
            }
        }
    }
}

/// Texts have 1 to 63 bytes, all above the space: each byte, and each length.
#[test]
fn texts_of_words() {
    let with = |text: &[u8]| {
        let sample = lines_of(SAMPLE).into_iter().map(|line| String::from_utf8(line).unwrap());
        let lines: Vec<Vec<u8>> = sample.map(|line| replace(line.as_bytes(), b"four", text)).collect();
        bytes(&lines)
    };
    for byte in 0..=255u8 {
        let (first, inner, last) = ([byte, b'x'], [b'x', byte, b'y'], [b'x', byte]);
        for text in [&[byte][..], &first, &inner, &last] {
            let expected = if byte > b' ' { (0, 0) } else { (17, 10) };
            // An LF parts the line: what stands before it may be in form, so that the rest of it is refused.
            if byte != b'\n' {
                assert_eq!(verdict(with(text)), expected, "{text:?}");
            } else {
                assert_eq!(verdict(with(text)).0, 17);
            }
        }
    }
    for length in 1..=130 {
        let text = vec![b'w'; length];
        let found = read(&with(&text), ENOUGH);
        if length <= LONGEST_TEXT {
            assert_eq!((found.answer.number, backoff::find_text(&found.store, &text)), (0, Some(4)));
        } else {
            assert_eq!((found.answer.number, found.answer.place), (17, 10));
        }
    }
    // Too long where it is used in a longer row alone: not in form before it is unlisted.
    for (length, expected) in [(LONGEST_TEXT, (18, 14)), (LONGEST_TEXT + 1, (17, 14))] {
        let long = "x".repeat(length);
        assert_eq!(verdict(sample_with(14, format!("-0.3\t{long} five"))), expected);
        assert_eq!(verdict(sample_with(14, format!("-0.3\tfour {long}"))), expected);
    }
}

/// The marks need their own one-word lines for longer rows too; a text that comes again keeps its number, adds a row and is counted.
#[test]
fn words_and_their_lines() {
    for (line, text) in [(7, "</s>"), (8, "<s>"), (9, "<unk>")] {
        let without = sample_with(line, "-1\tsix");
        let expected = if text == "<unk>" { (9, 0) } else { (18, if text == "<s>" { 15 } else { 16 }) };
        assert_eq!(verdict(without), expected, "{text}");
    }
    assert_eq!(verdict(sample_with(8, "-1\tfour\t-0.3")), (18, 15));
    // `four` twice, and counted: rows 1, 2, 3, 4, 4, 5.
    let mut lines = lines_of(SAMPLE);
    lines.insert(11, b"-0.7\tfour".to_vec());
    assert_eq!(verdict(bytes(&lines)), (19, 14));
    lines[1] = b"ngram 1=6".to_vec();
    assert_eq!(verdict(bytes(&lines)), (7, 5));
    lines[11] = b"-0.7\t<unk>".to_vec();
    assert_eq!(verdict(bytes(&lines)), (7, 2));
}

/// Lines before the data line or behind the end line are refused, but for empty ones; an LF is needed at the very end.
#[test]
fn around_the_text() {
    assert_eq!(verdict(format!("\n\n{SAMPLE}\n\n")), (0, 0));
    assert_eq!(verdict(format!("x\n{SAMPLE}")), (17, 1));
    assert_eq!(verdict(format!("\n \n{SAMPLE}")), (17, 2));
    assert_eq!(verdict(format!("{SAMPLE}x\n")), (17, 22));
    assert_eq!(verdict(format!("{SAMPLE}\n\n\\end\\\n")), (17, 24));
    assert_eq!(verdict(format!("{SAMPLE}\\data\\\n")), (17, 22));
    assert_eq!(verdict(format!("{SAMPLE} ")), (17, 22));
    assert_eq!(verdict(SAMPLE.trim_end()), (17, 21));
    assert_eq!(verdict(SAMPLE.replace('\n', "\r\n")), (17, 1));
    assert_eq!(verdict(""), (17, 1));
    assert_eq!(verdict("\n"), (17, 2));
    assert_eq!(verdict("\n\n\n"), (17, 4));
    assert_eq!(verdict("x"), (17, 1));
}

/// 17 also where the last section's count is wrong, since no line comes to bear 19.
#[test]
fn the_end_line_is_missing_and_a_count_is_wrong() {
    let text = SAMPLE.replace("ngram 3=1", "ngram 3=2");
    assert_eq!(verdict(&text), (19, 21));
    assert_eq!(verdict(text.replace("\\end\\\n", "")), (17, 21));
}
