//! `backoff in-form` and `--in-form`: texts as estimators write them, beside exact sums of their digits.

mod support;

use support::{any_text, Folder, Texted, SAMPLE};
use tests::arpa;
use tests::lists;
use tests::random::Random;
use tests::reference::arpa::{read_arpa, RECORD};
use tests::reference::list::{rows, Row};

/// A number as estimators write it: digits, of which so many are decimals.
#[derive(Clone, Copy)]
struct Exact {
    digits: i128,
    decimals: u32,
}

impl Exact {
    /// A number that is rounded to these points, with up to twelve decimals.
    fn near(random: &mut Random, points: i32) -> Exact {
        let decimals = 6 + random.below(7) as u32;
        let one = 10i128.pow(decimals - 6);
        let away = if one == 1 { 0 } else { random.below(one as usize) as i128 - one / 2 };
        // A half of a point is rounded away from zero.
        let away = if points == 0 { away / 2 } else { away * i128::from(points.signum()) };
        Exact { digits: points as i128 * one + away, decimals }
    }

    /// The nearest point, a half away from zero.
    fn points(self) -> i128 {
        let one = 10i128.pow(self.decimals - 6);
        (2 * self.digits.abs() + one) / (2 * one) * self.digits.signum()
    }

    /// The number in one of its spellings.
    fn spelled(self, random: &mut Random) -> String {
        let shift = random.between(-4, 4);
        let with_exponent = random.chance(40);
        let decimals = (self.decimals as i32 + if with_exponent { shift } else { 0 }) as usize;
        let digits = format!("{:0>width$}", self.digits.abs(), width = decimals + 1);
        let (whole, fraction) = digits.split_at(digits.len() - decimals);
        let whole = if whole == "0" && random.chance(20) { "" } else { whole };
        let fraction = if random.chance(30) { fraction.trim_end_matches('0') } else { fraction };
        let whole = if whole.is_empty() && fraction.is_empty() { "0" } else { whole };
        let point = if fraction.is_empty() && random.chance(50) { "" } else { "." };
        let sign = if self.digits < 0 { "-" } else { random.pick(&["", "+"]) };
        let exponent = match (with_exponent, shift, random.chance(50)) {
            (false, ..) => String::new(),
            (true, shift, true) => format!("e{shift:+03}"),
            (true, shift, false) => format!("E{shift}"),
        };
        format!("{sign}{whole}{point}{fraction}{exponent}")
    }
}

/// The value of a number that is in form, in ten-millionths.
fn ten_millionths(text: &str) -> i128 {
    let (whole, decimals) = text.trim_start_matches('-').split_once('.').unwrap_or((text.trim_start_matches('-'), ""));
    assert!((1..=3).contains(&whole.len()) && decimals.len() <= 7, "{text}");
    let size: i128 = format!("{whole}{decimals:0<7}").parse().unwrap();
    if text.starts_with('-') {
        -size
    } else {
        size
    }
}

/// A list, the lines of a text that has it in some estimator's spelling, and the numbers of its rows.
struct Written {
    list: Texted,
    lines: Vec<Vec<u8>>,
    /// For each line, its p and b.
    numbers: Vec<Vec<Exact>>,
}

fn written(random: &mut Random) -> Written {
    let order = 1 + random.below(5);
    let rows = lists::small(random, order);
    let rows = lists::mild(random, &rows);
    let list = Texted::new(random, &rows);
    let mut printed = arpa::print(&list.rows, &list.texts);
    let mut numbers = Vec::new();
    let mut next = list.rows.iter();
    for section in &mut printed.sections {
        for line in section.iter_mut() {
            let row = next.next().unwrap();
            let p = Exact::near(random, row.p);
            let with_b = row.b != 0 || random.chance(30);
            let b = with_b.then(|| Exact::near(random, row.b));
            let logs: Vec<String> = [Some(p), b].into_iter().flatten().map(|log| log.spelled(random)).collect();
            let words: Vec<&[u8]> = row.words.iter().map(|&word| list.text(word as u32)).collect();
            *line = spelled_row(random, &logs, &words);
            numbers.push([Some(p), b].into_iter().flatten().collect());
        }
    }
    for (length, line) in (1..).zip(&mut printed.counts) {
        let count = list.rows.iter().filter(|row| row.words.len() == length).count();
        let pad = |random: &mut Random| random.pick(&["", " ", "  ", "       ", "\t"]);
        *line = format!("ngram {}{length}{}={}{count}{}", pad(random), pad(random), pad(random), pad(random)).into_bytes();
    }
    Written { list, lines: printed.lines(), numbers }
}

/// A row with tabs and blanks around them, or with spaces alone.
fn spelled_row(random: &mut Random, logs: &[String], words: &[&[u8]]) -> Vec<u8> {
    let spaces: fn(&mut Random) -> &'static [u8] = |random| random.pick(&[&b" "[..], b"  ", b"   "]);
    let tabs: fn(&mut Random) -> &'static [u8] = |random| random.pick(&[&b"\t"[..], b" \t", b"\t "]);
    let between = if random.chance(60) { tabs } else { spaces };
    let mut line = if random.chance(10) { b"  ".to_vec() } else { Vec::new() };
    line.extend(logs[0].as_bytes());
    line.extend(between(random));
    for (place, word) in words.iter().enumerate() {
        line.extend(if place > 0 { spaces(random) } else { b"" });
        line.extend(*word);
    }
    if let Some(b) = logs.get(1) {
        line.extend(between(random));
        line.extend(b.as_bytes());
    }
    if random.chance(10) {
        line.extend(b" \t");
    }
    line
}

/// The bytes of lines, with what editors and estimators put around them, and how many lines stand before the text.
fn around(random: &mut Random, lines: &[Vec<u8>]) -> (Vec<u8>, usize) {
    let end: &[u8] = random.pick(&[b"\n", b"\r\n"]);
    let before: Vec<&[u8]> = (0..random.below(3)).map(|_| random.pick(&[&b""[..], b"trained by hand", b"ngram 1=7"])).collect();
    let behind: Vec<&[u8]> = (0..random.below(3)).map(|_| random.pick(&[&b""[..], b"trained in an hour"])).collect();
    let all = before.iter().copied().chain(lines.iter().map(Vec::as_slice)).chain(behind.iter().copied());
    let mut bytes = if random.chance(30) { b"\xEF\xBB\xBF".to_vec() } else { Vec::new() };
    bytes.extend(all.flat_map(|line| [line, end].concat()));
    if random.chance(30) {
        bytes.truncate(bytes.len() - end.len());
    }
    (bytes, before.len())
}

fn read(text: &[u8]) -> Vec<Row> {
    let lines = text.iter().filter(|&&byte| byte == b'\n').count();
    let (mut table, mut store) = (vec![0; 8 * lines], vec![0; RECORD * (lines + 4)]);
    let answer = read_arpa(text, false, &mut table, &mut store);
    assert_eq!((answer.number, answer.place), (0, 0), "{}", String::from_utf8_lossy(text));
    rows(&table[..8 * answer.rows as usize])
}

/// Whatever the spelling, the text in form is the list whose points are nearest to the numbers; no number is off by half a point; lines keep their numbers.
#[test]
fn texts_of_estimators() {
    for seed in 0..200 {
        let random = &mut Random::new(seed);
        let written = written(random);
        let (bytes, before) = around(random, &written.lines);
        let folder = Folder::new();
        folder.put("text", &bytes);
        let (put, told) = if random.chance(50) { folder.run("in-form text") } else { folder.run_on("in-form", &bytes) }.put_in_form();
        assert!(told.is_empty() == (put == bytes), "seed {seed}: {told}");
        assert_eq!(read(&put), written.list.rows, "seed {seed}");
        let put_lines: Vec<&[u8]> = put.split(|&byte| byte == b'\n').collect();
        let is_row = |line: &&&[u8]| line.contains(&b'\t');
        let row_lines: Vec<&&[u8]> = put_lines.iter().filter(is_row).collect();
        assert_eq!(row_lines.len(), written.numbers.len(), "seed {seed}");
        for (line, exact) in row_lines.iter().zip(&written.numbers) {
            let fields: Vec<String> = line.split(|&byte| byte == b'\t').map(|field| String::from_utf8_lossy(field).into_owned()).collect();
            let logs = [&fields[..1], &fields[2..]].concat();
            assert_eq!(logs.len(), exact.len());
            for (log, exact) in logs.iter().zip(exact) {
                let off = (ten_millionths(log) * 10i128.pow(5) - exact.digits * 10i128.pow(12 - exact.decimals)).abs();
                assert!(off < 10i128.pow(5), "{log}: {} of {} decimals", exact.digits, exact.decimals);
                assert!((exact.points() * 10 - ten_millionths(log)).abs() <= 5);
            }
        }
        for (number, line) in written.lines.iter().enumerate().filter(|(_, line)| line.starts_with(b"\\")) {
            assert_eq!(put_lines[before + number], &line[..], "seed {seed}");
        }
        let (again, told) = folder.run_on("in-form -", &put).put_in_form();
        assert!(again == put && told.is_empty(), "seed {seed}: {told}");
    }
}

/// Every subcommand that reads a model puts it in form on the way, and then does what it does with the text in form.
#[test]
fn on_the_way() {
    for seed in 0..12 {
        let random = &mut Random::new(seed);
        let written = written(random);
        let (bytes, _) = around(random, &written.lines);
        let folder = Folder::new();
        folder.put("as-it-comes", &bytes);
        let (put, told) = folder.run("in-form as-it-comes").put_in_form();
        folder.put("put", put);
        folder.put("text", any_text(random, &written.list, 5));
        let other = any_text(random, &written.list, 5);
        folder.put("other", if other.ends_with(b"\n") == folder.get("text").ends_with(b"\n") { other } else { folder.get("text") });
        for arguments in
            ["check M", "query M text", "query M text --plain", "query M text --both", "explain M text", "compare M text other"]
        {
            let alone = folder.run(&arguments.replace('M', "put")).printed();
            let (printed, said) = folder.run(&format!("{} --in-form", arguments.replace('M', "as-it-comes"))).put_in_form();
            assert!(printed == alone && said == told, "seed {seed}: {arguments}: {said}");
        }
        folder.run("build put array").printed();
        let said = folder.run("build as-it-comes other-array --in-form").put_in_form().1;
        assert!(folder.get("array") == folder.get("other-array") && said == told);
        folder.run("query array text --in-form").printed();
    }
}

/// A text with a bit of everything, byte for byte, and what is said of it.
#[test]
fn byte_for_byte() {
    let text = b"\xEF\xBB\xBFtrained by hand\n\\data\\ \r\nngram\t1 =  5 \r\n\r\n\\1-grams: \r\n-1e0 <unk>\r\n  +0.000  <s>   -.35\r\n\
        -1.123456789\t</s>\r\n-0001.5 a  -3.\r\n-9.9E-3\tb\t\r\n \\end\\\r\nmore\r\n\r\nstuff";
    let expected =
        "\n\\data\\\nngram 1=5\n\n\\1-grams:\n-1\t<unk>\n0\t<s>\t-0.35\n-1.1234567\t</s>\n-1.5\ta\t-3\n-0.0099\tb\n\\end\\\n\n\n\n";
    let told = "backoff: standard input: put in form:
  1 byte order mark taken away
  12 carriage returns taken away
  1 line before `\\data\\` emptied
  1 count written without other blanks
  7 lines parted by tabs and single spaces
  1 plus sign taken away
  2 exponents written out
  1 logarithm cut behind the seventh decimal
  3 logarithms with missing digits or leading zeros put right
  2 lines behind `\\end\\` emptied
  1 line feed put behind the last line
";
    let folder = Folder::new();
    let (put, said) = folder.run_on("in-form", text).put_in_form();
    assert_eq!((String::from_utf8(put).unwrap(), said), (expected.to_string(), told.to_string()));
    // Tabs for spaces, and spaces for tabs, wherever they stand.
    for (from, to) in
        [("-0.003\tfour five", "-0.003\tfour\tfive"), ("-0.006\tfour\t-0.002", "-6e-3 four\t-0.002"), ("<s> four\t", "<s>\tfour ")]
    {
        assert_eq!(SAMPLE.matches(from).count(), 1);
        assert_eq!(folder.run_on("in-form", SAMPLE.replace(from, to).as_bytes()).put_in_form().0, SAMPLE.as_bytes(), "{to}");
    }
    let (put, said) = folder.run_on("in-form", SAMPLE.trim_end().as_bytes()).put_in_form();
    assert_eq!(String::from_utf8(put).unwrap(), SAMPLE);
    assert_eq!(said, "backoff: standard input: put in form:\n  1 line feed put behind the last line\n");
}

/// What is in form stays as it is, and nothing is said; so does what is no ARPA text.
#[test]
fn texts_that_stay() {
    let folder = Folder::new();
    for text in [
        SAMPLE.as_bytes(),
        b"",
        b"no model\n",
        b"\xEF\xBB\xBFno model\r\n",
        b"iARPA\n\n\\data\\\nngram  1= 3\n",
        b"\x1F\x8B\x08\0",
        b"backoff\n\x01",
    ] {
        assert_eq!(folder.run_on("in-form", text).printed(), text);
    }
    for seed in 0..20 {
        let random = &mut Random::new(seed);
        let rows = lists::small(random, 3);
        let list = Texted::new(random, &rows);
        let text = arpa::print_varied(random, &list.rows, &list.texts).lines();
        let text = arpa::bytes(&arpa::with_blanks(random, &text));
        assert!(folder.run_on("in-form", &text).printed() == text, "seed {seed}");
    }
}

/// Lines that are not understood stay, so that the reader refuses them by their number.
#[test]
fn lines_that_stay() {
    let folder = Folder::new();
    let cases = [
        ("-0.006\tfour\t-0.002", "-inf\tfour\t-0.002", 10),
        ("-0.006\tfour\t-0.002", "-0.006\tfour\t-0.002\t-0.1", 10),
        ("-0.006\tfour\t-0.002", "-0.006 four -0.002 -0.1", 10),
        ("-0.003\tfour five", "-0.003\tfour\t-0.1", 14),
        ("-0.003\tfour five", "-0.003\tfour", 14),
        ("-0.003\tfour five", "-0.003 four", 14),
        ("-0.003\tfour five", "-0.003\tfour five six", 14),
        ("ngram 2=3", "ngram two = 3", 3),
        ("ngram 2=3", "ngram 2 3", 3),
        ("ngram 2=3", "ngram2=3", 3),
    ];
    for (from, to, line) in cases {
        assert_eq!(SAMPLE.matches(from).count(), 1);
        folder.put("m", SAMPLE.replace(from, to));
        assert_eq!(folder.run("in-form m").printed(), SAMPLE.replace(from, to).as_bytes(), "{to}");
        let told = folder.run("check m --in-form").refused();
        assert!(told.contains("refused by 17: ") && told.contains(&format!("\n  line {line}: ")), "{told}");
        assert!(!told.contains("--in-form"), "{told}");
    }
}

/// Through a pipe, as from zcat.
#[test]
fn from_a_pipe() {
    let folder = Folder::new();
    folder.put("m.arpa", SAMPLE.replace('\n', "\r\n"));
    assert_eq!(folder.shell("gzip <m.arpa | zcat | backoff in-form 2>told >put && backoff check put && cat told").status, Some(0));
    assert_eq!(folder.get("put"), SAMPLE.as_bytes());
    let lines = SAMPLE.lines().count();
    let told = format!("backoff: standard input: put in form:\n  {lines} carriage returns taken away\n");
    assert_eq!(String::from_utf8(folder.get("told")).unwrap(), told);
}
