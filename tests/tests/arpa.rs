//! `backoff_arpa` against the second reader: answer, table and store for every text and every two buffers.

mod reader;

use reader::{read, read_told, verdict, ENOUGH, SAMPLE};
use tests::arpa::{bytes, damage_bytes, damage_lines, dense, print, print_varied, replace, shuffle, texts, with_blanks, Arpa};
use tests::lists::{self, table};
use tests::random::Random;
use tests::reference::arpa::{Answer, LONGEST_TEXT, RECORD};
use tests::reference::list::{Row, LARGEST_WORD, MOST_ROWS};

/// The store of these texts, for the words from 1.
fn store_of(texts: &[Vec<u8>], length: usize) -> Vec<u8> {
    let mut store = vec![0; length];
    for (word, text) in (1..).zip(texts) {
        store[RECORD * word] = text.len() as u8;
        store[RECORD * word + 1..][..text.len()].copy_from_slice(text);
    }
    store
}

/// The least room of a list over the words 1 to so many.
fn fitting(rows: usize, words: usize) -> (usize, usize) {
    (8 * rows, RECORD * (words + 1))
}

fn small_list(random: &mut Random) -> (Vec<Row>, usize) {
    let order = 1 + random.below(5);
    let rows = dense(&lists::small(random, order));
    let words = rows.iter().filter(|row| row.words.len() == 1).count();
    (rows, words)
}

/// The sample list of document 01, its rows in another order: rows and texts as worked by hand, and 0 behind them.
#[test]
fn sample_is_read() {
    let texts = ["<unk>", "<s>", "</s>", "four", "five"].map(|text| text.as_bytes().to_vec());
    for (items, length) in [(72, 384), (73, 385), (200, 1_000)] {
        let found = read(SAMPLE.as_bytes(), (items, length));
        assert_eq!(found.answer, Answer { number: 0, rows: 9, place: 0 });
        assert_eq!(found.table[..72], table(&lists::sample()));
        assert!(found.table[72..].iter().all(|&number| number == 0) && found.store == store_of(&texts, length));
    }
}

/// Told that filling follows, a pruned list is read as it is; else the same text is refused by 8. It is not filled, and no p of an added row is tried.
#[test]
fn pruned_texts() {
    let mut random = Random::new(30);
    let mut met = [0; 2];
    for i in 0..300 {
        let small = lists::small(&mut random, 1 + i % 5);
        let rows = dense(&lists::pruned(&mut random, &small, 40));
        let words = rows.iter().filter(|row| row.words.len() == 1).count();
        let texts = texts(&mut random, words);
        let mut shuffled = rows.clone();
        shuffle(&mut random, &mut shuffled);
        shuffled.sort_by_key(|row| (row.words.len(), if row.words.len() == 1 { row.words[0] } else { 0 }));
        let text = print(&shuffled, &texts).bytes();
        let found = read_told(&text, true, ENOUGH);
        assert_eq!(found.answer, Answer { number: 0, rows: rows.len() as u32, place: 0 });
        assert_eq!(found.table[..8 * rows.len()], table(&rows));
        let number = read_told(&text, false, ENOUGH).answer.number;
        assert!(number == 0 || number == 8, "{number}");
        met[(number == 8) as usize] += 1;
    }
    assert!(met[0] > 0 && met[1] > 0, "{met:?}");
    // A row without its last word stays needed, and so does a one-word row.
    let without = |words: &str, m: usize| {
        let lines = SAMPLE.lines().filter(|line| line.split('\t').nth(1) != Some(words));
        let text: String = lines.map(|line| format!("{line}\n")).collect();
        let count = table(&lists::sample()).chunks(8).filter(|row| row[0] == m as i32).count();
        text.replace(&format!("ngram {m}={count}"), &format!("ngram {m}={}", count - 1))
    };
    let told = |text: &str, to_be_filled| read_told(text.as_bytes(), to_be_filled, ENOUGH).answer.number;
    assert_eq!((told(&without("four five", 2), true), told(&without("four five", 2), false)), (0, 8));
    assert_eq!((told(&without("<s> four", 2), true), told(&without("<s> four", 2), false)), (8, 8));
    assert_eq!((told(&without("</s>", 1), true), told(&without("</s>", 1), false)), (18, 18));
}

/// A printed list reads back as that list and those texts, whatever the spelling, in buffers that just hold it or are larger.
#[test]
fn printed_reads_back() {
    let mut random = Random::new(1);
    for _ in 0..3_000 {
        let (rows, words) = small_list(&mut random);
        let texts = texts(&mut random, words);
        let arpa = print_varied(&mut random, &rows, &texts);
        let text = bytes(&with_blanks(&mut random, &arpa.lines()));
        let (items, length) = fitting(rows.len(), words);
        let room = (items + random.below(20), length + random.below(100));
        let found = read(&text, room);
        assert_eq!(found.answer, Answer { number: 0, rows: rows.len() as u32, place: 0 });
        assert!(found.table[..items] == table(&rows) && found.table[items..].iter().all(|&number| number == 0));
        assert!(found.store == store_of(&texts, room.1));
    }
}

/// Rows in any order give an accepted list of as many rows; the texts are numbered as the one-word section has them.
#[test]
fn any_row_order() {
    let mut random = Random::new(2);
    for _ in 0..3_000 {
        let (mut rows, words) = small_list(&mut random);
        let texts = texts(&mut random, words);
        shuffle(&mut random, &mut rows);
        let arpa = print_varied(&mut random, &rows, &texts);
        let found = read(&bytes(&with_blanks(&mut random, &arpa.lines())), fitting(rows.len(), words));
        assert_eq!(found.answer, Answer { number: 0, rows: rows.len() as u32, place: 0 });
        let others = rows.iter().filter(|row| row.words.len() == 1 && row.words[0] > 3);
        for (number, row) in (4..).zip(others) {
            assert_eq!(backoff::find_text(&found.store, &texts[row.words[0] as usize - 1]), Some(number));
        }
        assert_eq!(backoff::texts(&found.store).count(), words);
    }
}

/// Rows of equal words stay as they came: a p or b out of range is met at the first or second of them, as it stands in the text, and else 7 at the second.
#[test]
fn equal_rows() {
    let mut random = Random::new(3);
    for _ in 0..3_000 {
        let (mut rows, words) = small_list(&mut random);
        let place = random.below(rows.len());
        let copies = 1 + random.below(3);
        for _ in 0..copies {
            rows.insert(place, rows[place].clone());
        }
        let bad = random.below(copies + 1);
        let in_order = rows.clone();
        match random.below(3) {
            0 => rows[place + bad].p = 1,
            1 => rows[place + bad].b = -99_000_001,
            _ => {}
        }
        let number = if rows[place + bad].p == 1 { 5 } else { 6 };
        // A fault of the second copy or of a later one comes after the second's 7.
        let expected = match bad {
            0 | 1 if rows != in_order => (number, (place + bad) as u64 + 1),
            _ => (7, place as u64 + 2),
        };
        let arpa = print(&rows, &texts(&mut random, words));
        assert_eq!(verdict(arpa.bytes()), expected);
    }
}

/// A text that ends at any byte is 17: at the line that is cut, or at the one behind the last.
#[test]
fn cut_texts() {
    for length in 0..SAMPLE.len() {
        let cut = &SAMPLE[..length];
        let lines = cut.bytes().filter(|&byte| byte == b'\n').count() as u64;
        assert_eq!(verdict(cut), (17, lines + 1), "cut at {length}");
    }
    let mut random = Random::new(5);
    for _ in 0..300 {
        let text = good_text(&mut random);
        for _ in 0..20 {
            read(&text[..random.below(text.len() + 1)], ENOUGH);
        }
    }
}

fn good_text(random: &mut Random) -> Vec<u8> {
    let (mut rows, words) = small_list(random);
    if random.chance(70) {
        shuffle(random, &mut rows);
    }
    let texts = texts(random, words);
    let arpa = print_varied(random, &rows, &texts);
    bytes(&with_blanks(random, &arpa.lines()))
}

/// Every length of either buffer: 15 at the line of the first row or text that does not fit, and nothing left behind.
#[test]
fn room() {
    // The rows stand in the lines 7 to 11, 14 to 16 and 19; the texts are words 3, 2, 1, 4 and 5.
    let lines = [7, 8, 9, 10, 11, 14, 15, 16, 19];
    for items in 0..=80 {
        let expected = if items < 72 { (15, lines[items / 8]) } else { (0, 0) };
        let found = read(SAMPLE.as_bytes(), (items, 384));
        assert_eq!((found.answer.number, found.answer.place), expected, "{items} items");
    }
    for length in 0..=400 {
        let expected = match length {
            0..256 => (15, 7),
            256..320 => (15, 10),
            320..384 => (15, 11),
            _ => (0, 0),
        };
        let found = read(SAMPLE.as_bytes(), (72, length));
        assert_eq!((found.answer.number, found.answer.place), expected, "{length} bytes");
    }
    assert_eq!(read(b"", (0, 0)).answer, Answer { number: 17, rows: 0, place: 1 });
    assert_eq!(read(b"\\data\\\nngram 1=0\n\\1-grams:\n\\end\\\n", (0, 0)).answer, Answer { number: 1, rows: 0, place: 0 });
}

/// Random texts in buffers that hold them, that just do not, or that are empty.
#[test]
fn room_for_random_texts() {
    let mut random = Random::new(6);
    let mut short = 0;
    for _ in 0..3_000 {
        let (mut rows, words) = small_list(&mut random);
        shuffle(&mut random, &mut rows);
        let text = print(&rows, &texts(&mut random, words)).bytes();
        let (items, length) = fitting(rows.len(), words);
        let near = |random: &mut Random, right: usize| match random.below(6) {
            0 => right,
            1 => right - 1,
            2 => 0,
            3 => random.below(right),
            _ => right + random.below(9),
        };
        let room = (near(&mut random, items), near(&mut random, length));
        let number = read(&text, room).answer.number;
        assert_eq!(number == 0, room.0 >= items && room.1 >= length);
        short += (number == 15) as usize;
    }
    assert!(short > 1_000);
}

/// A fault of a text whose lines are known, with the number that it gives by itself, and the line (from 1) if it has one: those of the list have none.
struct Fault {
    number: u32,
    line: Option<usize>,
    kind: Kind,
}

enum Kind {
    /// The line gets this in front.
    Front(usize, &'static str),
    /// The line's first word becomes one that has no line of its own.
    Unlisted(usize),
    /// The count in this line gets a digit more.
    Count(usize),
    /// The table ends in front of the last number of this row.
    Items(usize),
    /// The store ends in front of the last byte of this word's record.
    Bytes(usize),
    /// The line's b becomes this.
    BackOff(usize, &'static str),
    /// The text ends in front of this line.
    End(usize),
}

impl Kind {
    fn apply(&self, lines: &mut Vec<Vec<u8>>, room: &mut (usize, usize)) {
        match *self {
            Kind::Front(line, bytes) => lines[line - 1] = [bytes.as_bytes(), &lines[line - 1]].concat(),
            Kind::Unlisted(line) => lines[line - 1] = replace(&lines[line - 1], b"\t", b"\tno-"),
            Kind::Count(line) => lines[line - 1].push(b'0'),
            Kind::Items(row) => room.0 = room.0.min(8 * row - 1),
            Kind::Bytes(word) => room.1 = room.1.min(RECORD * (word + 1) - 1),
            Kind::BackOff(line, log) => {
                let fields: Vec<&[u8]> = lines[line - 1].split(|&byte| byte == b'\t').collect();
                lines[line - 1] = [fields[0], fields[1], log.as_bytes()].join(&b'\t');
            }
            Kind::End(line) => lines.truncate(line - 1),
        }
    }
}

/// A text whose lines are known: its counts stand in the lines 2, 3 and so on.
struct Lined {
    lines: Vec<Vec<u8>>,
    room: (usize, usize),
    /// The lines of the rows, section by section.
    rows: Vec<Vec<usize>>,
    /// The line behind each section.
    behind: Vec<usize>,
}

impl Lined {
    /// From a list whose one-word rows come in the order of their words.
    fn new(rows: &[Row], words: usize, texts: &[Vec<u8>]) -> Lined {
        let lines: Vec<Vec<u8>> = print(rows, texts).lines().into_iter().filter(|line| !line.is_empty()).collect();
        let mut lined = Lined { lines, room: fitting(rows.len(), words), rows: Vec::new(), behind: Vec::new() };
        for (number, line) in (1..).zip(&lined.lines) {
            if line.contains(&b'\t') {
                lined.rows.last_mut().expect("a heading comes before the rows").push(number);
            } else if line.starts_with(b"\\") && number > 1 {
                lined.rows.push(Vec::new());
                lined.behind.push(number);
            }
        }
        // The first heading stands behind no section, and no section behind the end line.
        lined.behind.remove(0);
        lined.rows.pop();
        lined
    }

    /// Every fault at the first, a middle and the last line where it can stand. A text is cut after all else.
    fn faults(&self) -> Vec<Fault> {
        let ends = |items: &[usize]| [items[0], items[items.len() / 2], items[items.len() - 1]];
        let fault = |number, line, kind| Fault { number, line: Some(line), kind };
        let (rows, longer) = (self.rows.concat(), self.rows[1..].concat());
        let fixed: Vec<usize> = (1..=self.lines.len()).filter(|line| !rows.contains(line)).collect();
        let mut faults: Vec<Fault> = ends(&longer).map(|line| fault(18, line, Kind::Unlisted(line))).into();
        faults.extend(ends(&rows).into_iter().chain(fixed).map(|line| fault(17, line, Kind::Front(line, "+"))));
        faults.extend(ends(&longer).map(|line| fault(17, line, Kind::Front(line, " "))));
        faults.extend((2..).zip(&self.behind).map(|(count, &line)| fault(19, line, Kind::Count(count))));
        let row_numbers: Vec<usize> = (1..=rows.len()).collect();
        faults.extend(ends(&row_numbers).map(|row| fault(15, rows[row - 1], Kind::Items(row))));
        let words: Vec<usize> = (1..=self.rows[0].len()).collect();
        faults.extend(ends(&words).map(|word| fault(15, self.rows[0][word - 1], Kind::Bytes(word))));
        faults.extend(ends(&rows).map(|line| Fault { number: 6, line: None, kind: Kind::BackOff(line, "-99.1") }));
        faults.push(fault(17, self.lines.len(), Kind::End(self.lines.len())));
        faults
    }

    /// The agreed answer to the text with these faults.
    fn verdict(&self, faults: &[&Fault]) -> (u32, u64) {
        let (mut lines, mut room) = (self.lines.clone(), self.room);
        for fault in faults {
            fault.kind.apply(&mut lines, &mut room);
        }
        let Answer { number, place, .. } = read(&bytes(&lines), room).answer;
        (number, place)
    }
}

/// A list of order 3 with several rows of each length, over texts that no other text begins with.
fn lined() -> Lined {
    let mut random = Random::new(7);
    loop {
        let rows = dense(&lists::small(&mut random, 3));
        let words = rows.iter().filter(|row| row.words.len() == 1).count();
        let enough = (1..=3).all(|m| rows.iter().filter(|row| row.words.len() == m).count() >= 4);
        if enough && rows.len() < 40 {
            let texts: Vec<Vec<u8>> = ["<unk>", "<s>", "</s>"]
                .map(String::from)
                .into_iter()
                .chain((4..=words).map(|word| format!("w{word}.")))
                .map(String::into_bytes)
                .collect();
            return Lined::new(&rows, words, &texts);
        }
    }
}

/// The place of a refusal among those of a line: 17, 18, 15, 19.
fn rank(number: u32) -> usize {
    [17, 18, 15, 19].iter().position(|&other| other == number).expect("a refusal with a line")
}

/// Every refusal of a line at the first, a middle and the last line where it can stand, and those of the list after all of them.
#[test]
fn each_fault_by_itself() {
    let text = lined();
    assert_eq!(text.verdict(&[]), (0, 0));
    for fault in text.faults() {
        let found = text.verdict(&[&fault]);
        assert_eq!(found.0, fault.number);
        if let Some(line) = fault.line {
            assert_eq!(found.1, line as u64);
        }
    }
}

/// Two faults in one text: the earlier line decides, in one line 17 before 18 before 15, and any of them before those of the list.
#[test]
fn each_pair_of_faults() {
    let text = lined();
    let faults = text.faults();
    for (i, second) in faults.iter().enumerate() {
        for first in &faults[..i] {
            let found = text.verdict(&[first, second]);
            let with_line = [first, second].into_iter().filter_map(|fault| Some((fault.line?, rank(fault.number), fault.number)));
            match with_line.min() {
                Some((line, _, number)) => assert_eq!(found, (number, line as u64)),
                None => assert_eq!(found.0, 6),
            }
        }
    }
}

/// The list's refusals have the row in list order, however the rows came; those of a line are met before them.
#[test]
fn faults_of_the_list() {
    let mut random = Random::new(8);
    let mut met = [0; 10];
    for i in 0..10_000 {
        let (mut rows, words) = small_list(&mut random);
        let at = random.below(rows.len());
        match i % 5 {
            0 => rows[at].p = random.pick(&[1, -99_000_001, 500_000_000]),
            1 => rows[at].b = random.pick(&[1, 99_000_001, -99_000_001]),
            2 => rows.insert(at, rows[at].clone()),
            3 if rows[at].words.len() > 1 => {
                rows.remove(at);
            }
            _ => rows.retain(|row| !row.words.contains(&(1 + i as i32 / 5 % 3))),
        }
        shuffle(&mut random, &mut rows);
        let texts = texts(&mut random, words);
        let arpa = print_varied(&mut random, &rows, &texts);
        let (number, _) = verdict(arpa.bytes());
        assert!(number <= 9, "{number}");
        met[number as usize] += 1;
    }
    assert!([0, 5, 6, 7, 8, 9].iter().all(|&number| met[number] > 100), "{met:?}");
}

/// Good texts with some lines or bytes changed; every refusal but 3 and 4 is met.
#[test]
fn damaged_texts() {
    let mut random = Random::new(9);
    let mut met = [0; 20];
    for _ in 0..60_000 {
        let (mut rows, words) = small_list(&mut random);
        if rows.len() > 60 {
            continue;
        }
        if random.chance(50) {
            shuffle(&mut random, &mut rows);
        }
        let texts = texts(&mut random, words);
        let mut arpa = print_varied(&mut random, &rows, &texts);
        if random.chance(50) {
            damage_sections(&mut random, &mut arpa);
        }
        let mut lines = arpa.lines();
        for _ in 0..random.below(3) {
            damage_lines(&mut random, &mut lines);
        }
        let mut text = bytes(&lines);
        for _ in 0..random.below(3) {
            damage_bytes(&mut random, &mut text);
        }
        let room = if random.chance(90) { ENOUGH } else { (random.below(100), random.below(2_000)) };
        met[read(&text, room).answer.number as usize] += 1;
    }
    assert!([0, 5, 6, 7, 8, 9, 15, 17, 18, 19].iter().all(|&number| met[number] > 100), "{met:?}");
}

/// Rows changed, doubled or removed within their section, and counted again.
fn damage_sections(random: &mut Random, arpa: &mut Arpa) {
    let section = random.below(arpa.sections.len());
    let rows = &mut arpa.sections[section];
    if rows.is_empty() {
        return;
    }
    let (at, other) = (random.below(rows.len()), random.below(rows.len()));
    match random.below(4) {
        0 => rows.insert(at, rows[other].clone()),
        1 => {
            rows.remove(at);
        }
        2 => rows[at] = rows[other].clone(),
        _ => damage_bytes(random, &mut rows[at]),
    }
    arpa.count_again();
}

/// Lines drawn from the parts of the form, in any order.
#[test]
fn drawn_lines() {
    const LINES: [&[u8]; 16] = [
        b"",
        b"\\data\\",
        b"ngram 1=3",
        b"ngram 1 = 4",
        b"ngram 2=1",
        b"\\1-grams:",
        b"\\2-grams:",
        b"\\end\\",
        b"-1\t<unk>",
        b"-1\t<s>",
        b"-1\t</s>",
        b"-1\tx\t0.5",
        b"-1\tx",
        b"0\t<s> x",
        b"0\tx x",
        b"-1.00005\t<s> </s>",
    ];
    let mut random = Random::new(10);
    for _ in 0..50_000 {
        let start = if random.chance(80) { 1 + random.below(7) } else { 0 };
        let mut lines: Vec<Vec<u8>> = [&LINES[1][..], LINES[2], LINES[5], LINES[8], LINES[9], LINES[10], LINES[7]][..start]
            .iter()
            .map(|line| line.to_vec())
            .collect();
        lines.extend((0..random.below(9)).map(|_| random.pick(&LINES).to_vec()));
        read(&bytes(&lines), (random.below(80), random.below(700)));
    }
}

/// Any bytes, and bytes of the form's own alphabet.
#[test]
fn any_bytes() {
    let mut random = Random::new(11);
    for _ in 0..20_000 {
        let length = random.below(120);
        let any: Vec<u8> = (0..length).map(|_| random.bits() as u8).collect();
        read(&any, (random.below(40), random.below(400)));
        let drawn: Vec<u8> = (0..length).map(|_| random.pick(b"\\\\data\n\n\t -.0123ngram=:<s>")).collect();
        read(&[b"\\data\\\nngram 1=2\n\\1-grams:\n", &drawn[..]].concat(), (random.below(40), random.below(400)));
    }
}

/// One-word rows for the words 1 to so many, `<unk>`, `<s>` and `</s>` where they are asked for.
fn one_word_text(marks: bool, others: usize) -> Vec<u8> {
    let marked = if marks { "-1\t<unk>\n-1\t<s>\n-1\t</s>\n" } else { "" };
    let rows: String = (0..others).map(|word| format!("-2\tw{word}\n")).collect();
    format!("\\data\\\nngram 1={}\n\\1-grams:\n{marked}{rows}\\end\\\n", others + if marks { 3 } else { 0 }).into_bytes()
}

/// 65,535 rows are read; one more gives 1, whatever they are; word 65,536 gives 4.
#[test]
fn most_rows() {
    let limit = LARGEST_WORD as usize;
    let words = limit - 3;
    let found = read(&one_word_text(true, words), fitting(limit, limit));
    assert_eq!(found.answer, Answer { number: 0, rows: limit as u32, place: 0 });
    assert_eq!(
        read(&one_word_text(true, words), (8 * limit - 1, RECORD * (limit + 1))).answer,
        Answer { number: 15, rows: 0, place: limit as u64 + 3 }
    );
    assert_eq!(
        read(&one_word_text(true, words), (8 * limit, RECORD * (limit + 1) - 1)).answer,
        Answer { number: 15, rows: 0, place: limit as u64 + 3 }
    );
    assert_eq!(read(&one_word_text(true, words + 1), fitting(limit + 1, limit + 1)).answer, Answer { number: 1, rows: 0, place: 0 });
    // The last word is 65,536, in row 65,533.
    assert_eq!(
        read(&one_word_text(false, words + 1), fitting(limit, limit + 1)).answer,
        Answer { number: 4, rows: 0, place: words as u64 + 1 }
    );
    assert_eq!(read(&one_word_text(false, words), fitting(limit, limit)).answer, Answer { number: 9, rows: 0, place: 0 });
    // As many rows of two texts.
    let twice = [&b"-1\tx\n"[..]; MOST_ROWS + 1].concat();
    for (rows, expected) in [(MOST_ROWS, (7, 2)), (MOST_ROWS + 1, (1, 0))] {
        let text = [format!("\\data\\\nngram 1={rows}\n\\1-grams:\n").as_bytes(), &twice[..5 * rows], b"\\end\\\n"].concat();
        let Answer { number, place, .. } = read(&text, (8 * rows, RECORD * 5)).answer;
        assert_eq!((number, place), expected);
    }
}

/// The longest lists of each order, their rows as they are, reversed and shuffled, read back and are built.
#[test]
fn longest_lists() {
    let mut random = Random::new(12);
    for order in 2..=5 {
        let rows = dense(&lists::natural(&mut random, order, 20_000, MOST_ROWS));
        let words = rows.iter().filter(|row| row.words.len() == 1).count();
        let texts = texts(&mut random, words);
        let room = fitting(rows.len(), words);
        let found = read(&print(&rows, &texts).bytes(), room);
        assert_eq!(found.answer, Answer { number: 0, rows: MOST_ROWS as u32, place: 0 });
        assert!(found.table == table(&rows) && found.store == store_of(&texts, room.1));
        let mut other = rows.clone();
        other.reverse();
        assert_eq!(read(&print(&other, &texts).bytes(), room).answer.rows, MOST_ROWS as u32);
        shuffle(&mut random, &mut other);
        let found = read(&print(&other, &texts).bytes(), room);
        assert_eq!(backoff::check(&found.table).number, 0);
    }
}

/// Texts that differ in their last bytes only, all of 63 bytes.
#[test]
fn alike_texts() {
    let texts: Vec<Vec<u8>> = (0..3_000).map(|word| format!("{word:0>63}").into_bytes()).collect();
    let rows: Vec<Row> = (1..=3_000).map(|word| Row { words: vec![word], p: -word, b: 0 }).collect();
    let arpa = print(&rows, &texts);
    let found = read(&arpa.bytes(), (8 * 3_000, RECORD * 3_004));
    assert_eq!(found.answer, Answer { number: 9, rows: 0, place: 0 });
    let mut texts = [&["<unk>", "<s>", "</s>"].map(|mark| mark.as_bytes().to_vec()), &texts[3..]].concat();
    texts.truncate(3_000);
    let found = read(&print(&rows, &texts).bytes(), fitting(3_000, 3_000));
    assert_eq!(found.answer, Answer { number: 0, rows: 3_000, place: 0 });
}

/// Texts are found in stores that no reading left too: a record whose length is 0 or above 63 has none.
#[test]
fn any_store() {
    let mut random = Random::new(13);
    for _ in 0..2_000 {
        let mut store: Vec<u8> = (0..random.below(1_000)).map(|_| random.between(0, 3) as u8).collect();
        for record in store.chunks_mut(RECORD) {
            record[0] = random.pick(&[0, 1, 1, 2, 62, 63, 64, 255]);
        }
        let length = |word: usize| store[RECORD * word] as usize;
        let words = (0..store.len() / RECORD).filter(|&word| (1..=LONGEST_TEXT).contains(&length(word)));
        let texts: Vec<(u32, &[u8])> = words.map(|word| (word as u32, &store[RECORD * word + 1..][..length(word)])).collect();
        assert!(backoff::texts(&store).eq(texts.iter().copied()));
        for &(_, text) in &texts {
            let first = texts.iter().find(|other| other.1 == text).map(|other| other.0);
            assert_eq!(backoff::find_text(&store, text), first);
        }
        assert_eq!(backoff::find_text(&store, b""), None);
        assert_eq!(backoff::find_text(&store, b"four"), None);
    }
}
