//! The program `totals`, run in folders of its own, against what document 01 says that it prints.

use std::fs;
use std::path::{Path, PathBuf};
use std::process::{Command, Stdio};
use std::sync::atomic::{AtomicUsize, Ordering};
use tests::damage::{self, Cells};
use tests::lists;
use tests::random::Random;
use tests::reference::list::Row;
use tests::reference::totals::{output, refused, LIST_WIDTH, MOST_LINES, MOST_WORDS, SLOTS, TEXT_WIDTH};

/// Columns of TEXT that are not in form; four characters in front make columns of LIST of them.
const BAD_COLUMNS: [&[u8; TEXT_WIDTH]; 22] = [
    b"        ",
    b"       +",
    b"      +1",
    b"      01",
    b"      -0",
    b"     - 1",
    b"     -01",
    b"      1 ",
    b"1       ",
    b"       -",
    b"      1-",
    b"     1 1",
    b"\t      1",
    b"      1\r",
    b"     1.0",
    b"     1e1",
    b"    0x10",
    b"00000001",
    b"-0000001",
    b"      \xd9\xa1",
    b"      \xc2\xa0",
    b"     1\x001",
];

/// A line of LIST: eight columns and LF.
const LIST_LINE: usize = 8 * LIST_WIDTH + 1;

/// A folder for one run, removed with all that it holds when it is dropped.
struct Folder(PathBuf);

impl Folder {
    fn new() -> Folder {
        static NEXT: AtomicUsize = AtomicUsize::new(0);
        let name = format!("totals-{}-{}", std::process::id(), NEXT.fetch_add(1, Ordering::Relaxed));
        let folder = std::env::temp_dir().join(name);
        fs::create_dir(&folder).unwrap();
        Folder(folder)
    }

    fn put(&self, name: &str, bytes: Option<&[u8]>) {
        if let Some(bytes) = bytes {
            fs::write(self.0.join(name), bytes).unwrap();
        }
    }
}

impl Drop for Folder {
    fn drop(&mut self) {
        fs::remove_dir_all(&self.0).unwrap();
    }
}

/// What the program prints in a folder, and what it tells on standard error.
fn run_in(folder: &Folder, output: Stdio) -> [String; 2] {
    let program = Path::new(env!("CARGO_MANIFEST_DIR")).join("../target/bin/totals");
    let ran = Command::new(program).current_dir(&folder.0).stdout(output).output().unwrap();
    assert!(ran.status.success(), "{ran:?}");
    [ran.stdout, ran.stderr].map(|bytes| String::from_utf8(bytes).unwrap())
}

/// The same for two files; one that is none is not there.
fn ran(list: Option<&[u8]>, text: Option<&[u8]>) -> [String; 2] {
    let folder = Folder::new();
    folder.put("LIST", list);
    folder.put("TEXT", text);
    run_in(&folder, Stdio::piped())
}

/// What the program and the second description agree on.
fn agreed(list: impl AsRef<[u8]>, text: impl AsRef<[u8]>) -> String {
    let (list, text) = (list.as_ref(), text.as_ref());
    let [ours, told] = ran(Some(list), Some(text));
    assert_eq!(told, "");
    let second = output(list, text);
    assert!(ours == second, "{}", differing(&ours, &second, list, text));
    ours
}

fn differing(ours: &str, second: &str, list: &[u8], text: &[u8]) -> String {
    let at = ours.lines().zip(second.lines()).take_while(|(a, b)| a == b).count();
    let shown = |bytes: &[u8]| String::from_utf8_lossy(&bytes[..bytes.len().min(2_000)]).into_owned();
    let line = |text: &str| text.lines().nth(at).map(str::to_string);
    format!("line {}: {:?}, by document 01 {:?}\n{}\n{}", at + 1, line(ours), line(second), shown(list), shown(text))
}

fn columns(numbers: impl IntoIterator<Item = i64>, width: usize) -> String {
    numbers.into_iter().map(|number| format!("{number:>width$}")).collect::<String>() + "\n"
}

fn line(numbers: impl IntoIterator<Item = i64>) -> String {
    columns(numbers, TEXT_WIDTH)
}

fn list_of(cells: &[Cells]) -> String {
    cells.iter().map(|cells| columns(cells.map(i64::from), LIST_WIDTH)).collect()
}

fn list(rows: &[Row]) -> String {
    list_of(&rows.iter().map(Row::cells).collect::<Vec<Cells>>())
}

fn sample() -> String {
    list(&lists::sample())
}

fn text_of(sentences: &[Vec<u32>]) -> String {
    sentences.iter().map(|words| line(words.iter().map(|&word| word as i64))).collect()
}

/// Sentences over a list, words that it may not have among them; all fit their columns.
fn sentences(random: &mut Random, rows: &[Row], count: usize, longest: usize) -> Vec<Vec<u32>> {
    let sentence = |random: &mut Random| {
        let length = random.below(longest + 1);
        lists::text(random, rows, length).into_iter().map(|word| word % 100_000_000).collect()
    };
    (0..count).map(|_| sentence(random)).collect()
}

/// A list that fits LIST; it may not fit the array.
fn small_list(random: &mut Random) -> Vec<Row> {
    loop {
        let order = 1 + random.below(5);
        let rows = lists::small(random, order);
        if rows.len() <= MOST_LINES {
            return rows;
        }
    }
}

/// As many one-word rows as lines are asked for.
fn one_word_rows(count: usize) -> Vec<Row> {
    (1..=count as i32).map(|word| Row { words: vec![word], p: -word, b: 0 }).collect()
}

fn refusal(number: u32, place: u32) -> String {
    refused((number, place))
}

/// The sample of document 01, and the four lines that it prints.
#[test]
fn sample_of_document_01() {
    let text = text_of(&[vec![4, 5], vec![5, 4], vec![9], vec![]]);
    let expected = "       1       2       0           -6500\n       2       2       0          -31000\n       3       1       1          -33000\n       4       0       0          -13000\n";
    assert_eq!(agreed(sample(), text), expected);
}

/// Unknown words are told by the 8 in their length bytes: 5 and 4 in the second sentence have 1 + 16 and are known; 9 has 2 + 8 after `<s>`, by row
/// 2 1, and 1 + 8 + 16 after 4.
#[test]
fn unknown_words_by_their_bit() {
    let mut rows = lists::sample();
    rows.insert(5, Row { words: vec![2, 1], p: -700, b: 0 });
    let text = text_of(&[vec![4, 5], vec![5, 4], vec![9], vec![4, 9]]);
    let expected = "       1       2       0           -6500\n       2       2       0          -31000\n       3       1       1          -10700\n       4       2       1          -36500\n";
    assert_eq!(agreed(list(&rows), text), expected);
}

#[test]
fn random_lists_and_texts() {
    let (mut built, mut no_room) = (0, 0);
    for seed in 0..400 {
        let random = &mut Random::new(seed);
        let rows = small_list(random);
        let text = text_of(&sentences(random, &rows, 20, 12));
        let printed = agreed(list(&rows), text);
        if printed == refusal(10, 0) {
            no_room += 1;
        } else {
            built += 1;
        }
    }
    assert!(built > 100 && no_room > 20, "{built} {no_room}");
}

/// A 3 within a line ends the context there, as in any run; the line is one sentence all the same.
#[test]
fn sentence_end_within_a_line() {
    let text = line([4, 5, 3, 4, 5]) + &line([4, 5]) + &line([3]) + &line([3, 4]);
    let expected = "       1       5       0          -13000\n       2       2       0           -6500\n       3       1       0          -26000\n       4       2       0          -29500\n";
    assert_eq!(agreed(sample(), text), expected);
}

/// All that a list can be refused for comes through its file: 3 to 9 by damage. Every number of 32 bits fits its column, so that none gives 13.
#[test]
fn damaged_lists() {
    let mut numbers = [0; 17];
    for seed in 0..40 {
        for (_, spoil) in damage::kinds() {
            let random = &mut Random::new(seed);
            let mut cells: Vec<Cells> = small_list(random).iter().map(Row::cells).collect();
            let row = random.below(cells.len());
            spoil(random, &mut cells, row);
            let printed = agreed(list_of(&cells), text_of(&[vec![4]]));
            if let Some(refused) = printed.strip_prefix("refused") {
                numbers[refused[..8].trim().parse::<usize>().unwrap()] += 1;
            }
        }
    }
    assert!([3, 4, 5, 6, 7, 8, 9, 10].iter().all(|&number| numbers[number] > 0) && numbers[13] == 0, "{numbers:?}");
}

/// Each fault of a column, in each column of a line of LIST and in the first, a middle and the last of a sentence.
#[test]
fn columns_not_in_form() {
    let spoilt = |line: &str, column: usize, bad: &[u8]| {
        let mut bytes = line.as_bytes().to_vec();
        bytes[bad.len() * column..bad.len() * (column + 1)].copy_from_slice(bad);
        bytes
    };
    let (rows, sentence) = (sample(), line([4, 5, 5, 4, 4]));
    let (before, third) = rows.split_at(2 * LIST_LINE);
    for bad in BAD_COLUMNS {
        for column in 0..8 {
            for front in [b"    ", b"0000", b"-000"] {
                let wide = [&front[..], bad].concat();
                let list = [before.as_bytes(), &spoilt(third, column, &wide)].concat();
                assert_eq!(agreed(list, &sentence), refusal(13, 3), "{front:?} {bad:?} in column {column}");
            }
        }
        for column in [0, 2, 4] {
            let text = [sentence.as_bytes(), &spoilt(&sentence, column, bad), b"\n"].concat();
            let printed = agreed(&rows, text);
            assert_eq!(printed.lines().nth(1), Some("refused      13       2"), "{bad:?} in column {column}");
            assert_eq!(printed.lines().count(), 2);
        }
    }
}

/// Every single byte in the place of a digit, and of a space before it.
#[test]
fn every_byte() {
    let (rows, sentence) = (sample(), line([4, 5]));
    for byte in 0..=255 {
        for back in [1, 2] {
            let (mut bytes, mut text) = (rows.clone().into_bytes(), sentence.clone().into_bytes());
            bytes[LIST_LINE + LIST_WIDTH - back] = byte;
            agreed(&bytes, &sentence);
            text[2 * TEXT_WIDTH - back] = byte;
            agreed(&rows, &text);
        }
    }
}

/// A number of LIST that signed 32 bits hold is in form; what it says is another matter. One that they don't hold gives 13 at its line, also where its
/// lowest 32 bits are a number that would be accepted.
#[test]
fn numbers_of_32_bits() {
    let cells: Vec<Vec<i64>> = lists::sample().iter().map(|row| row.cells().map(i64::from).to_vec()).collect();
    let with = |column: usize, number: &str| {
        let mut lines: Vec<Vec<String>> = cells.iter().map(|row| row.iter().map(i64::to_string).collect()).collect();
        lines[2][column] = number.to_string();
        let line = |line: &Vec<String>| line.iter().map(|number| format!("{number:>LIST_WIDTH$}")).collect::<String>() + "\n";
        agreed(lines.iter().map(line).collect::<String>(), "")
    };
    for (column, expected) in [(0, 3), (1, 4), (2, 4), (5, 4), (6, 5), (7, 6)] {
        for held in ["2147483647", "-2147483648", "99999999", "-999999999", "1000000000"] {
            assert_eq!(with(column, held), refusal(expected, 3), "{held} in column {column}");
        }
        for number in ["2147483648", "-2147483649", "4294967295", "4294967296", "-4294967296", "8589934593", "999999999999", "-99999999999"]
        {
            assert_eq!(with(column, number), refusal(13, 3), "{number} in column {column}");
        }
    }
    for accepted in ["-99000000", "0"] {
        assert_eq!(with(6, accepted), "", "{accepted}");
    }
    for (column, number, expected) in [(6, "-99000001", 5), (6, "1", 5), (7, "99000001", 6), (7, "-99000001", 6)] {
        assert_eq!(with(column, number), refusal(expected, 3), "{number}");
    }
    assert_eq!((with(7, "99000000"), with(7, "-99000000")), (String::new(), String::new()));
}

/// LIST in columns of eight is not in form.
#[test]
fn a_list_of_narrow_columns() {
    let narrow: String = lists::sample().iter().map(|row| line(row.cells().map(i64::from))).collect();
    assert_eq!(agreed(narrow, line([4])), refusal(13, 1));
}

/// "A file that cannot be opened counts as empty"; standard error tells it.
#[test]
fn missing_and_empty_files() {
    let (rows, sentence) = (sample(), line([4, 5]));
    let (rows, sentence) = (Some(rows.as_bytes()), Some(sentence.as_bytes()));
    for (nothing, list_told, text_told) in
        [(None, "totals: LIST cannot be opened\n", "totals: TEXT cannot be opened\n"), (Some(&b""[..]), "", "")]
    {
        assert_eq!(ran(nothing, sentence), [&refusal(1, 0), list_told]);
        assert_eq!(ran(nothing, nothing), [&refusal(1, 0), list_told]);
        assert_eq!(ran(rows, nothing), ["", text_told]);
    }
    assert_eq!(agreed("\n", line([4, 5])), refusal(13, 1));
    assert_eq!(agreed(sample(), "\n"), "       1       0       0          -13000\n");
}

/// Directories count as empty files.
#[test]
fn directories() {
    let folder = Folder::new();
    fs::create_dir(folder.0.join("LIST")).unwrap();
    fs::create_dir(folder.0.join("TEXT")).unwrap();
    assert_eq!(run_in(&folder, Stdio::piped()), [&refusal(1, 0), "totals: LIST cannot be read\n"]);
    fs::remove_dir(folder.0.join("LIST")).unwrap();
    folder.put("LIST", Some(sample().as_bytes()));
    assert_eq!(run_in(&folder, Stdio::piped()), ["", "totals: TEXT cannot be read\n"]);
}

/// A full disk and an output that is not open for writing are told once, however much would follow; so is a closed one.
#[test]
fn outputs_that_take_nothing() {
    let folder = Folder::new();
    folder.put("LIST", Some(sample().as_bytes()));
    let told = "totals: standard output takes no more\n";
    for text in ["       4\n".repeat(1_000), "\n".to_string(), "wrong".to_string()] {
        folder.put("TEXT", Some(text.as_bytes()));
        for output in [fs::File::create("/dev/full").unwrap(), fs::File::open("/dev/null").unwrap()] {
            assert_eq!(run_in(&folder, output.into())[1], told, "{text:.10}");
        }
        let closed = format!("exec {}/../target/bin/totals >&-", env!("CARGO_MANIFEST_DIR"));
        let ran = Command::new("sh").args(["-c", &closed]).current_dir(&folder.0).output().unwrap();
        assert_eq!((ran.status.success(), String::from_utf8(ran.stderr).unwrap()), (true, told.to_string()), "{text:.10}");
    }
    assert_eq!(fs::read(folder.0.join("LIST")).unwrap(), sample().as_bytes());
}

/// TEXT through a pipe, a few bytes at a time.
#[test]
fn text_from_a_pipe() {
    let folder = Folder::new();
    folder.put("LIST", Some(sample().as_bytes()));
    std::os::unix::fs::symlink("/dev/stdin", folder.0.join("TEXT")).unwrap();
    let text = text_of(&[vec![4, 5], vec![5, 4], vec![9], vec![]]);
    let fed = format!(
        "for part in '{}' '{}'; do printf %s \"$part\"; sleep 0.1; done | {}/../target/bin/totals",
        &text[..21],
        &text[21..],
        env!("CARGO_MANIFEST_DIR")
    );
    let ran = Command::new("sh").args(["-c", &fed]).current_dir(&folder.0).output().unwrap();
    assert_eq!(String::from_utf8(ran.stdout).unwrap(), output(sample().as_bytes(), text.as_bytes()));
    assert_eq!(ran.stderr, b"");
}

/// "LF after every line."
#[test]
fn line_ends() {
    let (rows, text) = (sample(), text_of(&[vec![4, 5], vec![], vec![9]]));
    assert_eq!(agreed(&rows[..rows.len() - 1], &text), refusal(13, 9));
    assert_eq!(agreed(rows.replace('\n', "\r\n"), &text), refusal(13, 1));
    assert_eq!(agreed(rows.replace('\n', "\r"), &text), refusal(13, 1));
    assert_eq!(agreed(&rows, text.replace('\n', "\r\n")), refusal(13, 1));
    assert_eq!(agreed(format!("{rows}\n"), &text), refusal(13, 10));
    assert_eq!(agreed(format!("\n{rows}"), &text), refusal(13, 1));
    for cut in 0..=text.len() {
        agreed(&rows, &text[..cut]);
    }
    for cut in 0..=rows.len() {
        agreed(&rows[..cut], &text);
    }
}

/// 512 lines are taken; a line 513 gives 13, whatever it holds, before every refusal of the rows.
#[test]
fn line_513() {
    let sentence = line([4, 600]);
    let full = list(&one_word_rows(MOST_LINES));
    assert_eq!(agreed(&full, &sentence).lines().count(), 1);
    for last in [&list(&one_word_rows(1))[..], "\n", "x", "           1", "\n\n", " "] {
        assert_eq!(agreed(full.clone() + last, &sentence), refusal(13, 513), "{last:?}");
    }
    let mut rows = one_word_rows(MOST_LINES + 100);
    rows[7].p = 1;
    assert_eq!(agreed(list(&rows[..MOST_LINES]), &sentence), refusal(5, 8));
    assert_eq!(agreed(list(&rows), &sentence), refusal(13, 513));
    assert_eq!(agreed(list(&rows).replacen("\n", " \n", 100), &sentence), refusal(13, 1));
    assert_eq!(agreed(full + &"0".repeat(200_000), &sentence), refusal(13, 513));
    assert_eq!(agreed(" ".repeat(200_000), &sentence), refusal(13, 1));
}

/// "More words give 13", and so does any longer line.
#[test]
fn many_words() {
    let rows = sample();
    let known = |count| vec![4; count];
    assert_eq!(agreed(&rows, text_of(&[known(MOST_WORDS), known(MOST_WORDS)])).lines().count(), 2);
    assert_eq!(agreed(&rows, text_of(&[known(MOST_WORDS), known(MOST_WORDS + 1)])).lines().nth(1), Some("refused      13       2"));
    for length in [511, 512, 513, 520, 1_023, 1_024, 1_025, 5_000] {
        let spaces = " ".repeat(length);
        assert_eq!(agreed(&rows, format!("{}{spaces}\n", line([4]))).lines().nth(1), Some("refused      13       2"));
        assert_eq!(agreed(&rows, format!("{}{spaces}", line([4]))).lines().nth(1), Some("refused      13       2"));
        agreed(&rows, format!("{}{}", line([4]), "       4".repeat(length / 8)));
    }
}

/// Words are in form that no list has; none is negative.
#[test]
fn unusual_words() {
    let rows = sample();
    for word in [0, 1, 2, 3, 65_535, 65_536, 99_999, 99_999_999] {
        let expected = if (2..=3).contains(&word) { 0 } else { 1 };
        let printed = agreed(&rows, line([word]));
        assert_eq!(&printed[16..24], format!("{expected:>8}"), "{word}");
    }
    for word in [-1, -4, -9_999_999, 100_000_000] {
        assert_eq!(agreed(&rows, line([word])), refusal(13, 1), "{word}");
    }
}

/// A one-word row above 4,094 needs a slot that the array has not.
#[test]
fn slots() {
    for (word, fits) in [(SLOTS as i32 - 2, true), (SLOTS as i32 - 1, false), (65_535, false)] {
        let mut rows = one_word_rows(3);
        rows.push(Row { words: vec![word], p: -5, b: 0 });
        let printed = agreed(list(&rows), line([word as i64]));
        assert_eq!(printed == refusal(10, 0), !fits, "{word}");
    }
}

/// A sentence behind any number of characters: it is read alike wherever the program's own reads of TEXT end.
#[test]
fn every_offset() {
    let rows = sample();
    for before in (0..1_100).step_by(7).chain(1_010..1_030) {
        let text = format!("{}{}{}", "\n".repeat(before), line([4, 5, 9]), line([5, 4]));
        agreed(&rows, text);
    }
}

#[test]
fn long_texts() {
    for seed in 0..3 {
        let random = &mut Random::new(seed);
        let rows = lists::tiny(random, 1 + seed as usize * 2);
        let mut text = text_of(&sentences(random, &rows, 100_000, 8));
        assert_eq!(agreed(list(&rows), &text).lines().count(), 100_000);
        text.push('x');
        assert!(agreed(list(&rows), text).ends_with("refused      13  100001\n"));
    }
    assert_eq!(agreed(sample(), "\n".repeat(100_000)).lines().count(), 100_000);
    assert_eq!(agreed(sample(), "4".repeat(1_000_000)), refusal(13, 1));
}

/// Any change to a good file.
#[test]
fn changed_bytes() {
    for seed in 0..400 {
        let random = &mut Random::new(seed);
        let rows = lists::tiny(random, 1 + seed as usize % 5);
        let mut files = [list(&rows).into_bytes(), text_of(&sentences(random, &rows, 30, 5)).into_bytes()];
        for _ in 0..1 + random.below(3) {
            let file = &mut files[random.below(2)];
            let at = random.below(file.len());
            match random.below(3) {
                0 => file[at] = random.pick(b" 0123456789-\n\r\t+x"),
                1 => file.insert(at, random.pick(b" 0123456789-\n")),
                _ => drop(file.remove(at)),
            }
        }
        agreed(&files[0], &files[1]);
    }
}
