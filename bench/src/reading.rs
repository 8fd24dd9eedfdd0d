//! Reading ARPA texts: what is read, the call beside its counterpart, and the tables.

use crate::arpa;
use crate::list::MOST_ROWS;
use crate::lists::SHORT;
use crate::time::{compare, once};
use backoff::Rows;
use tests::arpa::{dense, print, shuffle};
use tests::lists::natural;
use tests::random::Random;
use tests::reference::arpa::{LONGEST_TEXT, MARKS, RECORD};
use tests::reference::list::Row;

/// The orders in which rows may come, each by what it does to the rows in list order.
const ORDERS: [(&str, fn(&mut Vec<Row>)); 4] = [
    // Section by section, by the first word, then the second: irstlm goes through its tables so.
    ("as irstlm writes them", |rows| rows.sort_by_key(|row| (row.words.len(), row.words.clone()))),
    ("list order", |_| {}),
    ("reversed", |rows| rows.reverse()),
    ("shuffled", |rows| shuffle(&mut Random::new(6), rows)),
];

/// A text, and room for what it holds.
struct Text {
    bytes: Vec<u8>,
    rows: usize,
    items: usize,
    records: usize,
}

impl Text {
    fn of_list(rows: &[Row], texts: &[Vec<u8>]) -> Text {
        Text { bytes: print(rows, texts).bytes(), rows: rows.len(), items: 8 * rows.len(), records: texts.len() + 1 }
    }

    /// One-word rows, announced as so many.
    fn of_words(announced: usize, texts: &[Vec<u8>]) -> Text {
        let rows: Vec<Row> = (1..=texts.len() as i32).map(|word| Row { words: vec![word], p: -10_000, b: 0 }).collect();
        let mut arpa = print(&rows, texts);
        arpa.counts = vec![format!("ngram 1={announced}").into_bytes()];
        Text { bytes: arpa.bytes(), rows: rows.len(), items: 8 * rows.len(), records: texts.len() + 1 }
    }

    fn room(&self) -> (Vec<i32>, Vec<u8>) {
        (vec![0; self.items], vec![0; RECORD * self.records])
    }
}

pub fn print_tables() {
    eprintln!("bench: reading");
    print_orders();
    print_worst();
}

/// Lists of order 5 with words as frequent as a text's.
fn print_orders() {
    println!("\n## Reading ARPA texts\n\nNanoseconds for each row of the natural lists, printed as a text, and the factor from 1,000 to 65,535 rows.\n");
    println!("| rows come | ours, 1,000 | counterpart, 1,000 | ratio, 1,000 | ours, 65,535 | counterpart, 65,535 | ratio, 65,535 | ours grows | counterpart grows |");
    println!("|---|--:|--:|--:|--:|--:|--:|--:|--:|");
    let lists =
        [natural(&mut Random::new(1), 5, 1_000, SHORT), natural(&mut Random::new(2), 5, 30_000, MOST_ROWS)].map(|rows| dense(&rows));
    for (name, put) in ORDERS {
        let [short, long] = lists.each_ref().map(|rows| {
            let mut rows = rows.clone();
            put(&mut rows);
            measure(&Text::of_list(&rows, &texts(&rows)))
        });
        print!("| {name} ");
        for (ours, rust, ratio) in [short, long] {
            print!("| {ours:.1} | {rust:.1} | {ratio:.2} ");
        }
        println!("| {:.1} | {:.1} |", long.0 / short.0, long.1 / short.1);
    }
}

/// Nanoseconds a row of the call and of its counterpart, and their ratio.
fn measure(text: &Text) -> (f64, f64, f64) {
    let (mut left, mut right) = (text.room(), text.room());
    let accepted = Rows { number: 0, rows: text.rows as u32, place: 0 };
    let mut ours = || assert_eq!(backoff::read_arpa(&text.bytes, false, &mut left.0, &mut left.1), accepted);
    let mut rust = || assert_eq!(arpa::read_arpa(&text.bytes, &mut right.0, &mut right.1), accepted);
    let compared = compare(&mut ours, &mut rust);
    assert!(left == right, "the readers agree");
    let each = |seconds: f64| 1e9 * seconds / text.rows as f64;
    (each(compared.ours), each(compared.rust), compared.ratio)
}

/// The seconds that a person waits for texts that are hard, or that lie about their counts.
fn print_worst() {
    println!("\nTexts of 65,535 rows of one word that are hard to read: seconds for one call, and its answer. The words' index has as many chains as \
         one-word lines are announced: a text that announces far fewer than it brings, or whose texts were chosen to have one hash, makes one long chain, and its time grows with the \
         square of its lines.\n");
    println!("| text | ours | counterpart | answer |\n|---|--:|--:|---|");
    let short: Vec<Vec<u8>> = (1..=MOST_ROWS as i32).map(text_of).collect();
    let last_bytes = alike(|word| format!("{word:x>LONGEST_TEXT$}"));
    let first_bytes = alike(|word| format!("{word:x<LONGEST_TEXT$}"));
    let worst = [
        ("short texts", Text::of_words(MOST_ROWS, &short)),
        ("texts of 63 bytes that differ in their last bytes", Text::of_words(MOST_ROWS, &last_bytes)),
        ("texts of 63 bytes that differ in their first bytes", Text::of_words(MOST_ROWS, &first_bytes)),
        ("one row announced", Text::of_words(1, &short)),
        ("no row announced", Text::of_words(0, &short)),
        ("999,999,999 rows announced", Text::of_words(999_999_999, &short)),
        ("every row the same", Text::of_words(MOST_ROWS, &vec![b"same".to_vec(); MOST_ROWS])),
    ];
    for (name, text) in worst {
        let (mut left, mut right) = (text.room(), text.room());
        let (ours, answer) = once(|| backoff::read_arpa(&text.bytes, false, &mut left.0, &mut left.1));
        let (rust, other) = once(|| arpa::read_arpa(&text.bytes, &mut right.0, &mut right.1));
        assert!(answer == other && left == right, "the readers agree");
        let answer = if answer.number == 0 { "accepted".to_string() } else { format!("refused by {}", answer.number) };
        println!("| {name} | {ours:.4} | {rust:.4} | {answer} |");
    }
}

/// The marks, then a text for each further number.
fn alike(text: impl Fn(usize) -> String) -> Vec<Vec<u8>> {
    MARKS.map(<[u8]>::to_vec).into_iter().chain((4..=MOST_ROWS).map(|word| text(word).into_bytes())).collect()
}

fn texts(rows: &[Row]) -> Vec<Vec<u8>> {
    let words = rows.iter().filter(|row| row.words.len() == 1).count();
    (1..=words as i32).map(text_of).collect()
}

/// Syllables for a word: frequent words have short texts.
fn text_of(word: i32) -> Vec<u8> {
    const CONSONANTS: &[u8] = b"bdfgklmnprstvz";
    const VOWELS: &[u8] = b"aeiou";
    if let Some(mark) = MARKS.get(word as usize - 1) {
        return mark.to_vec();
    }
    let (mut text, mut rest) = (Vec::new(), word as usize);
    while rest > 0 {
        let syllable = rest % (CONSONANTS.len() * VOWELS.len());
        text.extend([CONSONANTS[syllable / VOWELS.len()], VOWELS[syllable % VOWELS.len()]]);
        rest /= CONSONANTS.len() * VOWELS.len();
    }
    text
}
