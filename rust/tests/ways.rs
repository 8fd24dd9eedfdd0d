//! `backoff query` from the list alone, by both ways, without marks, and its exact totals.

mod support;

use support::lines::{compare, logarithm, scored, Form, Marks, LINES};
use support::{any_list, any_text, Folder, Texted, SAMPLE};
use tests::lists;
use tests::random::Random;
use tests::reference::list::Row;

/// By runs, plainly and by both, from an ARPA text and from an array file, with and without marks: one output, which is the rule's.
#[test]
fn all_ways_agree() {
    for seed in 0..24 {
        let random = &mut Random::new(seed);
        let list = any_list(random);
        let text = any_text(random, &list, 10);
        let folder = Folder::new();
        folder.put("arpa", list.arpa());
        folder.put("text", &text);
        folder.run("build arpa array").printed();
        for marks in Marks::ALL {
            let sentences = scored(&list, &text, marks);
            let form = Form::all().nth(random.below(12)).unwrap();
            let options = format!("{}{}", form.options(), marks.options());
            for way in ["", "--plain", "--both", "--both --threads 3", "--plain --threads 2"] {
                let file = random.pick(&["arpa", "array"]);
                compare(&folder.run(&format!("query {file} text {way}{options}")).printed(), &sentences, form);
            }
        }
    }
}

/// A line of more words than one call takes: plain scoring goes on where the call before it ended, whatever the order.
#[test]
fn long_lines() {
    for order in 1..=5 {
        let random = &mut Random::new(order as u64);
        let rows = lists::natural(random, order, 12, if order == 1 { 10 } else { 60 });
        let rows = lists::mild(random, &rows);
        let list = Texted::new(random, &rows);
        let words = lists::ended_text(random, &list.rows, 70_000, 5_000);
        let text = |word: &u32| if (1..=list.texts.len() as u32).contains(word) { list.text(*word) } else { b"other" };
        let text = [words.iter().map(text).collect::<Vec<_>>().join(&b' '), b"and a second line".to_vec()].join(&b'\n');
        let folder = Folder::new();
        folder.put("arpa", list.arpa());
        for marks in [Marks::BOTH, Marks { bos: false, eos: false }] {
            let printed = folder.run_on(&format!("query arpa --both{}", marks.options()), &text).printed();
            compare(&printed, &scored(&list, &text, marks), LINES);
        }
    }
}

/// Nothing is built where the list alone is asked for: a list that no array holds is scored.
#[test]
fn without_an_array() {
    const NEAR: i32 = 220;
    let words = NEAR * NEAR;
    let apart = (1..=NEAR).chain((2..=NEAR).map(|step| NEAR * step));
    let one = (1..=words).map(|word| Row { words: vec![word], p: -1, b: 0 });
    let two = (4..40).flat_map(|last| apart.clone().map(move |first| Row { words: vec![first, last], p: -1, b: 0 }));
    let marks = ["<unk>", "<s>", "</s>"].map(String::from).into_iter();
    let texts: Vec<Vec<u8>> = marks.chain((4..=words).map(|word| format!("w{word}"))).map(String::into_bytes).collect();
    let folder = Folder::new();
    folder.put("m", Texted { rows: one.chain(two).collect(), texts }.arpa());
    assert!(folder.run_on("query m", b"w4 w5\n").refused().contains("refused by 10: "));
    let printed = folder.run_on("query m --plain --points", b"w4 w5 w60\n").printed();
    assert!(printed.starts_with(b"w4=4 2 -1\tw5=5 2 -1\tw60=60 1 -1\t</s>=3 1 -1\tTotal: -4 OOV: 0\n"));
}

/// A line of 1,200 words has a total of more digits than six; all of them are printed, as a logarithm and as points.
#[test]
fn exact_totals() {
    let random = &mut Random::new(7);
    let rows = lists::natural(random, 3, 60, 900);
    let rows = lists::mild(random, &rows);
    let list = Texted::new(random, &rows);
    let words = lists::text(random, &list.rows, 1_200);
    let text = |word: &u32| if (4..=list.texts.len() as u32).contains(word) { list.text(*word) } else { b"other" };
    let text = [words.iter().map(text).collect::<Vec<_>>().join(&b' '), b"\n".to_vec()].concat();
    let total: i64 = scored(&list, &text, Marks::BOTH)[0].iter().map(|(_, _, scored)| scored.points as i64).sum();
    let exact = logarithm(total);
    assert!(exact.len() > "-1234.56".len() && exact.contains('.') && total % 10 != 0, "{exact}");
    let folder = Folder::new();
    folder.put("arpa", list.arpa());
    assert_eq!(folder.run_on("query arpa --points --totals", &text).text(), format!("{total}\n"));
    for way in ["", " --plain", " --both"] {
        assert_eq!(folder.run_on(&format!("query arpa --totals{way}"), &text).text(), format!("{exact}\n"));
        let printed = folder.run_on(&format!("query arpa{way}"), &text).printed();
        assert!(String::from_utf8_lossy(&printed).contains(&format!("\tTotal: {exact} OOV: ")));
    }
    let printed = String::from_utf8_lossy(&folder.run_on("explain arpa", &text).printed()).into_owned();
    assert!(printed.lines().last().unwrap().starts_with(&format!("total (log10 {exact}) ")));
}

/// The summary alone: KenLM's last four lines.
#[test]
fn summary() {
    let folder = Folder::new();
    folder.put("sample", SAMPLE);
    let whole = String::from_utf8(folder.run_on("query sample", b"four five\nnine\n").printed()).unwrap();
    let printed = String::from_utf8(folder.run_on("query sample --summary", b"four five\nnine\n").printed()).unwrap();
    assert_eq!(printed, whole.lines().skip(2).map(|line| format!("{line}\n")).collect::<String>());
    assert_eq!(printed.lines().count(), 4);
}

/// Without the end the closing word is in no count; without the beginning the first word has no history.
#[test]
fn without_marks() {
    let folder = Folder::new();
    folder.put("sample", SAMPLE);
    let first = |options: &str| {
        let printed = folder.run_on(&format!("query sample --points {options}"), b"four five\n").text();
        let tokens = printed.lines().last().unwrap().to_string();
        (printed.lines().next().unwrap().to_string(), tokens)
    };
    let line = |text: &str, tokens: &str| (text.to_string(), format!("Tokens:\t{tokens}"));
    assert_eq!(first("--no-bos"), line("four=4 1 -6000\tfive=5 2 -3000\t</s>=3 2 -1500\tTotal: -10500 OOV: 0", "3"));
    assert_eq!(first("--no-eos"), line("four=4 2 -4000\tfive=5 3 -1000\tTotal: -5000 OOV: 0", "2"));
    assert_eq!(first("--no-bos --no-eos"), line("four=4 1 -6000\tfive=5 2 -3000\tTotal: -9000 OOV: 0", "2"));
    assert_eq!(folder.run_on("query sample --no-eos --totals", b"\n").text(), "0\n");
}
