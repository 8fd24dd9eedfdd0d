//! `backoff check`: what a list has, and each refusal in words.

mod support;

use support::{Folder, Texted, SAMPLE};
use tests::arpa;
use tests::lists;
use tests::random::Random;
use tests::reference::arpa::MARKS;
use tests::reference::list::Row;

/// What `check` says of a text.
fn refused(text: impl AsRef<[u8]>) -> String {
    refused_with(text, "")
}

fn refused_with(text: impl AsRef<[u8]>, options: &str) -> String {
    let folder = Folder::new();
    folder.put("m", text);
    let told = folder.run(&format!("check m {options}")).refused();
    told.strip_prefix("backoff: m: ").expect("the file is named").to_string()
}

/// The sample with one part of its text replaced.
fn sample_with(from: &str, to: &str) -> String {
    assert!(SAMPLE.contains(from));
    SAMPLE.replacen(from, to, 1)
}

/// The sample without the line that has these words, and so many rows of two words counted.
fn without(words: &str, count: usize) -> String {
    let lines = SAMPLE.lines().filter(|line| line.split('\t').nth(1) != Some(words));
    lines.map(|line| format!("{line}\n")).collect::<String>().replace("ngram 2=3", &format!("ngram 2={count}"))
}

#[test]
fn accepted() {
    let folder = Folder::new();
    folder.put("sample", SAMPLE);
    let expected = "\
order                 3
rows                  9
1-grams               5
2-grams               3
3-grams               1
words                 5
slots needed         20
slots in use         19
fill             95.0 %
";
    assert_eq!(folder.run("check sample").text(), expected);
    folder.run("build sample array").printed();
    assert_eq!(folder.run("check array").text(), expected);
    folder.put("pruned", without("four five", 2));
    assert_eq!(folder.run("check --fill pruned").text(), expected.replace("words ", "rows added            1\nwords "));
}

/// Rows of each length, words and slots of random lists: counted from the list, and from a build of the test's own.
#[test]
fn random_lists() {
    for seed in 0..20 {
        let random = &mut Random::new(seed);
        let order = 1 + random.below(5);
        let list = lists::small(random, order);
        let list = Texted::new(random, &list);
        let folder = Folder::new();
        folder.put("m", list.arpa());
        let told = folder.run("check m").text();
        let number = |name: &str| -> usize {
            let line = told.lines().find(|line| line.starts_with(&format!("{name} "))).expect(name);
            line[name.len()..].trim().replace(',', "").parse().unwrap()
        };
        assert_eq!((number("order"), number("rows"), number("words")), (order, list.rows.len(), list.texts.len()));
        for length in 1..=order {
            assert_eq!(number(&format!("{length}-grams")), list.rows.iter().filter(|row| row.words.len() == length).count());
        }
        let built = |slots: usize| {
            let (mut base, mut check, mut work) = (vec![0; slots], vec![0; slots], vec![0; list.rows.len()]);
            let built = backoff::build(&lists::table(&list.rows), &mut base, &mut check, &mut work);
            (built.number, base.iter().zip(&check).filter(|&slot| slot != (&0, &i32::MIN)).count())
        };
        let longest = number(&format!("{order}-grams"));
        assert_eq!(number("slots in use"), 2 * (list.rows.len() + 1) - longest);
        assert_eq!(built(number("slots needed")), (0, number("slots in use")));
        assert_eq!(built(number("slots needed") - 1).0, 10);
    }
}

/// 17: the line, its text, what is wrong with it and what mends it.
#[test]
fn lines_not_in_form() {
    let not_in_form = "refused by 17: A line of the ARPA text is not in form, or a line is missing at its end.\n  ";
    let cases = [
        (sample_with("-0.006\tfour", "-0.006 four"), "line 10: -0.006 four\\t-0.002\n  wrong: `-0.006 four` is no logarithm in form"),
        (sample_with("-0.006\tfour", "-6e-3\tfour"), "line 10: -6e-3\\tfour\\t-0.002\n  wrong: `-6e-3` is no logarithm in form"),
        (sample_with("-0.002\n", "-0.00200001\n"), "line 10: -0.006\\tfour\\t-0.00200001\n  wrong: `-0.00200001` is no logarithm in form"),
        (sample_with("-0.02\t<unk>", "-0.02"), "line 9: -0.02\n  wrong: the line has 0 tabs"),
        (sample_with("\t-0.002\n", "\t-0.002\t\n"), "line 10: -0.006\\tfour\\t-0.002\\t\n  wrong: the line has 3 tabs"),
        (sample_with("four five", "four  five"), "line 14: -0.003\\tfour  five\n  wrong: the words are not parted by one space each"),
        (sample_with("four five", "four"), "line 14: -0.003\\tfour\n  wrong: the number of words is 1, not 2"),
        (
            sample_with("\tfour\t", &format!("\t{}\t", "f".repeat(64))),
            &format!("line 10: -0.006\\t{}\\t-0.002\n  wrong: a word has 64 bytes", "f".repeat(64)),
        ),
        (sample_with("ngram 1=5", "ngram  1=5"), "line 2: ngram  1=5\n  wrong: this is no count of the rows of length 1"),
        (sample_with("ngram 2=3", "ngram 3=3"), "line 3: ngram 3=3\n  wrong: this is no count of the rows of length 2"),
        (
            sample_with("ngram 3=1", "ngram 3=1\nngram 4=1\nngram 5=1\nngram 6=1"),
            "line 7: ngram 6=1\n  wrong: the rows are longer than five words",
        ),
        (sample_with("\\3-grams:", "\\4-grams:"), "line 18: \\4-grams:\n  wrong: no such line may stand here"),
        (sample_with("\\data\\", "model\n\\data\\"), "line 1: model\n  wrong: the text does not begin with `\\data\\`"),
        (sample_with("\\end\\\n", ""), "line 21 is missing\n  wrong: the text ends too early"),
        (sample_with("\\end\\\n", "\\end\\"), "line 21: \\end\\\n  wrong: the last line does not end with a line feed"),
        (sample_with("\\end\\\n", "\\end\\\nmore\n"), "line 22: more\n  wrong: the text goes on behind `\\end\\`"),
        (SAMPLE.replace('\n', "\r\n"), "line 1: \\data\\\\r\n  wrong: the line ends with a carriage return"),
        (String::new(), "line 1 is missing\n  wrong: the text ends too early"),
        ("\u{1F}".to_string(), "line 1: \\u{1f}\n  wrong: the text does not begin with `\\data\\`"),
    ];
    for (text, expected) in cases {
        let told = refused(&text);
        assert!(told.starts_with(&format!("{not_in_form}{expected}\n  to mend it: ")), "{told}");
    }
}

/// Files that are no ARPA text as they are.
#[test]
fn other_files() {
    let utf_16 = "the file is UTF-16, which begins with a byte order mark";
    let cases: [(&[u8], &str, &str); 4] = [
        (b"\x1F\x8B\x08\0\n", "the file is compressed", "unpack it: gunzip <OLD >NEW"),
        (b"\xFF\xFE\\\0d\0a\0t\0a\0\\\0\n\0", utf_16, "write it as UTF-8: iconv -f UTF-16 -t UTF-8 OLD >NEW"),
        (b"\xFE\xFF\0\\\0d\0a\0t\0a\0\\\0\n", utf_16, "write it as UTF-8: iconv -f UTF-16 -t UTF-8 OLD >NEW"),
        (
            b"iARPA\n\n\\data\\\nngram 1=1\n",
            "the file is irstlm's iARPA, whose numbers are not those of an ARPA text",
            "have irstlm write one: compile-lm OLD NEW --text=yes",
        ),
    ];
    for (file, wrong, mend) in cases {
        let told = refused(file);
        assert!(told.ends_with(&format!("  wrong: {wrong}\n  to mend it: {mend}\n")), "{told}");
        let told = refused_with(file, "--in-form");
        assert!(told.ends_with(&format!("  wrong: {wrong}\n  to mend it: {mend}\n")), "{told}");
    }
}

/// A byte order mark and carriage returns are named, and what takes them away.
#[test]
fn marks_of_editors() {
    let in_form = "\n  to mend it: run again with --in-form, or write the text anew: backoff in-form OLD >NEW\n";
    let told = refused(format!("\u{feff}{SAMPLE}"));
    assert!(told.contains("\n  line 1: ") && told.ends_with(&format!("wrong: the text begins with a byte order mark{in_form}")), "{told}");
    let told = refused(SAMPLE.replace('\n', "\r\n"));
    assert!(told.ends_with(&format!("line 1: \\data\\\\r\n  wrong: the line ends with a carriage return{in_form}")), "{told}");
    let told = refused(sample_with("four five\n", "four five\r\n"));
    assert!(told.contains("line 14: ") && told.ends_with(&format!("wrong: the line ends with a carriage return{in_form}")), "{told}");
}

/// `--in-form` is named where it helps, and not where it does not: then it is said how the line is written.
#[test]
fn in_form_where_it_helps() {
    let told = refused(sample_with("-0.006\tfour", "-6e-3 four"));
    assert!(told.ends_with("\n  to mend it: run again with --in-form, or write the text anew: backoff in-form OLD >NEW\n"), "{told}");
    let write = "write a minus or none, one to three digits, and optionally a point with one to seven digits\n";
    for log in ["-inf", "nan", "-6e3", "-0,6"] {
        let text = sample_with("-0.006\tfour", &format!("{log}\tfour"));
        for told in [refused(&text), refused_with(&text, "--in-form")] {
            assert!(told.ends_with(&format!("wrong: `{log}` is no logarithm in form\n  to mend it: {write}")), "{told}");
        }
    }
    // A second fault, in a later line, does not hide that the first can be mended.
    let two = sample_with("-0.006\tfour", "-6e-3\tfour").replace("-0.003\tfour five", "-inf\tfour five");
    assert!(refused(&two).contains("line 10: ") && refused(&two).contains("--in-form"));
}

/// What may stand in the place of a line that may not.
#[test]
fn lines_that_may_come() {
    let cases = [
        (String::new(), "go on with `\\data\\`"),
        ("\\data\\\n".to_string(), "go on with `ngram 1=COUNT`"),
        ("\\data\\\nngram 1=1\n".to_string(), "go on with `ngram 2=COUNT` or `\\1-grams:`"),
        ("\\data\\\nngram 1=1\nngram 2=1\nngram 3=1\nngram 4=1\nngram 5=1\n".to_string(), "go on with `\\1-grams:`"),
        (sample_with("\\2-grams:", "\\3-grams:"), "write a row of length 1 or `\\2-grams:` here"),
        (sample_with("\\end\\", "\\4-grams:"), "write a row of length 3 or `\\end\\` here"),
    ];
    for (text, mend) in cases {
        let told = refused(&text);
        assert!(told.ends_with(&format!("\n  to mend it: {mend}\n")), "{told}");
    }
}

/// 18 and 19 name the word and both counts.
#[test]
fn words_and_counts() {
    let unlisted = "refused by 18: A word of the ARPA text has no line in the section of one word.
  line 16: -0.0015\\tfive six
  wrong: no line of the section `\\1-grams:` has `six`
  to mend it: add such a line and count it, or take this row away
";
    assert_eq!(refused(sample_with("five </s>", "five six")), unlisted);
    let miscounted = "refused by 19: A section of the ARPA text has more or fewer lines than its count says.
  line 18: \\3-grams:
  wrong: the number of rows before it is 3, but `ngram 2=4` stands above
  to mend it: write `ngram 2=3`, if no row is lost
";
    assert_eq!(refused(sample_with("ngram 2=3", "ngram 2=4")), miscounted);
    let last = refused(sample_with("ngram 3=1", "ngram 3=0"));
    assert!(last.contains("line 21: \\end\\\n  wrong: the number of rows before it is 1, but `ngram 3=0` stands above\n"), "{last}");
}

/// 5, 6 and 7 name the row in list order, and its line in the file.
#[test]
fn rows_out_of_range_or_twice() {
    let probability = "refused by 5: The row's log-probability is not between -99,000,000 and 0.
  row 4 in list order, line 10: 0.006\\tfour\\t-0.002
  to mend it: give the row a log-probability from -99 to 0
";
    assert_eq!(refused(sample_with("-0.006\tfour", "0.006\tfour")), probability);
    let backoff = "refused by 6: The row's back-off is not between -99,000,000 and 99,000,000, or the row is of the longest and has one.
  row 9 in list order, line 19: -0.001\\t<s> four five\\t-0.2
  to mend it: give the row a back-off from -99 to 99, and none where no row is longer
";
    assert_eq!(refused(sample_with("<s> four five", "<s> four five\t-0.2")), backoff);
    let twice = "refused by 7: The row does not come after the row before it in list order.
  row 8 in list order, line 16: -0.0015\\tfour five
  wrong: line 14 has the same words
  to mend it: take one of the two away
";
    assert_eq!(refused(sample_with("five </s>", "four five")), twice);
}

/// Rows of two and more words may come in any order: the number is that in list order, and the line is the row's own.
#[test]
fn rows_in_any_order() {
    for seed in 0..20 {
        let random = &mut Random::new(seed);
        let rows = lists::natural(random, 3, 40, 200);
        let mut list = Texted::new(random, &rows);
        let bad = list.rows.len() - 1 - random.below(150);
        list.rows[bad].p = 1;
        let mut printed = arpa::print(&list.rows, &list.texts);
        printed.sections[1..].iter_mut().for_each(|section| arpa::shuffle(random, section));
        let lines = printed.lines();
        let line = lines.iter().position(|line| line.starts_with(b"0.000001\t")).unwrap();
        let told = refused(arpa::bytes(&lines));
        let text = String::from_utf8_lossy(&lines[line]).replace('\t', "\\t").replace('\u{7f}', "\\u{7f}");
        let expected = format!("row {} in list order, line {}: {text}", bad + 1, line + 1);
        assert_eq!(told.lines().nth(1), Some(&format!("  {expected}")[..]), "seed {seed}");
    }
}

/// 8 names the row that is missing, and `--fill` where it helps.
#[test]
fn missing_rows() {
    let told = |missing: &str, mend: &str| {
        format!(
            "refused by 8: The row without this row's first word, or the one without its last word, is missing.
  row 8 in list order, line 18: -0.001\\t<s> four five
  wrong: there is no row `{missing}`
  to mend it: {mend}
"
        )
    };
    let fill = "run again with --fill, which adds such rows; no word's score changes";
    assert_eq!(refused(without("four five", 2)), told("four five", fill));
    let add = "add a row `<s> four`, or take away the rows that need it";
    assert_eq!(refused(without("<s> four", 2)), told("<s> four", add));
    let alone = format!("{add}; filling adds rows without their first words alone");
    assert_eq!(refused_with(without("<s> four", 2), "--fill"), told("<s> four", &alone));
}

/// 9 says which lines are to be added.
#[test]
fn missing_marks() {
    let told = "refused by 9: Word 1, 2 or 3 has no row of one word.
  to mend it: add `-99<tab><unk>` to the section `\\1-grams:` and count it
";
    assert_eq!(refused(sample_with("<unk>", "<UNK>")), told);
    let two = refused("\\data\\\nngram 1=1\n\\1-grams:\n-1\t<s>\n\\end\\\n");
    assert!(two.ends_with("add `-99<tab><unk>` and `-99<tab></s>` to the section `\\1-grams:` and count it\n"), "{two}");
}

/// One-word rows, so many.
fn one_word_rows(count: i32) -> Vec<u8> {
    let rows = (1..=count).map(|word| Row { words: vec![word], p: -10_000, b: 0 }).collect();
    Texted { rows, texts: numbered_texts(count) }.arpa()
}

/// 1: no rows and one row too many; of more rows 15 tells the line.
#[test]
fn too_many_rows() {
    let folder = Folder::new();
    folder.put("m", one_word_rows(65_535));
    assert!(folder.run("check m").text().contains("rows             65,535\n"));
    let reason =
        "refused by 1: The table is empty, its length is not a multiple of 8, or there are more than 65,535 rows.\n  wrong: the text has";
    let prune = "  to mend it: prune the model, or train one of a lower order\n";
    assert_eq!(refused(one_word_rows(65_536)), format!("{reason} 65536 rows\n{prune}"));
    assert_eq!(refused(one_word_rows(0)), format!("{reason} 0 rows\n"));
    let told = refused(one_word_rows(70_000));
    let line = "  line 65541: -0.010000\\tw65537\n  wrong: there are more rows than the 65,535 that a list may have\n";
    assert_eq!(told, format!("refused by 15: A slice to be written is too short.\n{line}{prune}"));
}

/// 10 is final: the words before each of 36 words lie so that no two of their nodes fit into each other, and all of them need more slots than there may be.
#[test]
fn too_many_slots() {
    const NEAR: i32 = 220;
    let words = NEAR * NEAR;
    let apart = (1..=NEAR).chain((2..=NEAR).map(|step| NEAR * step));
    let one = (1..=words).map(|word| Row { words: vec![word], p: -1, b: 0 });
    let two = (4..40).flat_map(|last| apart.clone().map(move |first| Row { words: vec![first, last], p: -1, b: 0 }));
    let rows: Vec<Row> = one.chain(two).collect();
    let told = refused(Texted { rows, texts: numbered_texts(words) }.arpa());
    let expected = "refused by 10: The list needs more slots than base and check have.
  wrong: the list is accepted, but its array needs more than 1,048,576 slots, the most there may be
  to mend it: prune the model, or train one of a lower order
";
    assert_eq!(told, expected);
}

/// Filling is refused where an added row's p leaves its range, and where there are too many rows then.
#[test]
fn refused_filling() {
    let text = without("four five", 2).replace("-0.009\tfive", "-99\tfive");
    let told = "refused by 5: The row's log-probability is not between -99,000,000 and 0.
  row 8 in list order, line 18: -0.001\\t<s> four five
  wrong: a row that it needs is missing, and the points that the list gives it are above 0 or below -99
  to mend it: add that row, or take this one away
";
    assert_eq!(refused_with(text, "--fill"), told);

    // Each row of five words needs three rows that are missing.
    let words = 13_200;
    let one = (1..=words).map(|word| vec![word]);
    let first = [vec![4, 4], vec![4, 4, 4], vec![4, 4, 4, 4]].into_iter();
    let five = (4..=words).map(|word| vec![4, 4, 4, 4, word]);
    let rows: Vec<Row> = one.chain(first).chain(five).map(|words| Row { words, p: -1, b: 0 }).collect();
    let told = format!(
        "refused by 1: The table is empty, its length is not a multiple of 8, or there are more than 65,535 rows.
  wrong: the text has {} rows, and with those that filling adds there are more than 65,535
  to mend it: prune the model, or train one of a lower order
",
        rows.len()
    );
    assert_eq!(refused_with(Texted { rows, texts: numbered_texts(words) }.arpa(), "--fill"), told);
}

/// The texts of the words 1 to `count`.
fn numbered_texts(count: i32) -> Vec<Vec<u8>> {
    let marks = MARKS.map(<[u8]>::to_vec).into_iter();
    marks.chain((4..=count).map(|word| format!("w{word}").into_bytes())).collect()
}
