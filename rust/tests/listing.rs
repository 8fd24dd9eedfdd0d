//! `backoff sentences` and `backoff largest-move`: beside all sentences scored over the plain list, and all pairs of them.

mod support;

use support::lines::logarithm;
use support::{Folder, Texted, SAMPLE};
use tests::lists;
use tests::random::Random;
use tests::reference::rule::{Rule, SENTENCE_END, SENTENCE_START};
use tests::reference::sentences::sentences_of;

/// The sentences of so many words of a list, with their totals.
fn sentences(list: &Texted, length: usize) -> Vec<(Vec<u32>, i64)> {
    let rule = Rule::new(&list.rows);
    let words: Vec<u32> = (1..=list.texts.len() as u32).filter(|word| ![SENTENCE_START, SENTENCE_END].contains(word)).collect();
    let total = |sentence: &Vec<u32>| {
        let all = [&[SENTENCE_START], &sentence[..], &[SENTENCE_END]].concat();
        (1..all.len()).map(|place| rule.score(&all[..place], all[place]).points as i64).sum()
    };
    sentences_of(length, &words).into_iter().map(|sentence| (sentence.clone(), total(&sentence))).collect()
}

/// A sentence's line.
fn line(list: &Texted, number: usize, (words, total): &(Vec<u32>, i64)) -> Vec<u8> {
    let texts: Vec<&[u8]> = words.iter().map(|&word| list.text(word)).collect();
    let numbers: Vec<String> = words.iter().map(u32::to_string).collect();
    [format!("{number}\t{total}\t").as_bytes(), &texts.join(&b' '), format!("\t{}\n", numbers.join(" ")).as_bytes()].concat()
}

/// What is printed of the largest move, found by looking at every pair.
fn moved(list: &Texted, sentences: &[(Vec<u32>, i64)]) -> Vec<u8> {
    let mut largest: Option<(i64, usize, usize)> = None;
    for (i, (one, first)) in sentences.iter().enumerate() {
        for (j, (two, second)) in sentences.iter().enumerate().skip(i + 1) {
            let distance = (first - second).abs();
            let at_one_place = one.iter().zip(two).filter(|(a, b)| a != b).count() == 1;
            if at_one_place && largest.is_none_or(|(other, ..)| distance > other) {
                largest = Some((distance, i, j));
            }
        }
    }
    let (distance, pair) = match largest {
        None => (0, b"There is no pair, since fewer than two words are used.\n".to_vec()),
        Some((distance, i, j)) => (distance, [line(list, i + 1, &sentences[i]), line(list, j + 1, &sentences[j])].concat()),
    };
    [format!("largest move: {distance} points (log10 {})\n", logarithm(distance)).as_bytes(), &pair].concat()
}

#[test]
fn random_lists() {
    for seed in 0..60 {
        let random = &mut Random::new(seed);
        let order = 1 + random.below(5);
        let length = 1 + random.below(4);
        let usable = 1 + random.below([16, 12, 6, 4][length - 1]);
        let rows = lists::with_usable(random, order, usable, 12);
        let rows = if random.chance(30) { lists::even(random, &rows) } else { rows };
        let list = Texted::new(random, &rows);
        let folder = Folder::new();
        folder.put("arpa", list.arpa());
        folder.run("build arpa array").printed();
        let expected = sentences(&list, length);
        let lines: Vec<u8> = (1..).zip(&expected).flat_map(|(number, sentence)| line(&list, number, sentence)).collect();
        let model = random.pick(&["arpa", "array"]);
        assert!(folder.run(&format!("sentences {model} {length}")).printed() == lines, "seed {seed}");
        let printed = folder.run(&format!("largest-move {model} {length}")).printed();
        assert_eq!(String::from_utf8_lossy(&printed), String::from_utf8_lossy(&moved(&list, &expected)), "seed {seed}");
    }
}

/// The most that there can be: 16 words, sentences of four.
#[test]
fn largest_listing() {
    let random = &mut Random::new(1);
    let rows = lists::with_usable(random, 3, 16, 40);
    let list = Texted::new(random, &rows);
    let folder = Folder::new();
    folder.put("arpa", list.arpa());
    let printed = folder.run("sentences arpa 4").printed();
    let expected = sentences(&list, 4);
    assert_eq!(printed.iter().filter(|&&byte| byte == b'\n').count(), 65_536);
    for number in [1, 2, 17, 4_096, 65_535, 65_536] {
        let start = line(&list, number, &expected[number - 1]);
        assert!(printed.split_inclusive(|&byte| byte == b'\n').nth(number - 1) == Some(&start), "{number}");
    }
    assert!(folder.run("largest-move arpa 4").printed().starts_with(b"largest move: "));
}

#[test]
fn sample() {
    let folder = Folder::new();
    folder.put("sample", SAMPLE);
    assert_eq!(folder.run("sentences sample 1").text(), "1\t-33000\t<unk>\t1\n2\t-16500\tfour\t4\n3\t-13500\tfive\t5\n");
    let moved = "largest move: 30000 points (log10 0.03)\n4\t-36500\tfour <unk>\t4 1\n6\t-6500\tfour five\t4 5\n";
    assert_eq!(folder.run("largest-move sample 2").text(), moved);
    folder.put("marks", "\\data\\\nngram 1=3\n\\1-grams:\n-1\t<unk>\n-1\t<s>\n-1\t</s>\n\\end\\\n");
    assert_eq!(folder.run("sentences marks 4").text(), "1\t-5000000\t<unk> <unk> <unk> <unk>\t1 1 1 1\n");
    let none = "largest move: 0 points (log10 0)\nThere is no pair, since fewer than two words are used.\n";
    assert_eq!(folder.run("largest-move marks 2").text(), none);
}

/// More words than 16 are refused in words, and numbers of words that there cannot be.
#[test]
fn refused() {
    let random = &mut Random::new(2);
    let rows = lists::with_usable(random, 2, 17, 5);
    let list = Texted::new(random, &rows);
    let folder = Folder::new();
    folder.put("m", list.arpa());
    let told = "backoff: m: refused by 22: The sentences to be listed have no words or more than 4, or there are more than 16 words to make them of.
  wrong: the list has 19 words, of which all but <s> and </s> are used
  to mend it: take a list of 16 such words at most
";
    assert_eq!(folder.run("sentences m 1").refused(), told);
    assert_eq!(folder.run("largest-move m 4").refused(), told);
    for length in ["0", "5", "two", "1.5", "99999999999999999999"] {
        for subcommand in ["sentences", "largest-move"] {
            let told = format!("backoff: {subcommand}: K is a number from 1 to 4, not '{length}': see backoff {subcommand} --help\n");
            assert_eq!(folder.run(&format!("{subcommand} m {length}")).refused(), told);
        }
    }
    assert_eq!(folder.run("sentences m").refused(), "backoff: sentences: 1 argument is given, not 2: see backoff sentences --help\n");
}
