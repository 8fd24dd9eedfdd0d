//! `backoff compare`: two readings of a text, beside a second scorer over the plain list.

mod support;

use support::lines::{scored, Marks, Word};
use support::{any_list, Folder, Texted, SAMPLE};
use tests::lists;
use tests::random::Random;

/// The readings of a line side by side: those of one length place by place, others by what they begin and end with alike.
fn paired<'a>(one: &'a [Word], two: &'a [Word]) -> Vec<(Option<&'a Word>, Option<&'a Word>)> {
    if one.len() == two.len() {
        return one.iter().map(Some).zip(two.iter().map(Some)).collect();
    }
    let shorter = one.len().min(two.len());
    let begin = (0..shorter).find(|&place| one[place].0 != two[place].0).unwrap_or(shorter);
    let same_end = |back: &usize| one[one.len() - 1 - back].0 == two[two.len() - 1 - back].0;
    let end = (0..shorter - begin).find(|back| !same_end(back)).unwrap_or(shorter - begin);
    let (one_between, two_between) = (&one[begin..one.len() - end], &two[begin..two.len() - end]);
    let between = (0..one_between.len().max(two_between.len())).map(|place| (one_between.get(place), two_between.get(place)));
    let ends = one[one.len() - end..].iter().map(Some).zip(two[two.len() - end..].iter().map(Some));
    one[..begin].iter().map(Some).zip(two[..begin].iter().map(Some)).chain(between).chain(ends).collect()
}

fn total(line: &[Word]) -> i64 {
    line.iter().map(|(_, _, scored)| scored.points as i64).sum()
}

fn moved(by: i64) -> String {
    if by > 0 {
        format!("+{by}")
    } else {
        by.to_string()
    }
}

/// The words of a line that differs, each with one space where the program has some. No point moves but where a word differs, or one of the `count` before it.
fn lines(one: &[Word], two: &[Word], count: usize) -> Vec<Vec<u8>> {
    let pairs = paired(one, two);
    let differs: Vec<bool> = pairs.iter().map(|(one, two)| one.map(|word| &word.0) != two.map(|word| &word.0)).collect();
    let points = |word: Option<&Word>| word.map(|(_, _, scored)| scored.points as i64);
    let mut lines = Vec::new();
    for (place, &(one, two)) in pairs.iter().enumerate() {
        let near = differs[place.saturating_sub(count)..place].contains(&true);
        let by = points(two).unwrap_or(0) - points(one).unwrap_or(0);
        assert!(differs[place] || near || by == 0);
        let mark = if differs[place] {
            ">"
        } else if near {
            "|"
        } else {
            ""
        };
        let side = |word: Option<&Word>| {
            word.map_or(Vec::new(), |word| [&word.0[..], b" ", points(Some(word)).unwrap().to_string().as_bytes()].concat())
        };
        let by = if mark.is_empty() { String::new() } else { moved(by) };
        lines.push([mark.as_bytes(), &side(one), &side(two), by.as_bytes()].join(&b' '));
    }
    lines.push(format!("total {} {} {}", total(one), total(two), moved(total(two) - total(one))).into_bytes());
    lines
}

/// A text with some words replaced, taken away or put in, in lines of any number.
fn misheard(random: &mut Random, list: &Texted, text: &[Vec<Vec<u8>>]) -> Vec<Vec<Vec<u8>>> {
    let mut text = text.to_vec();
    for line in &mut text {
        for _ in 0..random.below(4) {
            let place = random.below(line.len() + 1);
            let word = if random.chance(80) { list.text(1 + random.below(list.texts.len()) as u32).to_vec() } else { b"other".to_vec() };
            match random.below(4) {
                0 => line.insert(place, word),
                1 if place < line.len() => drop(line.remove(place)),
                _ if place < line.len() => line[place] = word,
                _ => {}
            }
        }
    }
    text
}

fn bytes(text: &[Vec<Vec<u8>>]) -> Vec<u8> {
    text.iter().flat_map(|line| [line.join(&b' '), vec![b'\n']].concat()).collect()
}

fn squeezed(line: &[u8]) -> Vec<u8> {
    line.split(|&byte| byte == b' ').filter(|part| !part.is_empty()).collect::<Vec<_>>().join(&b' ')
}

#[test]
fn random_readings() {
    let mut differing = 0;
    for seed in 0..60 {
        let random = &mut Random::new(seed);
        let list = any_list(random);
        let count = list.rows.iter().map(|row| row.words.len()).max().unwrap() - 1;
        let text: Vec<Vec<Vec<u8>>> = (0..8)
            .map(|_| {
                let length = random.below(12);
                let words = lists::text(random, &list.rows, length);
                words.iter().map(|&word| list.texts.get((word as usize).wrapping_sub(1)).cloned().unwrap_or(b"unlisted".to_vec())).collect()
            })
            .collect();
        let other = misheard(random, &list, &text);
        let marks = random.pick(&Marks::ALL);
        let [one, two] = [&text, &other].map(|text| scored(&list, &bytes(text), marks));
        let mut expected: Vec<Vec<u8>> = Vec::new();
        let mut lines_differ = 0;
        for (number, (first, second)) in (1..).zip(one.iter().zip(&two)) {
            let pairs = lines(first, second, count);
            let words = pairs.iter().filter(|line| line.starts_with(b">")).count();
            if text[number - 1] != other[number - 1] {
                let verb = if words == 1 { "word differs" } else { "words differ" };
                expected.push(format!("line {number}: {words} {verb}").into_bytes());
                expected.extend(pairs.iter().map(|line| squeezed(line)));
                expected.push(Vec::new());
                lines_differ += 1;
            }
        }
        differing += lines_differ;
        let folder = Folder::new();
        folder.put("m", list.arpa());
        folder.put("one", bytes(&text));
        folder.put("two", bytes(&other));
        let printed = folder.run(&format!("compare m one two{}", marks.options())).printed();
        let printed: Vec<Vec<u8>> = printed.split(|&byte| byte == b'\n').map(squeezed).collect();
        let (ours, summary) = printed.split_at(expected.len().min(printed.len()));
        for (ours, expected) in ours.iter().zip(&expected) {
            assert_eq!(String::from_utf8_lossy(ours), String::from_utf8_lossy(expected), "seed {seed}");
        }
        let summary: Vec<String> = summary.iter().map(|line| String::from_utf8_lossy(line).into_owned()).collect();
        let verb = if lines_differ == 1 { "differs" } else { "differ" };
        assert_eq!(summary[0], format!("8 lines, of which {lines_differ} {verb}"));
        let [first, second]: [i64; 2] = [&one, &two].map(|text| text.iter().map(|line| total(line)).sum());
        assert!(summary[1].starts_with(&format!("totals {first} and {second}: moved by {} (log10 ", moved(second - first))), "{summary:?}");
    }
    assert!(differing > 100, "{differing}");
}

/// The scope's sample, byte for byte.
#[test]
fn lines_of_the_sample() {
    let folder = Folder::new();
    folder.put("sample", SAMPLE);
    folder.put("one", "four five four five\nfive\n");
    folder.put("two", "four nine four five\nfive\n");
    let expected = "\
line 1: 1 word differs
   four    -4000  four   -4000
>  five    -1000  nine  -22500  -21500
|  four    -7000  four   -6000   +1000
|  five    -3000  five   -3000       0
   </s>    -1500  </s>   -1500
   total  -16500        -37000  -20500

2 lines, of which 1 differs
totals -30000 and -50500: moved by -20500 (log10 -0.0205)
Only a word that differs (>) and the 2 words after it (|) can have other points, since no row has more than 3 words; so it is here.
";
    assert_eq!(folder.run("compare sample one two").text(), expected);
    let alike = "2 lines, of which 0 differ\ntotals -30000 and -30000: moved by 0 (log10 0)\n";
    assert_eq!(folder.run("compare sample one one").text(), alike);
    assert_eq!(folder.run_on("compare sample one -", b"four five four five\nfive\n").text(), alike);
}

/// How many words after one that differs can move is said for lists of the orders 1 and 2, too.
#[test]
fn words_that_can_move() {
    let folder = Folder::new();
    folder.put("one", "a\n");
    folder.put("two", "b\n");
    folder.put("m", "\\data\\\nngram 1=3\n\\1-grams:\n-1\t<unk>\n-1\t<s>\n-1\t</s>\n\\end\\\n");
    let only = "Only a word that differs (>) can have other points, since no row has more than 1 word; so it is here.\n";
    assert!(folder.run("compare m one two").text().ends_with(only));
    folder.put("m", "\\data\\\nngram 1=3\nngram 2=1\n\\1-grams:\n-1\t<unk>\n-1\t<s>\n-1\t</s>\n\\2-grams:\n-1\t<s> </s>\n\\end\\\n");
    let next = "Only a word that differs (>) and the word after it (|) can have other points, since no row has more than 2 words; so it is here.\n";
    assert!(folder.run("compare m one two").text().ends_with(next));
}

#[test]
fn other_numbers_of_lines() {
    let folder = Folder::new();
    folder.put("sample", SAMPLE);
    folder.put("one", "four\nfive\n");
    folder.put("two", "four\n");
    let told = "backoff: the texts have 2 and 1 lines: lines that are compared stand in the same place\n";
    assert_eq!(folder.run("compare sample one two").refused(), told);
}
