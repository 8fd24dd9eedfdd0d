//! `backoff_lookup` against the list itself and against the second lookup, over any lent arrays.

use std::collections::HashMap;
use std::ops::RangeInclusive;
use tests::arrays::{built, drawn, each_change, spread, Arrays};
use tests::guard::Guarded;
use tests::lists;
use tests::random::Random;
use tests::reference::array::{lookup, Found, HEAD, MOST_SLOTS};
use tests::reference::list::{extended, Row, ACCEPTED, LARGEST_B, MOST_ROWS};

const NOT_FOUND: Found = (ACCEPTED, false, 0, 0, false);

/// The answer that the call and the second lookup agree on; nothing that is lent may be written.
fn agreed(arrays: &Arrays, words: &[u32]) -> Found {
    let (mut base, mut check, mut lent_words) = (Guarded::new(&arrays.base), Guarded::new(&arrays.check), Guarded::new(words));
    let answer = agreed_in_place(base.lend(), check.lend(), lent_words.lend());
    assert!(base.back() == arrays.base && check.back() == arrays.check && lent_words.back() == words, "a lent slice was written");
    answer
}

/// The same without guard zones, for arrays that are too long to copy for each lookup.
fn agreed_in_place(base: &[i32], check: &[i32], words: &[u32]) -> Found {
    let found = backoff::lookup(base, check, words);
    assert!(found.found <= 1 && found.left <= found.found, "the flags are 0 or 1, and left is 0 where nothing is found");
    let answer = ((found.number, found.place), found.found == 1, found.p, found.b, found.left == 1);
    let first = |cells: &'_ [i32]| cells[..cells.len().min(60)].to_vec();
    assert_eq!(answer, lookup(base, check, words), "{words:?} in BASE {:?}, CHECK {:?}", first(base), first(check));
    answer
}

fn unsigned(words: &[i32]) -> Vec<u32> {
    words.iter().map(|&word| word as u32).collect()
}

/// All sequences of up to three of the words, and some of four to six.
fn sequences(words: &[u32]) -> Vec<Vec<u32>> {
    let mut all = vec![vec![]];
    let mut last = all.clone();
    for _ in 0..3 {
        last = last.iter().flat_map(|rest| words.iter().map(|&word| [&rest[..], &[word]].concat())).collect();
        all.extend(last.clone());
    }
    all.extend([vec![1; 4], vec![4; 5], vec![2; 6], vec![70_000; 7]]);
    all
}

/// K6: 2 4 is found with its own two numbers, 5 4 is not found.
#[test]
fn k6() {
    let sample = built(&lists::sample(), 0);
    assert_eq!(agreed(&sample, &[2, 4]), (ACCEPTED, true, -4_000, -500, false));
    assert_eq!(agreed(&sample, &[5, 4]), NOT_FOUND);
}

/// Of the sample's rows 5 3, 2 4, 4 5 and 2 4 5 put a word in front of 3, 4, 5 and 4 5; no row puts one in front of the others.
#[test]
fn left_extension_of_the_sample() {
    let sample = built(&lists::sample(), 0);
    let left = |row: &Row| agreed(&sample, &unsigned(&row.words)).4;
    let rows: Vec<Vec<i32>> = lists::sample().into_iter().filter(left).map(|row| row.words).collect();
    assert_eq!(rows, [vec![3], vec![4], vec![5], vec![4, 5]]);
}

/// Over an array that no build wrote `left` is the marker's e, whatever rows there are.
#[test]
fn left_as_the_marker_says() {
    for row in lists::sample().into_iter().filter(|row| row.words.len() < 3) {
        let mut arrays = built(&lists::sample(), 0);
        let (words, marker) = (unsigned(&row.words), marker_of(&arrays, &row.words));
        let (refusal, found, p, b, left) = agreed(&arrays, &words);
        arrays.base[marker] ^= 2;
        assert_eq!(agreed(&arrays, &words), (refusal, found, p, b, !left), "{words:?}");
    }
}

/// The slot of the marker of a row's words, which are fewer than n.
fn marker_of(arrays: &Arrays, words: &[i32]) -> usize {
    arrays.base[arrays.node(words)] as usize
}

/// BASE of a row of n words for each order: from −99,000,001 to −1 it is p − 1, and b and `left` are 0; anything else there, 0 and a slot of the array too,
/// gives 12.
#[test]
fn p_in_the_longest_rows_own_slot() {
    let ends: [RangeInclusive<i32>; 4] = [i32::MIN..=i32::MIN + 3, -99_000_005..=-98_999_997, -5..=40, i32::MAX - 3..=i32::MAX];
    for order in 1..=5 {
        let mut arrays = built(&lists::twos(order, -7), 10);
        let words = vec![2; order];
        let node = arrays.node(&words);
        for base in ends.iter().cloned().flatten() {
            arrays.base[node] = base;
            let sound = (-99_000_001..=-1).contains(&base);
            let expected = if sound { (ACCEPTED, true, base + 1, 0, false) } else { ((12, 0), false, 0, 0, false) };
            assert_eq!(agreed(&arrays, &unsigned(&words)), expected, "order {order}, BASE {base}");
        }
    }
}

/// A row of n words has no marker: a BASE that names a sound one gives 12, as arrays with an older head have it. A row of fewer words has nothing in its own
/// BASE: p − 1 there gives 12, also where the walk would go on.
#[test]
fn each_row_in_its_own_place() {
    let mut arrays = built(&lists::sample(), 0);
    (arrays.base[19], arrays.base[18], arrays.check[18]) = (18, 0, -1_001);
    assert_eq!(agreed(&arrays, &[2, 4, 5]).0, (12, 0));
    assert_eq!(agreed(&arrays, &[4, 5]), (ACCEPTED, true, -3_000, 0, true));
    for base in [-1, -3_001, -99_000_001, -99_000_002, i32::MIN] {
        let mut arrays = built(&lists::sample(), 0);
        arrays.base[15] = base;
        for words in [&[4, 5][..], &[2, 4, 5], &[9, 4, 5]] {
            assert_eq!(agreed(&arrays, words).0, (12, 0), "{base} {words:?}");
        }
        assert_eq!(agreed(&arrays, &[5]), (ACCEPTED, true, -9_000, -1_000, true));
    }
}

/// Another n in the head moves the depth at which a node holds p itself. With n of 1 or 2 the sample's rows of n words are broken, as they have markers, and
/// longer ones are not found; with n above 3 row 2 4 5 is broken, as it has none.
#[test]
fn the_order_tells_which_rows_are_the_longest() {
    for order in 1..=5 {
        let mut arrays = built(&lists::sample(), 0);
        arrays.check[0] = HEAD + order as i32;
        for row in lists::sample() {
            let (refusal, found, ..) = agreed(&arrays, &unsigned(&row.words));
            let expected = match row.words.len() {
                3 if order > 3 => ((12, 0), false),
                length if length > order => (ACCEPTED, false),
                length if length == order && order < 3 => ((12, 0), false),
                _ => (ACCEPTED, true),
            };
            assert_eq!((refusal, found), expected, "{:?} of order {order}", row.words);
        }
    }
}

/// 4 × b + 2 × e + f at the ends of b's range and of 32 bits: b in range is given back with e, all else gives 12.
#[test]
fn packed_limits() {
    let mut arrays = built(&lists::sample(), 0);
    let marker = marker_of(&arrays, &[2, 4]);
    let ends: [RangeInclusive<i32>; 5] =
        [i32::MIN..=i32::MIN + 9, -396_000_009..=-395_999_990, -9..=9, 395_999_990..=396_000_009, i32::MAX - 9..=i32::MAX];
    for packed in ends.into_iter().flatten() {
        arrays.base[marker] = packed;
        let sound = (-396_000_000..=396_000_003).contains(&packed);
        let b = packed.div_euclid(4);
        assert_eq!(sound, (-LARGEST_B..=LARGEST_B).contains(&b));
        let expected = if sound { (ACCEPTED, true, -4_000, b, packed.rem_euclid(4) >= 2) } else { ((12, 0), false, 0, 0, false) };
        assert_eq!(agreed(&arrays, &[2, 4]), expected, "{packed}");
    }
}

/// Lookup of 0 or above 5 words gives 14; of more words than the order is simply not found.
#[test]
fn numbers_of_words() {
    let sample = built(&lists::sample(), 0);
    for count in 0..=8 {
        let expected = match count {
            0 | 6.. => ((14, 0), false, 0, 0, false),
            _ if count == 1 => (ACCEPTED, true, -6_000, -2_000, true),
            _ => NOT_FOUND,
        };
        assert_eq!(agreed(&sample, &vec![4; count]), expected, "{count} words");
    }
}

/// Words outside 1..65,535 are unlisted, wherever they stand; no word is replaced.
#[test]
fn words_out_of_range() {
    let largest = lists::all_words(&mut Random::new(1));
    let arrays = built(&largest, 200_000);
    assert_eq!(agreed(&arrays, &[65_535]), (ACCEPTED, true, largest[65_534].p, 0, false));
    for word in [0, 65_536, 65_537, 131_071, 1 << 20, u32::MAX, u32::MAX - 1, 1 << 31] {
        assert_eq!(agreed(&arrays, &[word]), NOT_FOUND, "{word}");
        assert_eq!(agreed(&built(&lists::sample(), 0), &[word, 4]), NOT_FOUND, "{word} 4");
        assert_eq!(agreed(&built(&lists::sample(), 0), &[4, word]), NOT_FOUND, "4 {word}");
    }
}

/// Nor is such a word found where a slot stands as its child would, ahead or behind: 65,535 is, 65,536 is not.
#[test]
fn no_child_above_the_largest_word() {
    for node in [0, 5] {
        let mut arrays = built(&lists::sample(), 0);
        arrays.plant(node, 65_535);
        arrays.plant(node, 65_537);
        let words = |word| if node == 0 { vec![word] } else { vec![word, 4] };
        assert_eq!(agreed(&arrays, &words(65_535)), (ACCEPTED, true, -4, 0, false));
        assert_eq!(agreed(&arrays, &words(65_537)), NOT_FOUND);
        arrays = built(&lists::sample(), 0);
        arrays.plant(node, 65_536);
        assert_eq!(agreed(&arrays, &words(65_536)), NOT_FOUND);
    }
    let mut arrays = built(&lists::sample(), 70_000);
    (arrays.base[5], arrays.check[66_000]) = (66_000, -6_001);
    for word in [65_535, 65_536] {
        (arrays.base[66_000 - word], arrays.check[66_000 - word]) = (7, 5);
    }
    assert_eq!(agreed(&arrays, &[65_535, 4]), (ACCEPTED, true, -20_000, 0, false));
    assert_eq!(agreed(&arrays, &[65_536, 4]), NOT_FOUND);
}

/// The array of words 1 to 5 in which row 4 alone has words in front of it, 1 and 3, in slots of the caller's choice; row 4 is in slot 5, its d is 30. With order
/// 2 they hold their p themselves, with order 3 in the markers in slots 40 and 41.
fn with_words_before_4(order: i32, slot_of_1: usize, slot_of_3: usize) -> Arrays {
    let mut arrays = built(&lists::first_words(5), 40);
    (arrays.base[5], arrays.check[0]) = (30, HEAD + order);
    (arrays.base[30], arrays.check[30]) = (2, -31);
    for (slot, marker, p) in [(slot_of_1, 40, -1), (slot_of_3, 41, -3)] {
        (arrays.base[slot], arrays.check[slot]) = (if order == 2 { p - 1 } else { marker as i32 }, 5);
        (arrays.base[marker], arrays.check[marker]) = (0, p - 1);
    }
    arrays
}

/// A child is found on either side of d, each child on its own.
#[test]
fn children_on_either_side() {
    let (p_of_1, p_of_3) = ((ACCEPTED, true, -1, 0, false), (ACCEPTED, true, -3, 0, false));
    for (slot_of_1, slot_of_3) in [(31, 33), (29, 27), (29, 33), (31, 27)] {
        for order in [2, 3] {
            let arrays = with_words_before_4(order, slot_of_1, slot_of_3);
            assert_eq!(agreed(&arrays, &[1, 4]), p_of_1, "{slot_of_1}");
            assert_eq!(agreed(&arrays, &[3, 4]), p_of_3, "{slot_of_3}");
            for word in [0, 2, 4, 5, 29, 30, 31, 60, 65_535] {
                assert_eq!(agreed(&arrays, &[word, 4]), NOT_FOUND, "{word}");
            }
        }
    }
}

/// "A walk looks at d + w, then at d − w": where both slots have the node as CHECK, the one ahead is the child, also where it is broken; the one behind is, where
/// the slot ahead is past the end.
#[test]
fn the_slot_ahead_decides() {
    for order in [2, 3] {
        let mut arrays = with_words_before_4(order, 31, 29);
        assert_eq!(agreed(&arrays, &[1, 4]), (ACCEPTED, true, -1, 0, false));
        arrays.check[31] = 4;
        assert_eq!(agreed(&arrays, &[1, 4]), (ACCEPTED, true, -3, 0, false));
        (arrays.check[31], arrays.base[31]) = (5, 0);
        assert_eq!(agreed(&arrays, &[1, 4]).0, (12, 0));
        // In 31 slots, with the d of row 4 for the marker of the one behind.
        arrays.base[29] = if order == 2 { -31 } else { 30 };
        arrays.base.truncate(31);
        arrays.check.truncate(31);
        assert_eq!(agreed(&arrays, &[1, 4]), (ACCEPTED, true, -30, 0, order == 3));
    }
}

/// "At least 1": slot 0 is no child, though its CHECK, the head, is the node's slot; slot 1 is one.
#[test]
fn no_child_in_slot_0() {
    let mut arrays = built(&lists::first_words(26), 80);
    // Row 26 is in slot 27, and CHECK[0] of order 3 is 27.
    (arrays.base[27], arrays.check[0]) = (60, HEAD + 3);
    (arrays.base[60], arrays.check[60]) = (2, -61);
    assert_eq!(agreed(&arrays, &[26]), (ACCEPTED, true, -60, 0, true));
    assert_eq!(agreed(&arrays, &[60, 26]), NOT_FOUND);
    // Slot 1 must have CHECK −1, so it is no child of any node either.
    assert_eq!(agreed(&arrays, &[59, 26]), NOT_FOUND);
    (arrays.base[2], arrays.check[2]) = (61, 27);
    (arrays.base[61], arrays.check[61]) = (0, -62);
    assert_eq!(agreed(&arrays, &[58, 26]), (ACCEPTED, true, -61, 0, false));
}

/// Every row is found with its own p and b, every other sequence is not found, in arrays of either placing; `left` is yes exactly if some
/// listed row is these words with one more in front.
#[test]
fn found_exactly_if_listed() {
    let mut random = Random::new(2);
    let (mut unlisted, mut lefts) = (0, 0);
    for i in 0..600 {
        let rows = lists::small_or_dense(&mut random, 1 + i % 5);
        let extended = extended(&rows);
        let answer = |row: &Row| (ACCEPTED, true, row.p, row.b, extended.contains(&row.words[..]));
        let listed: HashMap<Vec<u32>, Found> = rows.iter().map(|row| (unsigned(&row.words), answer(row))).collect();
        lefts += listed.values().filter(|answer| answer.4).count();
        for arrays in [built(&rows, random.below(5)), spread(&mut random, &rows)] {
            for row in &rows {
                let words = unsigned(&row.words);
                assert_eq!(agreed_in_place(&arrays.base, &arrays.check, &words), answer(row));
                let other = neighbour(&mut random, &words);
                let expected = listed.get(&other).copied().unwrap_or(NOT_FOUND);
                assert_eq!(agreed_in_place(&arrays.base, &arrays.check, &other), expected, "{other:?}");
                unlisted += !listed.contains_key(&other) as usize;
            }
        }
    }
    assert!(unlisted > 10_000 && lefts > 10_000, "{unlisted} {lefts}");
}

/// A sequence of one to five words that is a row's but for one word, one word more or less, or the order of the words.
fn neighbour(random: &mut Random, words: &[u32]) -> Vec<u32> {
    let mut other = words.to_vec();
    let at = random.below(words.len());
    let word = random.pick(&[0, 1, 2, 3, 4, 9, 65_535, 65_536, u32::MAX, words[at].wrapping_add(1), words[at] - 1]);
    match random.below(4) {
        0 if words.len() < 5 => other.insert(at, word),
        1 if words.len() > 1 => {
            other.remove(at);
        }
        2 => other.reverse(),
        _ => other[at] = word,
    }
    other
}

/// All rows of the longest list, and as many sequences that it has not.
#[test]
fn longest_list() {
    let mut random = Random::new(3);
    let rows: Vec<Row> = lists::natural(&mut random, 5, 30_000, MOST_ROWS);
    let arrays = built(&rows, 0);
    let extended = extended(&rows);
    for row in &rows {
        let (words, left) = (unsigned(&row.words), extended.contains(&row.words[..]));
        assert_eq!(agreed_in_place(&arrays.base, &arrays.check, &words), (ACCEPTED, true, row.p, row.b, left));
        agreed_in_place(&arrays.base, &arrays.check, &neighbour(&mut random, &words));
    }
}

/// How often lookups were found, not found, refused by 11, by 14 and by 12.
#[derive(Default, Debug)]
struct Met {
    found: usize,
    not_found: usize,
    refused: [usize; 15],
}

impl Met {
    fn add(&mut self, (refusal, found, ..): Found) {
        self.found += found as usize;
        self.not_found += (refusal == ACCEPTED && !found) as usize;
        self.refused[refusal.0 as usize] += 1;
    }

    fn assert_all(&self) {
        assert!(self.found > 0 && self.not_found > 0 && [11, 12, 14].iter().all(|&number| self.refused[number] > 0), "{self:?}");
    }
}

/// Every single number of the sample's array changed to each of several values.
#[test]
fn changed_sample() {
    let sequences = sequences(&[0, 1, 2, 3, 4, 5, 6, u32::MAX]);
    let mut met = Met::default();
    each_change(&built(&lists::sample(), 2), |changed| {
        for words in &sequences {
            met.add(agreed_in_place(&changed.base, &changed.check, words));
        }
    });
    met.assert_all();
}

/// The same with small random lists of every order, and the sequences of their rows.
#[test]
fn changed_random_arrays() {
    let mut random = Random::new(4);
    let mut met = Met::default();
    for i in 0..50 {
        let rows = lists::tiny(&mut random, 1 + i % 5);
        let mut sequences: Vec<Vec<u32>> = rows.iter().map(|row| unsigned(&row.words)).collect();
        sequences.extend([vec![], vec![1; 6]]);
        each_change(&built(&rows, 1), |changed| {
            for words in &sequences {
                met.add(agreed_in_place(&changed.base, &changed.check, words));
                met.add(agreed_in_place(&changed.base, &changed.check, &words[words.len() / 2..]));
            }
        });
    }
    met.assert_all();
}

/// Arrays that no build wrote; many sequences of n words are found in them.
#[test]
fn drawn_arrays() {
    let mut random = Random::new(5);
    let mut met = Met::default();
    let mut longest = [0; 6];
    for _ in 0..30_000 {
        let arrays = drawn(&mut random);
        for _ in 0..20 {
            let length = random.below(6);
            let words = match random.below(2) {
                0 => (0..length).map(|_| random.below(20) as u32).collect(),
                _ => arrays.walked(&mut random, length),
            };
            let answer = agreed(&arrays, &words);
            met.add(answer);
            longest[words.len()] += (answer.1 && words.len() == arrays.order() as usize) as usize;
        }
    }
    assert!(met.found > 1_000 && met.not_found > 1_000 && met.refused[12] > 1_000, "{met:?}");
    assert!(longest[1] > 1_000 && longest[2] > 100 && longest[3] > 10, "{longest:?}");
}

/// Arrays of random bits, with lengths that fit or not.
#[test]
fn random_bits() {
    let mut random = Random::new(6);
    for _ in 0..5_000 {
        let slots = random.below(10);
        let mut arrays = Arrays { base: vec![0; slots], check: vec![0; slots + random.below(2)] };
        arrays.base.iter_mut().chain(&mut arrays.check).for_each(|cell| *cell = random.bits() as i32);
        assert_eq!(agreed(&arrays, &[1]).0, (11, 0));
    }
}

/// 11: lengths that do not fit, and each limit of the head.
#[test]
fn lengths_and_head() {
    let sample = built(&lists::sample(), 0);
    let head = |base0, base1, check0, check1| {
        let mut arrays = sample.clone();
        arrays.base[..2].copy_from_slice(&[base0, base1]);
        arrays.check[..2].copy_from_slice(&[check0, check1]);
        agreed(&arrays, &[1]).0 .0
    };
    for rows in [3, 9, 65_535] {
        assert!((2..=5).all(|order| head(1, rows, order + HEAD, -1) == 0), "{rows} rows");
        // The sample's rows of one word have markers, which those of order 1 have not.
        assert_eq!(head(1, rows, 1 + HEAD, -1), 12, "{rows} rows");
    }
    for (base0, base1, check0, check1) in [
        (0, 9, HEAD + 3, -1),
        (2, 9, HEAD + 3, -1),
        (1, 2, HEAD + 3, -1),
        (1, 65_536, HEAD + 3, -1),
        (1, -9, HEAD + 3, -1),
        (1, 9, HEAD, -1),
        (1, 9, HEAD + 6, -1),
        (1, 9, HEAD + 3, 0),
        (1, 9, HEAD + 3, -2),
    ] {
        assert_eq!(head(base0, base1, check0, check1), 11, "{base0} {base1} {check0} {check1}");
    }
    let with_lengths = |base: usize, check: usize| {
        let mut arrays = built(&lists::sample(), MOST_SLOTS - 20 + 1);
        arrays.base.truncate(base);
        arrays.check.truncate(check);
        agreed(&arrays, &[2, 4]).0 .0
    };
    for (base, check, number) in [
        (0, 0, 11),
        (1, 1, 11),
        (20, 21, 11),
        (21, 20, 11),
        (MOST_SLOTS + 1, MOST_SLOTS + 1, 11),
        (MOST_SLOTS, MOST_SLOTS + 1, 11),
        (MOST_SLOTS, MOST_SLOTS, 0),
        (20, 20, 0),
        (2, 2, 0),
    ] {
        assert_eq!(with_lengths(base, check), number, "{base} {check}");
    }
}

/// CHECK[0] is n + 24 with n 1..5, so 25 to 29; "11 meets any other head": n, n + 8, n + 40 and n + 16, as older arrays have them, too. With n = 1 the sample's
/// rows of one word are the longest, and their BASE holds no p.
#[test]
fn other_heads() {
    let mut arrays = built(&lists::sample(), 0);
    let extremes = [i32::MIN, i32::MIN + 27, -27, 27 + 65_536, i32::MAX - 24, i32::MAX];
    for head in (-20..=60).chain(extremes) {
        arrays.check[0] = head;
        let expected = match head {
            25 => ((12, 0), false, 0, 0, false),
            26..=29 => (ACCEPTED, true, -6_000, -2_000, true),
            _ => ((11, 0), false, 0, 0, false),
        };
        assert_eq!(agreed(&arrays, &[4]), expected, "{head}");
    }
}

/// The order 11, 14, 12; more than n words are not found even where every walk would give 12.
#[test]
fn order_of_refusals() {
    let mut broken = built(&lists::sample(), 0);
    (2..7).for_each(|slot| broken.base[slot] = 0);
    assert_eq!(agreed(&broken, &[4]).0, (12, 0));
    assert_eq!(agreed(&broken, &[70_000, 4]).0, (12, 0), "the newer word is walked first");
    assert_eq!(agreed(&broken, &[4, 70_000]), NOT_FOUND);
    assert_eq!(agreed(&broken, &[4; 4]), NOT_FOUND);
    assert_eq!(agreed(&broken, &[4; 6]).0, (14, 0));
    assert_eq!(agreed(&broken, &[]).0, (14, 0));
    broken.check[1] = 0;
    assert_eq!(agreed(&broken, &[4; 6]).0, (11, 0));
}
