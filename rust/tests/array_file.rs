//! `backoff build` and `backoff dump`: array files byte by byte, read back, and damaged.

mod support;

use std::os::unix::fs::{symlink, PermissionsExt};
use support::{Folder, Texted, SAMPLE};
use tests::arpa;
use tests::lists;
use tests::random::Random;
use tests::reference::arpa::{read_arpa, RECORD};
use tests::reference::filling::fill;
use tests::reference::list::{rows, ACCEPTED, MOST_ROWS};

/// The bytes before the array: the first line and six numbers.
const HEAD: usize = 32;

/// What is told of an array whose first slots are not as a build writes them.
const OTHER_HEAD: &str = "refused by 11: base and check do not begin like an array of this version.";

/// CRC-32 by its definition, bit by bit.
fn checksum(bytes: &[u8]) -> u32 {
    let mut sum = u32::MAX;
    for &byte in bytes {
        sum ^= byte as u32;
        for _ in 0..8 {
            sum = if sum % 2 == 1 { (sum / 2) ^ 0xEDB8_8320 } else { sum / 2 };
        }
    }
    !sum
}

/// The bytes with their checksum behind them.
fn closed(bytes: &[u8]) -> Vec<u8> {
    [bytes, &checksum(bytes).to_le_bytes()].concat()
}

/// The array of a list in so many slots; nothing where it does not fit.
fn array(list: &Texted, slots: usize) -> Option<[Vec<i32>; 2]> {
    let (mut base, mut check, mut work) = (vec![0; slots], vec![0; slots], vec![0; list.rows.len()]);
    let built = backoff::build(&lists::table(&list.rows), &mut base, &mut check, &mut work);
    (built.number == 0).then_some([base, check])
}

/// The file of a list, as the format says, in the fewest slots.
fn file(list: &Texted) -> Vec<u8> {
    file_in(list, (2..).find(|&slots| array(list, slots).is_some()).unwrap())
}

fn file_in(list: &Texted, slots: usize) -> Vec<u8> {
    let texts: Vec<u8> = list.texts.iter().flat_map(|text| [&[text.len() as u8], &text[..]].concat()).collect();
    let head = [1, list.rows.last().unwrap().words.len(), list.rows.len(), list.texts.len(), slots, texts.len()];
    let numbers = array(list, slots).unwrap().concat();
    let bytes = [
        &b"backoff\n"[..],
        &head.iter().flat_map(|&number| (number as u32).to_le_bytes()).collect::<Vec<u8>>(),
        &numbers.iter().flat_map(|number| number.to_le_bytes()).collect::<Vec<u8>>(),
        &texts,
    ];
    closed(&bytes.concat())
}

fn built(arpa: &[u8], options: &str) -> Vec<u8> {
    let folder = Folder::new();
    folder.put("arpa", arpa);
    assert_eq!(folder.run(&format!("build arpa array {options}")).text(), "");
    assert_eq!(folder.names(), ["arpa", "array"]);
    folder.get("array")
}

fn dumped(file: &[u8]) -> Vec<u8> {
    let folder = Folder::new();
    folder.put("array", file);
    folder.run("dump array").printed()
}

/// What `dump` says of a file; without its name and the way to mend it.
fn refused(file: &[u8]) -> String {
    refused_by(file, "dump")
}

fn refused_by(file: &[u8], subcommand: &str) -> String {
    let folder = Folder::new();
    folder.put("array", file);
    let told = folder.run(&format!("{subcommand} array")).refused();
    let (wrong, mend) = told.split_once('\n').unwrap();
    assert_eq!(mend, "  to mend it: build the file again from its ARPA text: backoff build MODEL.arpa MODEL.array\n");
    wrong.strip_prefix("backoff: array: ").unwrap().to_string()
}

fn small(seed: u64) -> (Random, Texted) {
    let mut random = Random::new(seed);
    let order = 1 + random.below(5);
    let rows = lists::tiny(&mut random, order);
    let list = Texted::new(&mut random, &rows);
    (random, list)
}

/// Rows and texts of an ARPA text, as the second implementation reads them.
fn read(text: &[u8]) -> Texted {
    let lines = text.iter().filter(|&&byte| byte == b'\n').count();
    let (mut table, mut store) = (vec![0; 8 * lines], vec![0; RECORD * (lines + 4)]);
    let answer = read_arpa(text, false, &mut table, &mut store);
    assert_eq!(answer.number, 0);
    let texts = backoff::texts(&store).map(|(_, text)| text.to_vec()).collect();
    Texted { rows: rows(&table[..8 * answer.rows as usize]), texts }
}

#[test]
fn every_byte_as_the_format_says() {
    for seed in 0..30 {
        let (mut random, list) = small(seed);
        let spelled = arpa::print_varied(&mut random, &list.rows, &list.texts).bytes();
        assert!(built(&spelled, "") == file(&list), "seed {seed}");
    }
}

#[test]
fn dumped_and_read_again() {
    for seed in 0..30 {
        let random = &mut Random::new(seed);
        let order = 1 + random.below(5);
        let list = lists::small(random, order);
        let list = Texted::new(random, &list);
        let file = built(&list.arpa(), "");
        let text = dumped(&file);
        let again = read(&text);
        assert!(again.rows == list.rows && again.texts == list.texts, "seed {seed}");
        assert!(built(&text, "") == file, "seed {seed}");
    }
}

#[test]
fn filled() {
    let mut added = 0;
    for seed in 0..20 {
        let random = &mut Random::new(seed);
        let order = 2 + random.below(4);
        let whole = arpa::dense(&lists::small(random, order));
        let whole = lists::mild(random, &whole);
        let pruned = lists::pruned(random, &whole, 50);
        let list = Texted::new(random, &pruned);
        let mut complete = vec![0; 8 * MOST_ROWS];
        let (refused, count) = fill(&lists::table(&list.rows), &mut complete);
        assert_eq!(refused, ACCEPTED);
        let complete = Texted { rows: rows(&complete[..8 * count as usize]), texts: list.texts.clone() };
        added += complete.rows.len() - list.rows.len();
        assert!(read(&dumped(&built(&list.arpa(), "--fill"))).rows == complete.rows, "seed {seed}");
    }
    assert!(added > 20, "{added}");
}

/// A file with free slots behind the others is read without them.
#[test]
fn more_slots_than_needed() {
    let list = read(SAMPLE.as_bytes());
    let fewest = file(&list);
    let wide = file_in(&list, 30);
    assert!(wide.len() > fewest.len());
    let folder = Folder::new();
    folder.put("wide", &wide);
    assert!(folder.run("check wide").text().contains("slots needed         20\n"));
    folder.run("build wide again").printed();
    assert!(folder.get("again") == fewest);
}

/// A large list, like a natural one.
#[test]
fn natural() {
    let random = &mut Random::new(1);
    let rows = lists::natural(random, 4, 5_000, 30_000);
    let list = Texted::new(random, &rows);
    let again = read(&dumped(&built(&list.arpa(), "")));
    assert!(again.rows == list.rows && again.texts == list.texts);
}

#[test]
fn cut_at_every_length() {
    let file = built(SAMPLE.as_bytes(), "");
    for length in 0..file.len() {
        let needed = if length < HEAD { HEAD } else { file.len() };
        assert_eq!(refused(&file[..length]), format!("the array file is cut: {length} bytes are there, {needed} are needed"));
    }
    let longer = [&file[..], b"\n"].concat();
    assert_eq!(refused(&longer), format!("the file is too long: {} bytes, where its head says {}", file.len() + 1, file.len()));
}

/// Behind the head any change is told by the checksum; in the head it may be told before.
#[test]
fn flipped_bits() {
    let file = built(SAMPLE.as_bytes(), "");
    let changed = "the checksum is not that of the bytes: some of them were changed";
    for place in 0..file.len() {
        let mut damaged = file.clone();
        damaged[place] ^= 1 << (place % 8);
        let told = refused(&damaged);
        match place {
            0..8 => assert_eq!(told, "not an array file: its first line is not `backoff`"),
            8..12 => assert!(told.starts_with("an array file of format version "), "{told}"),
            12..HEAD => assert!(
                [changed, "the head is broken", "the array file is cut", "the file is too long"]
                    .iter()
                    .any(|start| told.starts_with(start)),
                "{told}"
            ),
            _ => assert_eq!(told, changed),
        }
    }
}

/// Bytes of tests/array-files.txt: `\xNN` is a byte, and `\` alone is nothing.
fn unescaped(text: &str) -> Vec<u8> {
    let mut parts = text.split('\\');
    let mut bytes = parts.next().unwrap().as_bytes().to_vec();
    for part in parts.filter(|part| !part.is_empty()) {
        bytes.push(u8::from_str_radix(&part[1..3], 16).unwrap());
        bytes.extend(part[3..].as_bytes());
    }
    bytes
}

/// An array file as a line of tests/array-files.txt has it.
fn edited(file: &[u8], edits: &str) -> Vec<u8> {
    let mut numbers: Vec<u32> = file[8..].as_chunks().0.iter().map(|&number| u32::from_le_bytes(number)).collect();
    let slots = numbers[4] as usize;
    let mut head: Vec<u32> = numbers.drain(..6).collect();
    numbers.truncate(2 * slots);
    let mut check = numbers.split_off(slots);
    let (mut base, mut texts, mut end) = (numbers, file[HEAD + 8 * slots..file.len() - 4].to_vec(), Vec::new());
    for edit in edits.split(", ") {
        let (name, values) = edit.split_once(' ').unwrap();
        let values: Vec<&str> = values.split(' ').collect();
        let number = |place: usize| values[place].parse::<i64>().unwrap();
        match name {
            "head" => head[number(0) as usize] = number(1) as u32,
            "texts" => {
                texts = arpa::replace(&texts, &unescaped(values[0]), &unescaped(values[1]));
                head[5] = texts.len() as u32;
            }
            "base" => base[number(0) as usize] = number(1) as u32,
            "check" => check[number(0) as usize] = number(1) as u32,
            "free" => {
                base.resize(slots + number(0) as usize, 0);
                check.resize(base.len(), 1 << 31);
                head[4] = base.len() as u32;
            }
            _ => end.push((name, number(0) as usize)),
        }
    }
    let numbers = head.iter().chain(&base).chain(&check).flat_map(|number| number.to_le_bytes());
    let mut bytes = closed(&b"backoff\n".iter().copied().chain(numbers).chain(texts).collect::<Vec<u8>>());
    for (name, count) in end {
        let length = bytes.len();
        match name {
            "flip" => bytes[length - count] ^= 1,
            "shorten" => bytes.truncate(length - count),
            "lengthen" => bytes.resize(length + count, 0),
            _ => panic!("{edits}"),
        }
    }
    bytes
}

/// The files that the Python module takes and refuses too.
#[test]
fn files_of_both() {
    let cases = std::fs::read_to_string(support::repository().join("tests/array-files.txt")).unwrap();
    let cases: Vec<_> = cases.lines().filter(|line| !line.starts_with('#')).map(|line| line.split_once(": ").unwrap()).collect();
    assert!(cases.len() > 40);
    let file = built(SAMPLE.as_bytes(), "");
    for (edits, told) in cases {
        let edited = edited(&file, edits);
        if told.starts_with("accepted") {
            let folder = Folder::new();
            folder.put("array", &edited);
            let words = if told.contains("other texts") { "four six" } else { "four five" };
            assert_eq!(folder.run_on("query array --totals --points", words.as_bytes()).printed(), b"-6500\n", "{edits}");
            continue;
        }
        let answer = refused(&edited);
        assert!(answer.starts_with(told), "{edits}: {answer}");
        assert!(["check", "query", "explain"].iter().all(|subcommand| refused_by(&edited, subcommand) == answer), "{edits}");
    }
}

/// Arrays over other words than those that have texts.
#[test]
fn other_words() {
    let mut rows = lists::sample();
    rows.iter_mut().flat_map(|row| &mut row.words).filter(|word| **word == 5).for_each(|word| *word = 6);
    let texts = ["<unk>", "<s>", "</s>", "four", "five"].map(|text| text.as_bytes().to_vec()).to_vec();
    let told = refused(&file(&Texted { rows, texts }));
    assert_eq!(told, "the file has texts for 5 words, but the array has other words than 1 to 5");
}

/// Numbers of the array changed under a right checksum: 11 and 12 in words, wherever unloading refuses it.
#[test]
fn damaged_arrays() {
    let mut refusals = [0; 22];
    for seed in 0..12 {
        let (mut random, list) = small(seed);
        let file = file(&list);
        let slots = u32::from_le_bytes(file[24..28].try_into().unwrap()) as usize;
        for slot in (0..2 * slots).filter(|slot| slot % slots < 2).chain((0..20).map(|_| random.below(2 * slots)).collect::<Vec<_>>()) {
            let mut bytes = file[..file.len() - 4].to_vec();
            let change = random.pick(&[1, 2, 4, 8, 1 << 31]);
            let number: &mut [u8; 4] = (&mut bytes[HEAD + 4 * slot..][..4]).try_into().unwrap();
            *number = (u32::from_le_bytes(*number) ^ change).to_le_bytes();
            let numbers: Vec<i32> = bytes[HEAD..].as_chunks().0.iter().map(|&number| i32::from_le_bytes(number)).collect();
            let (mut table, mut work) = (vec![0; 8 * list.rows.len()], vec![0; list.rows.len()]);
            let number = backoff::unload(&numbers[..slots], &numbers[slots..2 * slots], &mut table, &mut work).number;
            refusals[number as usize] += 1;
            let told = match number {
                0 => continue,
                11 => OTHER_HEAD,
                12 => "refused by 12: The array is damaged: a node has no p and b in range, or the rows are not an accepted list.",
                _ => "the head says ",
            };
            assert!(refused(&closed(&bytes)).starts_with(told), "seed {seed}, slot {slot}, {number}");
        }
    }
    assert!(refusals[11] > 10 && refusals[12] > 10, "{refusals:?}");
}

/// An array of version 1, whose head was the order and 8, is told to be one, and so is one of version 2, of the order and 40, and one of version 3, of the order
/// and 16; any other head is not.
#[test]
fn heads_of_earlier_versions() {
    let file = built(SAMPLE.as_bytes(), "");
    let slots = u32::from_le_bytes(file[24..28].try_into().unwrap()) as usize;
    let with = |head: i32| {
        let mut bytes = file[..file.len() - 4].to_vec();
        bytes[HEAD + 4 * slots..][..4].copy_from_slice(&head.to_le_bytes());
        refused(&closed(&bytes))
    };
    for (heads, version) in [(9..=13, 1), (41..=45, 2), (17..=21, 3)] {
        for head in heads {
            assert_eq!(with(head), format!("{OTHER_HEAD} Version {version} wrote it."), "{head}");
        }
    }
    for head in [3, 8, 14, 16, 22, 24, 30, 35, 40, 46, i32::MIN, i32::MAX] {
        assert_eq!(with(head), OTHER_HEAD, "{head}");
    }
}

/// A build that fails leaves nothing, and a file that was there as it was.
#[test]
fn failed_builds_leave_nothing() {
    let folder = Folder::new();
    folder.put("arpa", SAMPLE.replace('\n', "\r\n"));
    folder.put("old", "what was there");
    folder.run("build arpa new").refused();
    folder.run("build arpa old").refused();
    assert_eq!((folder.get("old"), folder.names()), (b"what was there".to_vec(), vec!["arpa".to_string(), "old".to_string()]));
    let random = &mut Random::new(1);
    let rows = lists::natural(random, 3, 100, 500);
    folder.put("arpa", Texted::new(random, &rows).arpa());
    assert_eq!(folder.run("build arpa no-folder/new").refused(), "backoff: no-folder/new: No such file or directory (os error 2)\n");
    assert_eq!(folder.run("build arpa .").refused(), "backoff: .: Is a directory (os error 21)\n");
    // As on a full disk: no file may grow beyond one block.
    let told = folder.shell("trap '' XFSZ; ulimit -f 1; backoff build arpa old").refused();
    assert_eq!(told, "backoff: old: File too large (os error 27)\n");
    assert_eq!((folder.get("old"), folder.names()), (b"what was there".to_vec(), vec!["arpa".to_string(), "old".to_string()]));
}

/// The model's file is not replaced by its array, under whatever name.
#[test]
fn own_model() {
    let folder = Folder::new();
    folder.put("arpa", SAMPLE);
    symlink("arpa", folder.path("link")).unwrap();
    std::fs::hard_link(folder.path("arpa"), folder.path("hard")).unwrap();
    for (model, array) in [("arpa", "arpa"), ("arpa", "./link"), ("link", "arpa"), ("arpa", "hard")] {
        let told = format!("backoff: {array}: it is read as {model}, and would be lost: give another name\n");
        assert_eq!(folder.run(&format!("build {model} {array}")).refused(), told);
    }
    assert_eq!((folder.get("arpa"), folder.names().len()), (SAMPLE.as_bytes().to_vec(), 3));
    folder.run("build arpa array").printed();
    assert!(folder.run("build array array").refused().contains("would be lost"));
}

/// Names as long as names can be, and a file that a killed build left.
#[test]
fn long_names() {
    let folder = Folder::new();
    folder.put("arpa", SAMPLE);
    for length in [240, 250, 255] {
        let name = "a".repeat(length);
        folder.run(&format!("build arpa {name}")).printed();
        assert!(folder.get(&name) == built(SAMPLE.as_bytes(), ""));
    }
    assert_eq!(folder.names().len(), 4);
    let ran = folder.shell("touch .backoff.$$.0.part; exec backoff build arpa array");
    assert_eq!(ran.text(), "");
    assert!(folder.get("array") == built(SAMPLE.as_bytes(), ""));
}

/// Devices and pipes are written as they are.
#[test]
fn no_regular_file() {
    let folder = Folder::new();
    folder.put("arpa", SAMPLE);
    let told = folder.shell("backoff build arpa /proc/self/fd/1 >/dev/full").refused();
    assert_eq!(told, "backoff: /proc/self/fd/1: No space left on device (os error 28)\n");
    assert!(folder.shell("backoff build arpa /proc/self/fd/1 | cat").printed() == built(SAMPLE.as_bytes(), ""));
}

/// The file behind a link is replaced, with the permissions that it had.
#[test]
fn links_and_permissions() {
    let folder = Folder::new();
    folder.put("arpa", SAMPLE);
    folder.put("old", "");
    std::fs::set_permissions(folder.path("old"), PermissionsExt::from_mode(0o600)).unwrap();
    symlink("old", folder.path("link")).unwrap();
    folder.run("build arpa link").printed();
    assert!(folder.path("link").is_symlink() && folder.get("old").starts_with(b"backoff\n"));
    assert_eq!(folder.path("old").metadata().unwrap().permissions().mode() & 0o777, 0o600);
    assert_eq!(folder.names(), ["arpa", "link", "old"]);
}
