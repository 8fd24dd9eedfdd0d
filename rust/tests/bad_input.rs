//! Input that is no model, no text or no command, outputs that take nothing, and progress: always a message and status 1, or the answer and status 0; never a panic.

mod support;

use std::ffi::{c_char, c_int, CStr, OsStr};
use std::fs::{File, OpenOptions};
use std::io::{Read, Write};
use std::os::fd::{AsRawFd, FromRawFd};
use std::os::unix::ffi::OsStrExt;
use std::process::{Command, Stdio};
use std::sync::mpsc::channel;
use std::time::{Duration, Instant};
use support::{Folder, Texted, PROGRAM, SAMPLE};
use tests::arpa::{self, damage_bytes, damage_lines};
use tests::lists;
use tests::random::Random;

/// Every subcommand over a file that may be no model ends well.
fn try_all(folder: &Folder) {
    let arguments = [
        "check m",
        "check m --fill",
        "dump m",
        "query m text",
        "query m text --threads 3 --left --fill",
        "query m text --plain",
        "query m text --both --no-bos --no-eos",
        "explain m text",
        "explain m text --fill",
        "explain m text --html page",
        "compare m text other",
        "sentences m 1",
        "largest-move m 2 --fill",
        "in-form m",
        "query m text --in-form --fill",
    ];
    for arguments in arguments {
        folder.run(arguments).ended_well();
    }
}

fn random_bytes(random: &mut Random, length: usize) -> Vec<u8> {
    (0..length).map(|_| random.bits() as u8).collect()
}

fn tiny(random: &mut Random) -> Texted {
    let order = 1 + random.below(5);
    let rows = lists::tiny(random, order);
    Texted::new(random, &rows)
}

#[test]
fn random_bytes_as_model_and_text() {
    let folder = Folder::new();
    for seed in 0..20 {
        let random = &mut Random::new(seed);
        let start: &[u8] = random.pick(&[b"", b"\\data\\\n", b"backoff\n", b"backoff\n\x01\0\0\0\x03\0\0\0"]);
        let length = random.below(2_000);
        folder.put("m", [start, &random_bytes(random, length)].concat());
        folder.put("text", random_bytes(random, 3_000));
        folder.put("other", random_bytes(random, 3_000));
        try_all(&folder);
        folder.put("m", SAMPLE);
        folder.run("query m text").printed();
        folder.run("explain m text").printed();
    }
}

#[test]
fn damaged_arpa_texts() {
    let folder = Folder::new();
    folder.put("text", "a b c\n");
    folder.put("other", "a x c\n");
    for seed in 0..60 {
        let random = &mut Random::new(seed);
        let list = tiny(random);
        let mut lines = arpa::print_varied(random, &list.rows, &list.texts).lines();
        for _ in 0..1 + random.below(3) {
            damage_lines(random, &mut lines);
        }
        let mut bytes = arpa::bytes(&lines);
        if random.chance(30) {
            damage_bytes(random, &mut bytes);
        }
        folder.put("m", bytes);
        try_all(&folder);
    }
}

/// Array files with bytes changed, cut out and put in.
#[test]
fn damaged_array_files() {
    let folder = Folder::new();
    folder.put("text", "a b c\n");
    folder.put("other", "a x c\n");
    for seed in 0..40 {
        let random = &mut Random::new(seed);
        folder.put("arpa", tiny(random).arpa());
        folder.run("build arpa m").printed();
        let mut bytes = folder.get("m");
        for _ in 0..1 + random.below(4) {
            damage_bytes(random, &mut bytes);
        }
        folder.put("m", bytes);
        try_all(&folder);
    }
}

#[test]
fn no_such_files() {
    let folder = Folder::new();
    folder.put("m", SAMPLE);
    assert_eq!(folder.run("check none").refused(), "backoff: none: No such file or directory (os error 2)\n");
    assert_eq!(folder.run("in-form none").refused(), "backoff: none: No such file or directory (os error 2)\n");
    assert_eq!(folder.run("dump .").refused(), "backoff: .: Is a directory (os error 21)\n");
    assert_eq!(folder.run("query m none").refused(), "backoff: none: No such file or directory (os error 2)\n");
    assert_eq!(folder.run("query m .").refused(), "backoff: .: Is a directory (os error 21)\n");
    assert_eq!(folder.run("dump m").refused().lines().next(), Some("backoff: m: not an array file: its first line is not `backoff`"));
    let name = OsStr::from_bytes(b"not\xFFUTF-8");
    let ran = Command::new(PROGRAM).arg("check").arg(name).output().unwrap();
    assert_eq!(ran.status.code(), Some(1));
    assert_eq!(ran.stderr, "backoff: not\u{fffd}UTF-8: No such file or directory (os error 2)\n".as_bytes());
}

/// Files and lines without an end.
#[test]
fn beyond_the_limit() {
    let folder = Folder::new();
    let told = "backoff: /dev/zero: more than 67108864 bytes: no list of 65,535 rows, the most there may be, needs as many\n";
    assert_eq!(folder.run("check /dev/zero").refused(), told);
    assert_eq!(folder.run("in-form /dev/zero").refused(), told);
    folder.put("m", SAMPLE);
    assert_eq!(folder.run("query m /dev/zero").refused(), "backoff: /dev/zero: line 1 has more than 67108864 bytes\n");
    let ran = folder.shell("{ yes four | head -n 300000; printf 'five\\n\\n'; cat /dev/zero; } | backoff query m --summary");
    assert_eq!((ran.status, &ran.error[..]), (Some(1), "backoff: standard input: line 300003 has more than 67108864 bytes\n"));
}

#[test]
fn wrong_arguments() {
    let folder = Folder::new();
    let cases = [
        ("chek m", "there is no subcommand 'chek': see backoff --help"),
        ("check", "check: 0 files are given, not 1: see backoff check --help"),
        ("check a b", "check: 2 files are given, not 1: see backoff check --help"),
        ("build a", "build: 1 file is given, not 2: see backoff build --help"),
        ("query a b c", "query: 3 files are given, not 1 or 2: see backoff query --help"),
        ("explain a --html", "explain: --html takes the name of a file: see backoff explain --help"),
        ("explain", "explain: 0 files are given, not 1 or 2: see backoff explain --help"),
        ("in-form a b", "in-form: 2 files are given, not 0 or 1: see backoff in-form --help"),
        ("compare a b", "compare: 2 files are given, not 3: see backoff compare --help"),
        ("dump --fill a", "dump: there is no option '--fill': see backoff dump --help"),
        ("query -x", "query: there is no option '-x': see backoff query --help"),
        ("query a --points=1", "query: '--points' takes no value: see backoff query --help"),
        ("query a --threads", "query: --threads takes a number from 1 to 256, not '': see backoff query --help"),
        ("query a --plain --both", "query: '--plain' and '--both' exclude each other: see backoff query --help"),
        ("query a --summary --totals", "query: '--totals' and '--summary' exclude each other: see backoff query --help"),
        ("query a --threads 0", "query: --threads takes a number from 1 to 256, not '0': see backoff query --help"),
        ("bench a --threads=two", "bench: --threads takes a number from 1 to 256, not 'two': see backoff bench --help"),
        ("query -", "query: standard input can be read once: name a file for the model or for the text: see backoff query --help"),
        ("explain - -", "explain: standard input can be read once: name a file for the model or for the text: see backoff explain --help"),
        (
            "compare m - -",
            "compare: standard input can be read once: name a file for the model or for the text: see backoff compare --help",
        ),
        ("check -- --fill", "--fill: No such file or directory (os error 2)"),
    ];
    for (arguments, told) in cases {
        assert_eq!(folder.run(arguments).refused(), format!("backoff: {told}\n"));
    }
    assert!(folder.run("").refused().starts_with("backoff: a subcommand is missing\n\nbackoff: n-gram models"));
}

/// Help is asked for in any place, and names every option.
#[test]
fn help() {
    let folder = Folder::new();
    let help = folder.run("--help").text();
    assert_eq!((folder.run("-h").text(), folder.run("help").text()), (help.clone(), help.clone()));
    for subcommand in ["check", "build", "dump", "query", "explain", "compare", "sentences", "largest-move", "in-form", "bench"] {
        let own = folder.run(&format!("{subcommand} --help")).text();
        let usage = own.lines().next().and_then(|line| line.strip_prefix("usage: ")).expect("usage first");
        assert!(help.contains(usage), "{usage}");
        assert!(own.contains("\nexample"), "{own}");
        assert_eq!(folder.run(&format!("{subcommand} a b c -h")).text(), own);
    }
}

/// A full device is told; a reader that has enough is no fault.
#[test]
fn outputs_that_take_nothing() {
    let folder = Folder::new();
    folder.put("m", SAMPLE);
    folder.run("build m array").printed();
    folder.put("text", "four five\n".repeat(100_000));
    for command in [
        "check m",
        "dump array",
        "query m text",
        "explain m text",
        "compare m text text",
        "in-form m",
        "sentences m 4",
        "largest-move m 2",
        "--help",
        "bench m",
    ] {
        let told = folder.shell(&format!("backoff {command} >/dev/full")).refused();
        assert_eq!(told, "backoff: standard output: No space left on device (os error 28)\n", "{command}");
    }
    let first = folder.shell("{ backoff query m text; echo $? >status; } | head -n 1").text();
    assert_eq!(first, "four=4 2 -0.004\tfive=5 3 -0.001\t</s>=3 2 -0.0015\tTotal: -0.0065 OOV: 0\n");
    assert_eq!(folder.get("status"), b"0\n");
    // A closed one is told too, also where it was only opened for reading.
    folder.put("other", "four\n");
    for command in
        ["check m", "dump array", "query m text", "explain m text", "compare m text text", "in-form m", "--help", "bench m", "build m -"]
    {
        for closed in [">&-", "1<other"] {
            let told = folder.shell(&format!("backoff {command} {closed}")).refused();
            assert_eq!(told, "backoff: standard output: Bad file descriptor (os error 9)\n", "{command} {closed}");
        }
    }
    assert_eq!(folder.shell("backoff build m other >&-").text(), "");
    for command in ["query m", "in-form", "check -"] {
        let told = folder.shell(&format!("backoff {command} <&-")).refused();
        assert_eq!(told, "backoff: standard input: Bad file descriptor (os error 9)\n", "{command}");
    }
    assert_eq!(folder.shell("backoff query m text >/dev/null 2>&1; backoff query m text --summary <&-").status, Some(0));
    // Without standard output and error there is still the status.
    assert_eq!(folder.shell("backoff check none 2>/dev/full").status, Some(1));
    assert_eq!(folder.shell("backoff check none >&- 2>&-").status, Some(1));
}

/// The lines of `bench`, where digits stand for themselves.
#[test]
fn bench() {
    let folder = Folder::new();
    folder.put("m", SAMPLE);
    // Words that are all reserved make a text of empty lines.
    folder.put("marks", "\\data\\\nngram 1=3\n\\1-grams:\n-1\t<unk>\n-1\t<s>\n-1\t</s>\n\\end\\\n");
    let processors = std::thread::available_parallelism().unwrap().get();
    let all = format!("{processors} thread{}", if processors == 1 { "" } else { "s" });
    for (arguments, threads) in [("m", "1 thread"), ("marks --threads 256", &all)] {
        let printed = folder.run(&format!("bench {arguments}")).text();
        let (first, rates) = printed.split_once('\n').unwrap();
        assert_eq!(first, format!("words a second, {threads}"));
        let names = ["runs alone", "query --totals", "query"];
        assert_eq!(rates.lines().count(), names.len());
        for (name, line) in names.iter().zip(rates.lines()) {
            let rate: u64 = line.strip_prefix(name).unwrap().trim().replace(',', "").parse().unwrap();
            assert!(rate > 1_000, "{printed}");
        }
    }
}

extern "C" {
    fn posix_openpt(flags: c_int) -> c_int;
    fn grantpt(master: c_int) -> c_int;
    fn unlockpt(master: c_int) -> c_int;
    fn ptsname_r(master: c_int, name: *mut c_char, length: usize) -> c_int;
}

/// A terminal: the side that shows what is written, and the side that is written to.
fn terminal() -> (File, File) {
    const READ_AND_WRITE: c_int = 2;
    let mut name = [0u8; 64];
    // SAFETY: the descriptor is checked before it is used, and the buffer has as many bytes as is said.
    let shown = unsafe {
        let master = posix_openpt(READ_AND_WRITE);
        assert!(master >= 0 && grantpt(master) == 0 && unlockpt(master) == 0);
        let shown = File::from_raw_fd(master);
        assert_eq!(ptsname_r(shown.as_raw_fd(), name.as_mut_ptr().cast(), name.len()), 0);
        shown
    };
    let name = CStr::from_bytes_until_nul(&name).unwrap().to_str().unwrap();
    (shown, OpenOptions::new().read(true).write(true).open(name).unwrap())
}

/// Nothing in the first second; then a line, which is taken away at the end.
#[test]
fn progress() {
    let folder = Folder::new();
    folder.put("m", SAMPLE);
    let (mut shown, written) = terminal();
    let mut query = Command::new(PROGRAM);
    query.arg("query").arg(folder.path("m")).stdin(Stdio::piped()).stdout(Stdio::null()).stderr(written);
    let started = Instant::now();
    let mut child = query.spawn().unwrap();
    // The terminal ends with its last writer.
    drop(query);
    let mut typed = child.stdin.take().unwrap();
    typed.write_all(b"four five\n").unwrap();
    let (sender, receiver) = channel();
    let reader = std::thread::spawn(move || {
        let mut bytes = [0; 100];
        while let Ok(read) = shown.read(&mut bytes) {
            sender.send(String::from_utf8_lossy(&bytes[..read]).into_owned()).unwrap();
        }
    });
    let mut text = receiver.recv_timeout(Duration::from_secs(20)).expect("progress");
    assert!(started.elapsed() >= Duration::from_secs(1));
    while !text.contains("\r\x1b[Kscoring: 3 words") {
        text += &receiver.recv_timeout(Duration::from_secs(20)).expect("the words");
    }
    drop(typed);
    assert!(child.wait().unwrap().success());
    reader.join().unwrap();
    text.extend(receiver);
    assert!(text.ends_with("\r\x1b[K"), "{text:?}");
}

/// Where standard error is no terminal, nothing tells of long work.
#[test]
fn no_progress() {
    let folder = Folder::new();
    folder.put("m", SAMPLE);
    folder.shell("{ sleep 1.2; echo four; } | backoff query m").printed();
}
