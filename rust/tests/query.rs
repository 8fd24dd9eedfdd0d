//! `backoff query`: its lines, beside a second scorer over the plain list and a second computation of perplexity.

mod support;

use std::io::{BufRead, BufReader, Write};
use std::process::{Command, Stdio};
use std::sync::mpsc::channel;
use std::time::{Duration, Instant};
use support::lines::{compare, scored, Form, Marks, Shown, LINES};
use support::{any_list, any_text, Folder, Texted, PROGRAM, SAMPLE};
use tests::lists;
use tests::random::Random;

fn sample() -> Texted {
    let texts = ["<unk>", "<s>", "</s>", "four", "five"].map(|text| text.as_bytes().to_vec()).to_vec();
    Texted { rows: lists::sample(), texts }
}

/// The sample in the form of KenLM's lines, byte for byte.
#[test]
fn lines_of_the_sample() {
    let folder = Folder::new();
    folder.put("sample", SAMPLE);
    let expected = "\
four=4 2 -0.004\tfive=5 3 -0.001\t</s>=3 2 -0.0015\tTotal: -0.0065 OOV: 0
five=5 1 -0.012\tfour=4 1 -0.007\t</s>=3 1 -0.012\tTotal: -0.031 OOV: 0
nine=0 1 -0.023\t</s>=3 1 -0.01\tTotal: -0.033 OOV: 1
</s>=3 1 -0.013\tTotal: -0.013 OOV: 0
Perplexity including OOVs:\t1.02159
Perplexity excluding OOVs:\t1.01757
OOVs:\t1
Tokens:\t9
";
    assert_eq!(String::from_utf8(folder.run_on("query sample", b"four five\nfive four\nnine\n\n").printed()).unwrap(), expected);
}

#[test]
fn random_lists_and_texts() {
    for seed in 0..40 {
        let random = &mut Random::new(seed);
        let list = any_list(random);
        let text = any_text(random, &list, 12);
        let sentences = scored(&list, &text, Marks::BOTH);
        let folder = Folder::new();
        folder.put("arpa", list.arpa());
        for form in [LINES, Form::all().nth(seed as usize % 12).unwrap()] {
            compare(&folder.run_on(&format!("query arpa{}", form.options()), &text).printed(), &sentences, form);
        }
    }
}

/// Every file may be standard input, and what `build` writes standard output.
#[test]
fn standard_input_and_output() {
    let folder = Folder::new();
    folder.put("arpa", SAMPLE);
    folder.put("text", "four five\nnine\n");
    folder.run("build arpa array").printed();
    let array = folder.get("array");
    assert!(folder.run_on("build - -", SAMPLE.as_bytes()).printed() == array);
    assert!(folder.run("build arpa -").printed() == array);
    assert_eq!(folder.names(), ["arpa", "array", "text"]);
    for arguments in ["query FILE text", "explain FILE text", "check FILE", "compare FILE text text", "in-form FILE"] {
        let named = folder.run(&arguments.replace("FILE", "arpa")).printed();
        assert!(folder.run_on(&arguments.replace("FILE", "-"), SAMPLE.as_bytes()).printed() == named, "{arguments}");
    }
    assert!(folder.run_on("dump -", &array).printed() == folder.run("dump array").printed());
    assert!(folder.run_on("compare arpa - text", b"four five\nnine\n").printed() == folder.run("compare arpa text text").printed());
    let told = folder.run_on("check -", b"text\n").refused();
    assert!(told.starts_with("backoff: standard input: refused by 17: "), "{told}");
    let told = folder.shell("backoff build - arpa <arpa").refused();
    assert_eq!(told, "backoff: arpa: it is read as standard input, and would be lost: give another name\n");
    let told = folder.shell("backoff build arpa - >>arpa").refused();
    assert_eq!(told, "backoff: standard output: it is read as arpa, and would be lost: give another name\n");
    assert_eq!(folder.get("arpa"), SAMPLE.as_bytes());
}

/// What is printed does not go to a file that is read, which would grow as it is read.
#[test]
fn output_to_what_is_read() {
    let folder = Folder::new();
    folder.put("arpa", SAMPLE);
    folder.put("text", "four five\nnine\n");
    folder.run("build arpa array").printed();
    let files = ["arpa", "array", "text"].map(|name| folder.get(name));
    for (command, read) in [
        ("query arpa text >>text", "text"),
        ("query arpa <text >>text", "standard input"),
        ("query array text --plain >>array", "array"),
        ("explain arpa text >>arpa", "arpa"),
        ("compare arpa array text >>text", "text"),
        ("sentences arpa 1 >>arpa", "arpa"),
        ("check arpa >>arpa", "arpa"),
        ("dump array >>array", "array"),
        ("in-form arpa >>arpa", "arpa"),
        ("in-form <arpa >>arpa", "standard input"),
    ] {
        let told = format!("backoff: standard output: it is read as {read}, and would be lost: give another name\n");
        assert_eq!(folder.shell(&format!("backoff {command}")).refused(), told, "{command}");
    }
    assert!(["arpa", "array", "text"].map(|name| folder.get(name)) == files);
}

/// More threads than processors are not begun, and small pieces have none of their own: from a pipe, 256 take about as long as one.
#[test]
fn many_threads_from_a_pipe() {
    let folder = Folder::new();
    folder.put("arpa", SAMPLE);
    folder.run("build arpa array").printed();
    folder.put("text", "four five nine four five four four nine five\n".repeat(200_000));
    let mut took = [Duration::MAX; 2];
    for _ in 0..3 {
        for (least, threads) in took.iter_mut().zip([1, 256]) {
            let begun = Instant::now();
            folder.shell(&format!("cat text | backoff query array --summary --threads {threads}")).printed();
            *least = begun.elapsed().min(*least);
        }
    }
    assert!(took[1] < 3 * took[0], "{took:?}");
    let one = folder.run("query array text").printed();
    assert!(folder.shell("cat text | backoff query array --threads 256").printed() == one);
    assert!(folder.run("query array text --threads 2").printed() == one);
}

/// The model as a text or as an array file, the text as a file or on standard input, threads or none: one output.
#[test]
fn all_ways_to_ask() {
    for seed in 0..4 {
        let random = &mut Random::new(seed);
        let list = any_list(random);
        let text = any_text(random, &list, 40);
        let folder = Folder::new();
        folder.put("arpa", list.arpa());
        folder.put("text", &text);
        folder.run("build arpa array").printed();
        let first = folder.run("query arpa text").printed();
        compare(&first, &scored(&list, &text, Marks::BOTH), LINES);
        for arguments in [
            "array text",
            "--threads 2 array text",
            "--threads=7 array text",
            "array text --fill",
            "-- array text",
            "array text --threads 100",
        ] {
            assert!(folder.run(&format!("query {arguments}")).printed() == first, "{arguments}");
        }
        for arguments in ["array", "arpa -", "--threads 3 arpa", "array /dev/stdin"] {
            assert!(folder.run_on(&format!("query {arguments}"), &text).printed() == first, "{arguments}");
        }
    }
}

/// A text of several megabytes, by one thread and by three, in each form.
#[test]
fn large_text() {
    let random = &mut Random::new(1);
    let rows = lists::natural(random, 3, 300, 3_000);
    let rows = lists::mild(random, &rows);
    let list = Texted::new(random, &rows);
    let text = any_text(random, &list, 40_000);
    let folder = Folder::new();
    folder.put("arpa", list.arpa());
    folder.put("text", &text);
    let sentences = scored(&list, &text, Marks::BOTH);
    compare(&folder.run("query arpa text").printed(), &sentences, LINES);
    for form in Form::all() {
        compare(&folder.run(&format!("query arpa text --threads 3 {}", form.options())).printed(), &sentences, form);
    }
}

/// A sentence of more words than one run may have.
#[test]
fn long_sentence() {
    let random = &mut Random::new(2);
    let list = sample();
    let words: Vec<&str> = (0..200_000).map(|_| random.pick(&["four", "five", "nine", "</s>"])).collect();
    let text = [words.join(" "), "four five".to_string()].join("\n").into_bytes();
    let folder = Folder::new();
    folder.put("sample", SAMPLE);
    compare(&folder.run_on("query sample", &text).printed(), &scored(&list, &text, Marks::BOTH), LINES);
}

/// Marks in a text: `<s>` and `<unk>` are words, the latter unknown; `</s>` is a word behind which the context is that of a beginning, and the line goes on.
#[test]
fn marks_within_a_line() {
    let folder = Folder::new();
    folder.put("sample", SAMPLE);
    let expected = "\
<s>=2 1 -0.993\tfour=4 2 -0.004\t</s>=3 1 -0.0125\tTotal: -1.0095 OOV: 0
<unk>=0 1 -0.023\t</s>=3 1 -0.01\tTotal: -0.033 OOV: 1
four=4 2 -0.004\t</s>=3 1 -0.0125\tfour=4 2 -0.004\t</s>=3 1 -0.0125\tTotal: -0.033 OOV: 0
";
    let printed = folder.run_on("query sample", b"<s> four\n<unk>\nfour </s> four\n").text();
    assert_eq!(printed.lines().take(3).map(|line| format!("{line}\n")).collect::<String>(), expected);
}

/// Of no tokens there is no perplexity; a large one has an exponent.
#[test]
fn perplexity_at_its_ends() {
    let folder = Folder::new();
    folder.put("sample", SAMPLE);
    let none = "Perplexity including OOVs:\tnan\nPerplexity excluding OOVs:\tnan\nOOVs:\t0\nTokens:\t0\n";
    assert_eq!(folder.run("query sample").text(), none);
    assert_eq!(folder.run("query sample --totals").text(), "");
    let far = "\\data\\\nngram 1=4\nngram 2=2\nngram 3=2\nngram 4=2\nngram 5=1\n\\1-grams:\n-99\t<unk>\n-99\t<s>\t-99\n-99\t</s>\n-99\tx\t-99\n\\2-grams:\n-99\t<s> x\t-99\n-99\tx x\t-99\n\\3-grams:\n-99\t<s> x x\t-99\n-99\tx x x\t-99\n\\4-grams:\n-99\t<s> x x x\t-99\n-99\tx x x x\t-99\n\\5-grams:\n-99\tx x x x x\n\\end\\\n";
    folder.put("far", far);
    let printed = folder.run_on("query far", b"x x x x\n").text();
    assert!(printed.starts_with("x=4 2 -99\tx=4 3 -99\tx=4 4 -99\tx=4 4 -198\t</s>=3 1 -495\tTotal: -990 OOV: 0\n"), "{printed}");
    assert!(printed.contains("Perplexity including OOVs:\t1e+198\n"), "{printed}");
}

/// Somebody who types a line is answered before the next.
#[test]
fn answers_line_by_line() {
    let folder = Folder::new();
    folder.put("sample", SAMPLE);
    let mut child =
        Command::new(PROGRAM).arg("query").arg(folder.path("sample")).stdin(Stdio::piped()).stdout(Stdio::piped()).spawn().unwrap();
    let (mut typed, printed) = (child.stdin.take().unwrap(), BufReader::new(child.stdout.take().unwrap()));
    let (sender, receiver) = channel();
    let reader = std::thread::spawn(move || printed.lines().for_each(|line| sender.send(line.unwrap()).unwrap()));
    for _ in 0..3 {
        typed.write_all(b"four five\n").unwrap();
        let line = receiver.recv_timeout(Duration::from_secs(20)).expect("an answer");
        assert_eq!(line, "four=4 2 -0.004\tfive=5 3 -0.001\t</s>=3 2 -0.0015\tTotal: -0.0065 OOV: 0");
    }
    drop(typed);
    assert!(child.wait().unwrap().success());
    assert_eq!(receiver.iter().last().as_deref(), Some("Tokens:\t9"));
    reader.join().unwrap();
}

/// A pruned list is refused as it is, and scores as it should once it is filled.
#[test]
fn pruned() {
    let random = &mut Random::new(3);
    let rows = lists::natural(random, 3, 40, 400);
    let whole = lists::mild(random, &rows);
    let rows = lists::pruned(random, &whole, 40);
    let list = Texted::new(random, &rows);
    let text = any_text(random, &list, 50);
    let folder = Folder::new();
    folder.put("arpa", list.arpa());
    assert!(folder.run_on("query arpa", &text).refused().contains("to mend it: run again with --fill"));
    let totals = Form { points: true, left: false, shown: Shown::Totals };
    compare(&folder.run_on("query arpa --fill --points --totals", &text).printed(), &scored(&list, &text, Marks::BOTH), totals);
}
