//! `backoff explain --html`: the page is well-formed, needs nothing else, and has the numbers that `explain` prints.

mod support;

use std::process::Command;
use support::lines::Marks;
use support::{any_list, any_text, Folder, Texted, SAMPLE};
use tests::random::Random;

/// An element: its name, its class, and all text in it.
struct Element {
    name: String,
    class: String,
    text: String,
}

fn unescaped(text: &str) -> String {
    let known = [("&lt;", "<"), ("&gt;", ">"), ("&quot;", "\""), ("&#39;", "'"), ("&amp;", "&")];
    known.iter().fold(text.to_string(), |text, (from, to)| text.replace(from, to))
}

fn attribute(tag: &str, name: &str) -> String {
    tag.split_once(&format!(" {name}=\"")).and_then(|(_, rest)| rest.split_once('"')).map_or(String::new(), |(value, _)| value.to_string())
}

/// The elements of a page in the order of their ends. Every tag is closed, in the order in which they were opened; what is no tag has no `<` and `>`.
fn elements(page: &str) -> Vec<Element> {
    let (mut open, mut elements): (Vec<Element>, Vec<Element>) = (Vec::new(), Vec::new());
    let mut rest = page.strip_prefix("<!DOCTYPE html>\n").expect("the kind of document");
    while let Some((text, behind)) = rest.split_once('<') {
        assert!(!text.contains('>') || open.last().is_some_and(|element| element.name == "style"), "{text}");
        open.iter_mut().for_each(|element| element.text += &unescaped(text));
        let (tag, behind) = behind.split_once('>').expect("a tag ends");
        rest = behind;
        if let Some(name) = tag.strip_prefix('/') {
            let element = open.pop().expect("an element is open");
            assert_eq!(element.name, name);
            elements.push(element);
        } else if !tag.starts_with("meta ") {
            let name = tag.split(' ').next().unwrap().to_string();
            open.push(Element { name, class: attribute(tag, "class"), text: String::new() });
        }
    }
    assert!(open.is_empty() && rest == "\n");
    elements
}

/// The texts of the elements of a class.
fn texts(page: &str, class: &str) -> Vec<String> {
    elements(page).into_iter().filter(|element| element.class == class).map(|element| element.text).collect()
}

/// The tables of a class, each as its lines of cells.
fn tables(page: &str, class: &str) -> Vec<Vec<Vec<String>>> {
    let mut tables = Vec::new();
    let (mut cells, mut lines) = (Vec::new(), Vec::new());
    for element in elements(page) {
        match &element.name[..] {
            "td" | "th" => cells.push(element.text.replace('\u{2212}', "-")),
            "tr" => lines.push(std::mem::take(&mut cells)),
            "table" if element.class == class => tables.push(std::mem::take(&mut lines)),
            "table" => lines.clear(),
            _ => {}
        }
    }
    tables
}

/// A sentence as `explain` prints it: for each word its heading, and the row, the note and the numbers of each line.
struct Printed {
    words: Vec<(String, Vec<Vec<String>>)>,
    total: String,
}

/// The ledger of each sentence; columns are parted by two spaces or more.
fn printed(ledger: &str) -> Vec<Printed> {
    let cells = |line: &str| line.split("  ").map(str::trim).filter(|cell| !cell.is_empty()).map(String::from).collect::<Vec<_>>();
    let mut sentences: Vec<Printed> = Vec::new();
    for line in ledger.lines().filter(|line| !line.is_empty() && !line.starts_with("total of ")) {
        if line.starts_with("sentence ") {
            sentences.push(Printed { words: Vec::new(), total: String::new() });
            continue;
        }
        let sentence = sentences.last_mut().unwrap();
        if line.starts_with("total (log10 ") {
            sentence.total = cells(line).pop().unwrap();
        } else if line.starts_with("  ") {
            sentence.words.last_mut().unwrap().1.push(cells(line));
        } else {
            sentence.words.push((line.to_string(), Vec::new()));
        }
    }
    sentences
}

/// The page has the sentences of the ledger, number by number.
fn compare(page: &str, ledger: &str) {
    let sentences = printed(ledger);
    let (bars, rows) = (tables(page, "words"), tables(page, "rows"));
    assert_eq!(bars.len(), sentences.len());
    let mut rows = rows.iter();
    let headings: Vec<String> = elements(page).into_iter().filter(|element| element.name == "h3").map(|element| element.text).collect();
    let words: Vec<&String> = sentences.iter().flat_map(|sentence| &sentence.words).map(|(heading, _)| heading).collect();
    assert_eq!(headings.iter().collect::<Vec<_>>(), words);
    for (sentence, bars) in sentences.iter().zip(&bars) {
        let (total, bars) = bars.split_last().unwrap();
        assert_eq!(total, &["total", "", &sentence.total]);
        assert_eq!(bars.len(), sentence.words.len());
        for ((heading, lines), bar) in sentence.words.iter().zip(bars) {
            let sum = lines.last().and_then(|line| line.last()).unwrap();
            assert!(heading.starts_with(bar[0].strip_suffix(" unknown").unwrap_or(&bar[0])) && &bar[2] == sum, "{heading}: {bar:?}");
            let mut expected: Vec<Vec<String>> = lines.iter().map(|line| line[..3].to_vec()).collect();
            if lines.len() > 1 {
                expected.push(vec!["sum".to_string(), sum.clone()]);
            }
            assert_eq!(rows.next(), Some(&expected), "{heading}");
        }
    }
    assert!(rows.next().is_none());
    let total: i64 = sentences.iter().map(|sentence| sentence.total.parse::<i64>().unwrap()).sum();
    assert_eq!(texts(page, "n")[0].replace('\u{2212}', "-"), total.to_string());
}

/// The page of a text, and what `explain` prints of it.
fn explained(folder: &Folder, arguments: &str) -> (String, String) {
    assert_eq!(folder.run(&format!("explain {arguments} --html page.html")).printed(), b"");
    let page = String::from_utf8(folder.get("page.html")).unwrap();
    (page, String::from_utf8(folder.run(&format!("explain {arguments}")).printed()).unwrap())
}

/// Words of ASCII alone, since others are shown as a browser shows them.
fn readable(random: &mut Random, list: Texted) -> Texted {
    let letters = b"abcxyz<>&\"'#;/=";
    let mut texts = list.texts[..3].to_vec();
    while texts.len() < list.texts.len() {
        let text: Vec<u8> = (0..1 + random.below(7)).map(|_| random.pick(letters)).collect();
        if !texts.contains(&text) {
            texts.push(text);
        }
    }
    Texted { rows: list.rows, texts }
}

#[test]
fn the_numbers_of_explain() {
    for seed in 0..40 {
        let random = &mut Random::new(seed);
        let list = any_list(random);
        let list = readable(random, list);
        let folder = Folder::new();
        folder.put("arpa", list.arpa());
        let sentences = 1 + random.below(4);
        let text = any_text(random, &list, sentences);
        folder.put("text", String::from_utf8(text).unwrap().replace('\u{a0}', ""));
        folder.run("build arpa array").printed();
        let marks = random.pick(&Marks::ALL);
        for model in ["arpa", "array"] {
            let (page, ledger) = explained(&folder, &format!("{model} text{}", marks.options()));
            compare(&page, &ledger);
            assert_eq!(page.contains("A sentence begins after &lt;s&gt; and"), marks.bos);
            assert_eq!(page.contains(" and ends with &lt;/s&gt;."), marks.eos);
        }
    }
}

/// The scope's sample, with a word that is unknown.
#[test]
fn page_of_the_sample() {
    let folder = Folder::new();
    folder.put("sample.arpa", SAMPLE);
    folder.put("text", "four nine\n");
    let (page, ledger) = explained(&folder, "sample.arpa text");
    compare(&page, &ledger);
    assert_eq!(texts(&page, "total"), ["\u{2212}36500 points a base-10 logarithm of \u{2212}0.0365"]);
    assert!(page.contains("<b class=\"n\">\u{2212}36<span>500</span></b>"));
    assert!(page.contains("<title>four nine: how its points are added up</title>"));
    let bars: Vec<&str> = page.split("style=\"width:").skip(1).map(|rest| rest.split('%').next().unwrap()).collect();
    assert_eq!(bars, ["17.8", "100.0", "44.4"]);
    let facts = tables(&page, "facts");
    let version = format!("backoff {}", env!("CARGO_PKG_VERSION"));
    assert_eq!(facts[0][0], ["file", "sample.arpa, an ARPA text"]);
    assert_eq!(facts[0][2..], [["rows", "9 of up to 3 words; 5 different words"], ["written by", &version]]);
}

/// Nothing else is loaded, and nothing is run: a page may be sent with a letter.
#[test]
fn self_contained() {
    let folder = Folder::new();
    folder.put("m", SAMPLE);
    folder.put("text", "four <script>alert(1)</script> </title> <img/src=x>\n");
    let (page, _) = explained(&folder, "m text");
    for part in ["<script", "http:", "https:", " src=", "@import", "url(", "<link", "<img", "<iframe", "onload"] {
        assert!(!page.contains(part), "{part}");
    }
    assert_eq!(elements(&page).iter().filter(|element| element.name == "title").count(), 1);
}

/// The checksum is that of the file, of whatever length it is, as sha256sum prints it.
#[test]
fn checksum() {
    let folder = Folder::new();
    folder.put("text", "four\n");
    for empty_lines in 0..70 {
        folder.put("m.arpa", SAMPLE.to_string() + &"\n".repeat(empty_lines));
        let (page, _) = explained(&folder, "m.arpa text");
        let printed = Command::new("sha256sum").arg(folder.path("m.arpa")).output().unwrap().stdout;
        assert_eq!(texts(&page, "sum256"), [String::from_utf8_lossy(&printed[..64])], "{empty_lines}");
    }
}

/// How the list was read is said: filled, put in form, or as an array file.
#[test]
fn how_the_list_was_read() {
    let folder = Folder::new();
    let pruned: String = SAMPLE.lines().filter(|line| !line.ends_with("\tfour five")).map(|line| format!("{line}\n")).collect();
    folder.put("pruned", pruned.replace("ngram 2=3", "ngram 2=2"));
    folder.put("text", "four four five\n\n");
    let (page, ledger) = explained(&folder, "pruned text --fill");
    compare(&page, &ledger);
    assert_eq!(tables(&page, "facts")[0][2][1], "9 of up to 3 words, 1 of them added by filling; 5 different words");
    assert!(page.contains("listed (added): p") && page.contains("<h2>2. <bdi></bdi></h2>"));
    folder.put("crlf.arpa", SAMPLE.replace('\n', "\r\n"));
    assert_eq!(folder.run("explain crlf.arpa text --in-form --html page.html").put_in_form().0, b"");
    let page = String::from_utf8(folder.get("page.html")).unwrap();
    assert_eq!(tables(&page, "facts")[0][0][1], "crlf.arpa, an ARPA text, put in form");
    folder.put("sample", SAMPLE);
    folder.run("build sample a.array").printed();
    let (page, _) = explained(&folder, "a.array text");
    assert_eq!(tables(&page, "facts")[0][0][1], "a.array, an array file");
    assert!(page.contains("<code>backoff dump a.array</code>") && !page.contains("sed -n"));
    folder.put("one", "\\data\\\nngram 1=3\n\\1-grams:\n-1\t<unk>\n-1\t<s>\n-1\t</s>\n\\end\\\n");
    folder.put("text", "\n");
    let (page, _) = explained(&folder, "one text");
    assert_eq!(tables(&page, "facts")[0][2][1], "3 of 1 word; 3 different words");
    assert!(
        page.contains("<h1><bdi>an empty sentence</bdi></h1>")
            && page.contains("Each word is looked for in the list, and the p of its row is added.")
    );
}

/// A long text's title is set smaller; points above 0 have a bar of another kind; a list of sentences leads to each.
#[test]
fn kinds_of_pages() {
    let folder = Folder::new();
    folder.put("m", SAMPLE.replace("-0.02\t<unk>", "-0.02\t<unk>\t0.5"));
    folder.put("text", "four five four five four five four five four five four five four nine four\n");
    let (page, ledger) = explained(&folder, "m text");
    compare(&page, &ledger);
    assert!(page.contains("<h1 class=\"long\">") && page.contains("<i class=\"above\" style="));
    folder.put("text", "four\nfive\n");
    let (page, ledger) = explained(&folder, "m text");
    compare(&page, &ledger);
    assert!(page.contains("<h1><bdi>2 sentences</bdi></h1>") && page.contains("<a href=\"#s2\">2</a>") && page.contains("id=\"s2\""));
    let totals = tables(&page, "totals");
    assert_eq!(totals[0], [["1. four", "-16500"], ["2. five", "-13500"], ["total", "-30000"]]);
}

/// The page is there whole or not at all, and never takes the place of what is read.
#[test]
fn files_that_are_written() {
    let folder = Folder::new();
    folder.put("m", SAMPLE);
    folder.put("text", "four\n");
    assert!(folder.run("explain m text --html none/page").refused().starts_with("backoff: none/page: No such file or directory"));
    assert!(folder.run("explain m text --html .").refused().contains("Is a directory"));
    let lost = "would be lost: give another name\n";
    assert!(folder.run("explain m text --html ./m").refused().ends_with(lost));
    assert!(folder.run("explain m text --html=text").refused().ends_with(lost));
    assert_eq!(
        folder.shell("backoff explain m --html text <text").refused(),
        format!("backoff: text: it is read as standard input, and {lost}")
    );
    assert_eq!((folder.get("m"), folder.get("text")), (SAMPLE.as_bytes().to_vec(), b"four\n".to_vec()));
    let shown = folder.run("explain m text --html /dev/stdout").printed();
    assert_eq!(folder.run("explain m text --html -").printed(), shown);
    folder.run("explain m text --html=page").printed();
    folder.put("wrong", "no model\n");
    folder.run("explain wrong text --html page").refused();
    assert_eq!(folder.names(), ["m", "page", "text", "wrong"]);
    assert!(folder.get("page").starts_with(b"<!DOCTYPE html>\n"));
}
