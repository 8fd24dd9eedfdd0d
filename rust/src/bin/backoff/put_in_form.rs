//! ARPA texts as estimators write them, put in the form that the reader takes. Every line keeps its number. What cannot be put in form stays as it is, so that the
//! reader refuses it.

use crate::changes::{Change, Changes};
use crate::logarithm;
use crate::text_rows::heading;

/// What some editors put before a text in UTF-8.
pub const BYTE_ORDER_MARK: &[u8] = b"\xEF\xBB\xBF";

/// The first line of irstlm's own form, whose numbers are no probabilities and back-offs of an ARPA text.
pub const IARPA: &[u8] = b"iARPA";

const DATA: &[u8] = b"\\data\\";
const END: &[u8] = b"\\end\\";

/// A text in form, and what was changed.
pub struct InForm {
    pub text: Vec<u8>,
    pub changes: Changes,
}

/// Where a line stands.
enum Part {
    Before,
    Counts,
    Rows(usize),
    Behind,
}

pub fn put_in_form(text: &[u8]) -> InForm {
    let mut changes = Changes::default();
    let unmarked = text.strip_prefix(BYTE_ORDER_MARK).unwrap_or(text);
    if !is_arpa(unmarked) {
        return InForm { text: text.to_vec(), changes };
    }
    changes.add(Change::ByteOrderMark, unmarked.len() < text.len());
    let (mut out, mut part) = (Vec::with_capacity(text.len()), Part::Before);
    for line in unmarked.split_inclusive(|&byte| byte == b'\n') {
        let fed = line.strip_suffix(b"\n");
        let content = without_returns(fed.unwrap_or(line));
        changes.add(Change::CarriageReturn, content.len() < fed.unwrap_or(line).len());
        changes.add(Change::LineFeed, fed.is_none());
        out.extend(part.line(content, &mut changes));
        out.push(b'\n');
    }
    InForm { text: out, changes }
}

/// Whether a text has a line `\data\`, and no line before it says that it is of another kind.
fn is_arpa(text: &[u8]) -> bool {
    let lines = || text.split(|&byte| byte == b'\n').map(|line| trimmed(without_returns(line)));
    lines().any(|line| line == DATA) && !lines().take_while(|line| *line != DATA).any(|line| line == IARPA)
}

fn without_returns(line: &[u8]) -> &[u8] {
    &line[..line.iter().rposition(|&byte| byte != b'\r').map_or(0, |last| last + 1)]
}

fn is_blank(byte: &u8) -> bool {
    matches!(byte, b' ' | b'\t')
}

/// Without blanks at both ends.
fn trimmed(line: &[u8]) -> &[u8] {
    let start = line.iter().position(|byte| !is_blank(byte)).unwrap_or(line.len());
    let end = line.iter().rposition(|byte| !is_blank(byte)).map_or(start, |last| last + 1);
    &line[start..end]
}

/// What stands between blanks.
fn fields(line: &[u8]) -> Vec<&[u8]> {
    line.split(is_blank).filter(|field| !field.is_empty()).collect()
}

impl Part {
    /// A line in form; the part is then that of the next line.
    fn line(&mut self, line: &[u8], changes: &mut Changes) -> Vec<u8> {
        let bare = trimmed(line);
        let begins = match self {
            Part::Before => (bare == DATA).then_some(Part::Counts),
            Part::Behind => None,
            _ if bare == END => Some(Part::Behind),
            _ => heading(bare).map(Part::Rows),
        };
        if let Some(part) = begins {
            *self = part;
            changes.add(Change::Blanks, bare.len() < line.len());
            return bare.to_vec();
        }
        if bare.is_empty() {
            changes.add(Change::Blanks, !line.is_empty());
            return Vec::new();
        }
        let put = match self {
            Part::Before => emptied(Change::Before, changes),
            Part::Counts => count(line, changes),
            Part::Rows(length) => row(line, *length, changes),
            Part::Behind => emptied(Change::Behind, changes),
        };
        put.unwrap_or_else(|| line.to_vec())
    }
}

fn emptied(change: Change, changes: &mut Changes) -> Option<Vec<u8>> {
    changes.add(change, true);
    Some(Vec::new())
}

/// `ngram M=COUNT` with any blanks around its parts.
fn count(line: &[u8], changes: &mut Changes) -> Option<Vec<u8>> {
    let rest = trimmed(line).strip_prefix(b"ngram").filter(|rest| rest.first().is_some_and(is_blank))?;
    let sign = rest.iter().position(|&byte| byte == b'=')?;
    let (length, count) = (trimmed(&rest[..sign]), trimmed(&rest[sign + 1..]));
    let are_digits = |part: &[u8]| !part.is_empty() && part.iter().all(u8::is_ascii_digit);
    if !are_digits(length) || !are_digits(count) {
        return None;
    }
    let signs: [&[u8]; 4] = [b"=", b" =", b"= ", b" = "];
    let is_in_form = signs.iter().any(|sign| [b"ngram ", length, sign, count].concat() == line);
    changes.add(Change::Count, !is_in_form);
    Some(if is_in_form { line.to_vec() } else { [b"ngram ", length, b"=", count].concat() })
}

/// A row of so many words.
fn row(line: &[u8], length: usize, changes: &mut Changes) -> Option<Vec<u8>> {
    let (logs, words) = match tabbed(trimmed(line)) {
        Some(parts) => Some(parts).filter(|(_, words)| words.len() == length)?,
        None => spaced(line, length)?,
    };
    let mut found = Changes::default();
    let put = logs.iter().map(|log| logarithm::in_form(log, &mut found)).collect::<Option<Vec<_>>>()?;
    found.add(Change::Blanks, joined(&logs, &words) != line);
    *changes += found;
    Some(joined(&put.iter().map(Vec::as_slice).collect::<Vec<_>>(), &words))
}

/// The logarithms and the words of a row.
type Parts<'a> = (Vec<&'a [u8]>, Vec<&'a [u8]>);

/// The parts of a row in which tabs part the words from the logarithms.
fn tabbed(line: &[u8]) -> Option<Parts<'_>> {
    let (logs, words) = match line.split(|&byte| byte == b'\t').map(trimmed).collect::<Vec<_>>()[..] {
        [p, words] => (vec![p], words),
        [p, words, b] => (vec![p, b], words),
        _ => return None,
    };
    logs.iter().all(|log| logarithm::is_number(log)).then(|| (logs, fields(words)))
}

/// The parts of a row in which all blanks are alike: p, as many words as its section says, and b if there is more.
fn spaced(line: &[u8], length: usize) -> Option<Parts<'_>> {
    let fields = fields(line);
    let (words, b) = fields.get(1..)?.split_at_checked(length)?;
    (b.len() < 2).then(|| ([&fields[..1], b].concat(), words.to_vec()))
}

/// A row's line.
fn joined(logs: &[&[u8]], words: &[&[u8]]) -> Vec<u8> {
    let mut fields = vec![logs[0].to_vec(), words.join(&b' ')];
    fields.extend(logs[1..].iter().map(|log| log.to_vec()));
    fields.join(&b'\t')
}
