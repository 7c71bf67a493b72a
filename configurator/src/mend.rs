//! What an editor or a spreadsheet does to a text without a word of it being wrong, and how it is
//! undone. No name and no number is touched: the words stay, in their order, and only the first of a
//! line may get lower case.

use crate::forms::Text;
use std::borrow::Cow;
use std::collections::BTreeMap;

/// What can be mended, in the order in which it is.
#[derive(Clone, Copy, Debug, PartialEq, Eq, PartialOrd, Ord)]
pub enum Flaw {
    /// A byte-order mark before the first word.
    Mark,
    /// Two bytes a letter.
    Wide,
    /// Carriage returns at the ends of lines, or in the place of newlines.
    Returns,
    /// Blanks before a line's first word or behind its last.
    Ends,
    /// Something else than one tab between fields.
    Parting,
    /// A line's first word in the wrong case.
    Case,
    /// A line without a word.
    Empty,
    /// No newline behind the last line.
    Newline,
}

use Flaw::{Case, Empty, Ends, Mark, Newline, Parting, Returns, Wide};

/// The flaws that a line can have by itself.
const IN_LINES: [Flaw; 4] = [Returns, Ends, Parting, Case];

impl Flaw {
    /// What it is called.
    #[must_use]
    pub const fn name(self) -> &'static str {
        match self {
            Mark => "byte-order mark",
            Wide => "UTF-16",
            Returns => "carriage returns",
            Ends => "blanks at the ends of lines",
            Parting => "fields not parted by one tab",
            Case => "words in the wrong case",
            Empty => "empty lines",
            Newline => "no newline at the end",
        }
    }

    /// What `fmt` does about it.
    #[must_use]
    pub const fn mending(self) -> &'static str {
        match self {
            Mark | Ends => "takes it off",
            Returns => "ends lines by newlines alone",
            Wide => "writes one byte a letter",
            Parting => "puts one tab between fields",
            Case => "writes the word so",
            Empty => "leaves the line out",
            Newline => "adds it",
        }
    }

    /// A line without this flaw.
    #[must_use]
    pub fn off(self, text: Text, line: &[u8]) -> Vec<u8> {
        match self {
            Returns => {
                let (words, end) = line.split_at(words_end(line));
                let end = end.iter().filter(|&&byte| byte != b'\r');
                words.iter().chain(end).copied().collect()
            }
            Ends => trimmed(line).to_vec(),
            Parting => parted(text, line).join(&b'\t'),
            Case => {
                let end = line
                    .iter()
                    .position(|&byte| blank(byte))
                    .unwrap_or(line.len());
                let (word, rest) = line.split_at(end);
                match text.form_of(word) {
                    Some(form) => [form.word.as_bytes(), rest].concat(),
                    None => line.to_vec(),
                }
            }
            Mark | Wide | Empty | Newline => line.to_vec(),
        }
    }
}

/// A file as it is mended, and what was mended.
#[derive(Clone, Debug, PartialEq, Eq)]
pub struct Mended {
    /// The mended text.
    pub bytes: Vec<u8>,
    /// Each flaw with the number of lines that had it and the first of these.
    pub flaws: BTreeMap<Flaw, (usize, usize)>,
}

/// Mends a sheet or a table.
///
/// ```
/// use configurator::mend::{mended, Flaw};
///
/// let mended = mended(b"Machine 2  1\r\ncost\t0\t0\t0\t0\t0\t0\t0\t0\t0\r\n\r\nfit\tpress \tdrv a");
/// assert_eq!(mended.bytes, b"machine\t2\t1\ncost\t0\t0\t0\t0\t0\t0\t0\t0\t0\nfit\tpress\tdrv a\n");
/// assert_eq!(mended.flaws[&Flaw::Returns], (3, 1));
/// assert_eq!(mended.flaws[&Flaw::Newline], (1, 4));
/// ```
#[must_use]
pub fn mended(file: &[u8]) -> Mended {
    let (decoded, of_file) = decoded(file);
    let mut lines: Vec<&[u8]> = decoded.split(|&byte| byte == b'\n').collect();
    let cut = lines.last().map_or(false, |last| words_end(last) > 0);
    if lines.last().map_or(false, |last| last.is_empty()) {
        lines.pop();
    }
    let all = |flaw| (flaw, (if flaw == Mark { 1 } else { lines.len().max(1) }, 1));
    let mut flaws: BTreeMap<_, _> = of_file.into_iter().map(all).collect();
    if no_text(&decoded).is_some() {
        let bytes = decoded.into_owned();
        return Mended { bytes, flaws };
    }
    let (text, mut bytes) = (Text::of(&decoded), Vec::new());
    for (number, words) in (1..).zip(&lines) {
        let (words, its) = line(text, words);
        for flaw in its {
            flaws.entry(flaw).or_insert((0, number)).0 += 1;
        }
        if !words.is_empty() {
            bytes.extend(words);
            bytes.push(b'\n');
        }
    }
    if cut {
        flaws.insert(Newline, (1, lines.len()));
    }
    Mended { bytes, flaws }
}

/// A line as it is mended, and the flaws that it had. Of an empty line nothing is left.
#[must_use]
pub fn line(text: Text, line: &[u8]) -> (Vec<u8>, Vec<Flaw>) {
    let (mut mended, mut flaws) = (line.to_vec(), Vec::new());
    for flaw in IN_LINES {
        let next = flaw.off(text, &mended);
        if next != mended {
            flaws.push(flaw);
            mended = next;
        }
    }
    if mended.is_empty() {
        flaws.retain(|&flaw| flaw == Returns);
        flaws.push(Empty);
    }
    (mended, flaws)
}

/// A file's letters, one byte each, in lines that newlines end, and the flaws that are mended by that.
/// UTF-16 stays as it is if not all of it is ASCII.
#[must_use]
pub fn decoded(file: &[u8]) -> (Cow<'_, [u8]>, Vec<Flaw>) {
    let (mut bytes, mut flaws) = (file, Vec::new());
    while let Some(behind) = bytes.strip_prefix(b"\xef\xbb\xbf") {
        bytes = behind;
        flaws = vec![Mark];
    }
    let mut decoded = Cow::Borrowed(bytes);
    if let Some(letters) = narrow(bytes) {
        decoded = Cow::Owned(letters);
        flaws.push(Wide);
    }
    let returns = decoded.contains(&b'\r') && !decoded.contains(&b'\n');
    if returns && no_text(&decoded).is_none() {
        for byte in decoded.to_mut() {
            if *byte == b'\r' {
                *byte = b'\n';
            }
        }
        flaws.push(Returns);
    }
    (decoded, flaws)
}

/// Why decoded bytes are no text of one byte a letter. They may mean anything, and stay.
#[must_use]
pub fn no_text(bytes: &[u8]) -> Option<String> {
    if let Some(why) = still_wide(bytes) {
        return Some(why.to_owned());
    }
    let at = bytes.iter().position(|&byte| byte == 0)?;
    let line = bytes[..=at].split(|&byte| byte == b'\n').count();
    Some(format!("there is a NUL byte in line {line}"))
}

/// Why decoded bytes are UTF-16 still. It is known by its mark, or because each second byte is 0 and no
/// other.
#[must_use]
pub fn still_wide(bytes: &[u8]) -> Option<&'static str> {
    let marked = bytes.starts_with(b"\xff\xfe") || bytes.starts_with(b"\xfe\xff");
    let pairs = &bytes[..bytes.len() / 2 * 2];
    if !marked && narrow(pairs).is_none() {
        None
    } else if pairs.len() < bytes.len() {
        Some("the file is UTF-16 and ends in the middle of a letter")
    } else {
        Some("the file is UTF-16, and not all of its letters are ASCII")
    }
}

/// The letters of UTF-16, if all of them are ASCII.
fn narrow(bytes: &[u8]) -> Option<Vec<u8>> {
    let letters = |bytes: &[u8], high: usize| {
        let pairs = bytes
            .chunks(2)
            .map(|pair| match (pair.get(high), pair.get(1 - high)) {
                (Some(0), Some(&low)) if (1..0x80).contains(&low) => Some(low),
                _ => None,
            });
        pairs.collect::<Option<Vec<u8>>>()
    };
    match bytes {
        [] => None,
        [0xff, 0xfe, rest @ ..] => letters(rest, 1),
        [0xfe, 0xff, rest @ ..] => letters(rest, 0),
        _ => letters(bytes, 1).or_else(|| letters(bytes, 0)),
    }
}

/// A line's fields. Where tabs part as many as the line's word asks for, they are what parts them, and
/// a blank inside a field belongs to it; else runs of blanks are, if these part so many and are alike.
/// Else the line stays as it is.
fn parted(text: Text, line: &[u8]) -> Vec<&[u8]> {
    let fits = |fields: &[&[u8]]| {
        let form = fields.first().and_then(|word| text.form_of(word));
        form.map_or(false, |form| form.fields() == fields.len())
    };
    let tabs = line.split(|&byte| byte == b'\t');
    let by_tabs: Vec<&[u8]> = tabs.clone().map(trimmed).collect();
    let runs = line.split(|&byte| blank(byte));
    let by_runs: Vec<&[u8]> = runs.filter(|run| !run.is_empty()).collect();
    if fits(&by_tabs) {
        by_tabs
    } else if fits(&by_runs) && alike(line) {
        by_runs
    } else {
        tabs.collect()
    }
}

/// Whether every run of blanks between words has a tab in it, or none has. Where only some have one, the
/// others may belong to a name or a number, as in `3 10`.
fn alike(line: &[u8]) -> bool {
    let runs = trimmed(line).split(|&byte| !blank(byte));
    let runs = runs.filter(|run| !run.is_empty());
    let mut tabbed = runs.map(|run| run.contains(&b'\t'));
    let first = tabbed.next();
    tabbed.all(|tab| Some(tab) == first)
}

/// Whether a byte may stand between words by mistake for a tab.
fn blank(byte: u8) -> bool {
    matches!(byte, b' ' | b'\t')
}

/// Where a line's words end: behind that there are only blanks and carriage returns.
pub(crate) fn words_end(line: &[u8]) -> usize {
    let last = line.iter().rposition(|&byte| !blank(byte) && byte != b'\r');
    last.map_or(0, |last| last + 1)
}

/// Where a line's words begin.
pub(crate) fn words_begin(line: &[u8]) -> usize {
    let first = line.iter().position(|&byte| !blank(byte));
    first.unwrap_or(line.len())
}

/// What stands between blanks.
fn trimmed(bytes: &[u8]) -> &[u8] {
    let bytes = &bytes[words_begin(bytes)..];
    let last = bytes.iter().rposition(|&byte| !blank(byte));
    &bytes[..last.map_or(0, |last| last + 1)]
}
