//! What is wrong with the form of a refused line. The line is looked at as `fmt` would mend it, so that
//! what is left to a person is told first; where nothing is, what `fmt` mends is told.

use crate::fault::{Fault, Field};
use crate::forms::{name_fault, number_fault, Form, Text};
use crate::mend::{self, Flaw};
use std::ops::Range;

/// The fault of a line that is refused for its form, the last of these. Below it stands what is behind
/// its newline, if it has one.
pub(crate) fn find(
    text: Text,
    bytes: &[u8],
    lines: &[&[u8]],
    below: Option<&[u8]>,
) -> Option<Fault> {
    let (&words, above) = lines.split_last()?;
    if bytes.is_empty() {
        let empty = Fault::new(0..0, "the file is empty".to_owned());
        return Some(empty.with(match text {
            Text::Sheet => {
                "see that it is the right file; `spardimple new FILE` writes one to begin with"
            }
            Text::Table => "see that it is the right file",
        }));
    }
    if above.is_empty() {
        if let Some(fault) = of_file(bytes, words) {
            return Some(fault);
        }
    }
    let (mended, flaws) = mend::line(text, words);
    let forms = text.forms(above.len());
    if mended.is_empty() {
        return Some(empty(forms, words, below.unwrap_or_default()));
    }
    let inside = &words[..mend::words_end(words)];
    if let Some(at) = inside.iter().position(|&byte| byte == b'\r') {
        let why = "a carriage return inside the line, where a newline or nothing should be";
        let fault = Fault::new(at..at + 1, why.to_owned());
        return Some(fault.with("end the line there, or take the carriage return out"));
    }
    let fields = located(words, &mended);
    if let Some(fault) = unmended(forms, above, words, &fields) {
        return Some(fault);
    }
    match flaws.first() {
        Some(&flaw) => {
            let mut fault = flawed(flaw, words, &fields);
            if everywhere(flaw, text, below.unwrap_or_default()) {
                fault.why.push_str(", as in every line below");
            }
            Some(fault)
        }
        None if below.is_none() => {
            let end = words.len()..words.len();
            let why = "the file ends here without a newline".to_owned();
            Some(Fault::flawed(end, why, Flaw::Newline))
        }
        None => None,
    }
}

/// Whether all lines below that are not empty have a flaw, one at least.
pub(crate) fn everywhere(flaw: Flaw, text: Text, below: &[u8]) -> bool {
    let mut worded = worded(below).peekable();
    let has = |line: &[u8]| mend::line(text, line).1.contains(&flaw);
    worded.peek().is_some() && worded.all(has)
}

/// The lines that are not empty.
fn worded(lines: &[u8]) -> impl Iterator<Item = &[u8]> {
    let lines = lines.split(|&byte| byte == b'\n');
    lines.filter(|line| mend::words_end(line) > 0)
}

/// What is wrong with a whole file, told at its first line.
fn of_file(bytes: &[u8], line: &[u8]) -> Option<Fault> {
    let (decoded, flaws) = mend::decoded(bytes);
    let told = |part, why: &str, flaw| Some(Fault::flawed(part, why.to_owned(), flaw));
    match flaws.first() {
        Some(&Flaw::Mark) => {
            let why = "a byte-order mark, which some editors put before the first word";
            told(0..3, why, Flaw::Mark)
        }
        Some(&Flaw::Wide) => {
            let why = "the file is UTF-16, two bytes a letter where one should be";
            told(0..line.len(), why, Flaw::Wide)
        }
        Some(&flaw) => {
            let at = line.iter().position(|&byte| byte == b'\r')?;
            let why = "a carriage return; no newline ends a line of this file";
            told(at..at + 1, why, flaw)
        }
        None => {
            let fault = Fault::new(0..line.len(), mend::still_wide(&decoded)?.to_owned());
            Some(fault.with("save the file as plain text, one byte a letter"))
        }
    }
}

/// A line without words.
fn empty(forms: &[Form], line: &[u8], below: &[u8]) -> Fault {
    let part = 0..line.len();
    match forms {
        [form] if worded(below).next().is_none() => {
            let why = format!("the `{}` line is missing here", form.word);
            Fault::new(part, why).with("write it; `spardimple new FILE` shows how it looks")
        }
        _ => Fault::flawed(part, "the line is empty".to_owned(), Flaw::Empty),
    }
}

/// The fields of a mended line, where they stand in the line as it is.
fn located<'a>(line: &[u8], mended: &'a [u8]) -> Vec<Field<'a>> {
    let mut from = 0;
    let fields = mended.split(|&byte| byte == b'\t');
    let place = |bytes: &'a [u8]| {
        let rest = &line[from..];
        let here = |at: &usize| {
            rest[*at..].len() >= bytes.len()
                && rest[*at..*at + bytes.len()].eq_ignore_ascii_case(bytes)
        };
        let start = from + (0..=rest.len()).find(here).unwrap_or(0);
        from = (start + bytes.len()).min(line.len());
        let at = start..from;
        Field { bytes, at }
    };
    fields.map(place).collect()
}

/// What is wrong with a line's form that `fmt` does not mend.
fn unmended(forms: &[Form], above: &[&[u8]], line: &[u8], fields: &[Field]) -> Option<Fault> {
    let word = fields.first()?;
    let known = forms.iter().find(|form| form.word.as_bytes() == word.bytes);
    let form = if let Some(form) = known {
        form
    } else {
        let words: Vec<String> = forms
            .iter()
            .map(|form| format!("`{}`", form.word))
            .collect();
        let wanted = words.join(" or ");
        let why = format!("the line should begin with {wanted} and a tab");
        return Some(strange(line, forms).unwrap_or_else(|| word.fault(why).with(LINES)));
    };
    let fit = |line: &&[u8]| line.starts_with(b"fit\t");
    if form.word == "part" && above.iter().any(fit) {
        let fault = word.fault("`part` lines stand above all `fit` lines".to_owned());
        return Some(fault.with("move the line above the first `fit` line"));
    }
    if fields.len() != form.fields() {
        let (has, wanted) = (fields.len() - 1, form.fields() - 1);
        let spaces = if line.contains(&b' ') {
            "; there are spaces, and only tabs part fields"
        } else {
            ""
        };
        let word = form.word;
        let why = format!("fields behind `{word}`: {has}, where {wanted} should stand{spaces}");
        let fault = Fault::new(0..line.len(), why);
        return Some(fault.with("write so many fields, with one tab between two of them"));
    }
    fields[1..].iter().enumerate().find_map(|(at, field)| {
        let fault = if at < form.names {
            name_fault(field.bytes)
        } else {
            number_fault(field.bytes)
        };
        let (why, to_do) = fault?;
        Some(field.fault(why.to_owned()).with(to_do))
    })
}

/// What to do about a line of another word.
const LINES: &str = "see that it is the right file, and that its lines are in their order";

/// A line that is of no form, if it can be told what it is.
fn strange(line: &[u8], forms: &[Form]) -> Option<Fault> {
    let starts = |words: &[&str]| words.iter().any(|word| line.starts_with(word.as_bytes()));
    let whole = |why: &str, to_do| Some(Fault::new(0..line.len(), why.to_owned()).with(to_do));
    let parted = |by: char| {
        forms
            .iter()
            .any(|form| starts(&[&format!("{}{by}", form.word)]))
    };
    if starts(&["#", "//", "--", ";"]) {
        whole("there are no comments here", "take the line out")
    } else if parted(',') || parted(';') {
        let to_do = "save it again with tabs between the fields";
        whole("commas or semicolons where tabs should be", to_do)
    } else if starts(&["plan\t", "piece\t"]) {
        whole(
            "this is a line of a listing",
            "see that it is the right file",
        )
    } else if starts(&["add\t", "retime\t", "withdraw\t"]) {
        let to_do = "give the sheet to `spardimple desk`, and this file as its input";
        whole("this is an edit", to_do)
    } else {
        None
    }
}

/// A flaw of a line that is formed but for its flaws.
fn flawed(flaw: Flaw, line: &[u8], fields: &[Field]) -> Fault {
    let (begin, end) = (mend::words_begin(line), mend::words_end(line));
    let (part, why) = match flaw {
        Flaw::Returns => {
            let at = line[end..].iter().position(|&byte| byte == b'\r');
            let at = end + at.unwrap_or(0);
            (at..at + 1, "a carriage return ends the line".to_owned())
        }
        Flaw::Ends if begin > 0 => {
            let why = format!("{} at the line's beginning", blanks(&line[..begin]));
            (0..begin, why)
        }
        Flaw::Ends => {
            let why = format!("{} at the line's end", blanks(&line[end..]));
            (end..line.len(), why)
        }
        Flaw::Parting => {
            let part = parting(line, fields);
            let why = format!("{} where one tab should be", blanks(&line[part.clone()]));
            (part, why)
        }
        _ => {
            let word = &fields[0];
            let why = format!("the word is `{}`, in lower case", word.text());
            (word.at.clone(), why)
        }
    };
    Fault::flawed(part, why, flaw)
}

/// The first place between two fields that is not one tab.
fn parting(line: &[u8], fields: &[Field]) -> Range<usize> {
    let between = |pair: &[Field]| pair[0].at.end..pair[1].at.start;
    let mut places = fields.windows(2).map(between);
    let wrong = places.find(|place| line[place.clone()] != *b"\t");
    wrong.unwrap_or(0..line.len())
}

/// What some blanks are.
fn blanks(bytes: &[u8]) -> &'static str {
    let all = |one: u8| bytes.iter().all(|&byte| byte == one);
    match bytes.len() {
        1 if all(b' ') => "a space",
        1 if all(b'\t') => "a tab",
        _ if all(b' ') => "spaces",
        _ if all(b'\t') => "tabs",
        _ => "blanks",
    }
}

#[cfg(test)]
mod tests {
    use crate::fault;
    use crate::forms::Text;
    use crate::mend::Flaw;

    const HEAD: &str = "machine\t2\t1\ncost\t0\t0\t0\t0\t0\t0\t0\t0\t0\n";

    /// The words at fault in a line of a sheet, why, and what `fmt` mends.
    fn fault(sheet: &[u8], above: usize) -> (String, String, Option<Flaw>) {
        let found = fault::find(8, Text::Sheet, sheet, above, &|above| above + 1);
        let found = found.expect("a fault is found");
        let line = sheet.split(|&byte| byte == b'\n').nth(above).unwrap();
        let part = String::from_utf8_lossy(&line[found.part]).into_owned();
        (part, found.why, found.flaw)
    }

    /// Of the last line below the first two.
    fn below_head(lines: &str) -> (String, String, Option<Flaw>) {
        let sheet = format!("{HEAD}{lines}");
        let above = sheet.trim_end_matches('\n').matches('\n').count();
        fault(sheet.as_bytes(), above)
    }

    #[test]
    fn left_to_a_person() {
        for (lines, part, why) in [
            ("prat\tp\n", "prat", "the line should begin with `part` or `fit` and a tab"),
            ("fit\tpress\n", "fit\tpress", "fields behind `fit`: 1, where 2 should stand"),
            (
                "Fit\tpress drv a\n",
                "Fit\tpress drv a",
                "fields behind `fit`: 1, where 2 should stand; there are spaces, and only tabs part fields",
            ),
            (
                "part\tservo\t3 10\t1000\t1000\t0\t20\n",
                "part\tservo\t3 10\t1000\t1000\t0\t20",
                "fields behind `part`: 6, where 7 should stand; there are spaces, and only tabs part fields",
            ),
            ("fit a\tb\n", "fit a", "the line should begin with `part` or `fit` and a tab"),
            ("fit\t\ta b\n", "", "a name is missing here"),
            (
                "fit\ta\rb\tc\n",
                "\r",
                "a carriage return inside the line, where a newline or nothing should be",
            ),
            ("fit\tpress\tdrv a\n", "drv a", "a name has ASCII letters, digits, hyphens and full stops only"),
            ("fit\t\tdrv\n", "", "a name is missing here"),
            ("fit\tabcdefghijklmnopqrstuvwxy\td\n", "abcdefghijklmnopqrstuvwxy", "a name has at most 24 letters"),
            ("part\tp\t1\t1\t1\t0\t0\t01\n", "01", "a number has no leading 0"),
            ("part  p 1 1 1 0 0 01 \r\n", "01", "a number has no leading 0"),
            ("part\tp\t1\t1\t1\t\t0\t0\n", "", "a number is missing here"),
            ("part\tp\t1\t1\t1\t0\t-1\t0\n", "-1", "a number has the digits 0 to 9 only"),
            ("part\tp\t1\t1\t12345678\t0\t1\t0\n", "12345678", "a number has at most 7 digits"),
            ("fit\ta\tb\nPART\tp\t1\t1\t1\t0\t0\t0\n", "PART", "`part` lines stand above all `fit` lines"),
            ("machine\t1\t1\n", "machine", "the line should begin with `part` or `fit` and a tab"),
        ] {
            let expected = (part.to_owned(), why.to_owned(), None);
            assert_eq!(below_head(lines), expected, "{lines:?}");
        }
        assert_eq!(fault(b"", 0).1, "the file is empty");
        assert_eq!(fault(b" \r\n\n", 0).1, "the `machine` line is missing here");
        assert_eq!(
            fault(b"machine\t1\t1\n", 1).1,
            "the `cost` line is missing here"
        );
    }

    #[test]
    fn left_to_fmt() {
        for (lines, part, why, flaw) in [
            (
                "fit\ta\tb\r\n",
                "\r",
                "a carriage return ends the line",
                Flaw::Returns,
            ),
            (
                "fit\ta\tb \r\n",
                "\r",
                "a carriage return ends the line",
                Flaw::Returns,
            ),
            ("fit\ta\tb \n", " ", "a space at the line's end", Flaw::Ends),
            (
                "fit\ta\tb\t\t\n",
                "\t\t",
                "tabs at the line's end",
                Flaw::Ends,
            ),
            (
                "  fit\ta\tb \n",
                "  ",
                "spaces at the line's beginning",
                Flaw::Ends,
            ),
            (
                "fit \ta\t \tb\n",
                " \t",
                "blanks where one tab should be",
                Flaw::Parting,
            ),
            (
                "fit\ta\t\tb\n",
                "\t\t",
                "tabs where one tab should be",
                Flaw::Parting,
            ),
            (
                "fit\ta\t b\n",
                "\t ",
                "blanks where one tab should be",
                Flaw::Parting,
            ),
            (
                "Fit a b\n",
                " ",
                "a space where one tab should be",
                Flaw::Parting,
            ),
            (
                "FIT\ta\tb\n",
                "FIT",
                "the word is `fit`, in lower case",
                Flaw::Case,
            ),
            (
                "fit\ta\tb",
                "",
                "the file ends here without a newline",
                Flaw::Newline,
            ),
        ] {
            let expected = (part.to_owned(), why.to_owned(), Some(flaw));
            assert_eq!(below_head(lines), expected, "{lines:?}");
        }
        let empty = |lines: &str| fault(format!("{HEAD}{lines}").as_bytes(), 2);
        assert_eq!(empty("\n").2, Some(Flaw::Empty));
        assert_eq!(empty(" \t\r\n").1, "the line is empty");
        assert_eq!(fault(b"\nmachine\t1\t1\n", 0).2, Some(Flaw::Empty));
    }

    #[test]
    fn of_a_whole_file() {
        let returns = format!("{HEAD}fit\ta\tb\n").replace('\n', "\r\n");
        assert_eq!(
            fault(returns.as_bytes(), 0).1,
            "a carriage return ends the line, as in every line below"
        );
        let one = format!("machine 2 1\n{}", &HEAD[12..]);
        assert_eq!(
            fault(one.as_bytes(), 0).1,
            "a space where one tab should be"
        );
        let old = HEAD.replace('\n', "\r");
        assert_eq!(
            fault(old.as_bytes(), 0).1,
            "a carriage return; no newline ends a line of this file"
        );
        assert_eq!(
            fault(format!("\u{feff}{HEAD}").as_bytes(), 0).2,
            Some(Flaw::Mark)
        );
        let low: Vec<u8> = HEAD.bytes().flat_map(|byte| [byte, 0]).collect();
        let high: Vec<u8> = HEAD.bytes().flat_map(|byte| [0, byte]).collect();
        let marked = |mark: &[u8], bytes: &[u8]| [mark, bytes].concat();
        for wide in [
            marked(b"\xff\xfe", &low),
            marked(b"\xfe\xff", &high),
            low,
            high,
        ] {
            assert_eq!(fault(&wide, 0).2, Some(Flaw::Wide));
        }
        let foreign = "the file is UTF-16, and not all of its letters are ASCII";
        let cut = "the file is UTF-16 and ends in the middle of a letter";
        for (bytes, expected) in [
            (&b"\xff\xfem\0\xe9\0\n\0"[..], foreign),
            (b"\xff\xfem\0\n", cut),
            (b"\xfe\xff\0m\0", cut),
            (b"m\0a\0c", cut),
            (b"\0m\0a\0", cut),
        ] {
            let (_, why, flaw) = fault(bytes, 0);
            assert_eq!((why.as_str(), flaw), (expected, None), "{bytes:?}");
        }
    }
}
