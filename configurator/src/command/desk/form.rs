//! What is wrong with the words of an edit, by the forms that edits have. The desk program has refused
//! the edit; what stands here finds what can be pointed at.

use super::script::{Line, LINE_MOST};
use crate::fault::{broken_times, Fault};
use crate::forms::{name_fault, number_fault};
use crate::quoted::TIMES;
use crate::text::shown;
use std::str;

const SPACES: &str = "there are spaces, and only tabs part fields";
const PART: &str = "put one tab between fields";

/// An edit's word, then so many names, then so many numbers.
struct Form(&'static str, usize, usize);

const FORMS: [Form; 4] = [
    Form("add", 1, 6),
    Form("withdraw", 1, 0),
    Form("retime", 1, 6),
    Form("list", 0, 0),
];

/// 8: what is wrong with an edit's form.
#[must_use]
pub fn fault(edit: &Line) -> Option<Fault> {
    let bytes = &edit.bytes;
    let (whole, end) = (0..bytes.len(), bytes.len()..bytes.len());
    if bytes.starts_with(b"\xef\xbb\xbf") {
        let why = "a byte-order mark, which some editors put before the first word";
        return Some(Fault::new(0..3, why).with("save the script without it"));
    }
    if let Some(at) = bytes.iter().position(|&byte| byte == b'\r') {
        let why = "a carriage return; the script has another system's line ends";
        let to_do = "`tr -d '\\r' < EDITS > NEW` takes them off";
        return Some(Fault::new(at..at + 1, why).with(to_do));
    }
    if edit.is_long() {
        let why = format!("the line is longer than {LINE_MOST} bytes, and no edit is");
        return Some(Fault::new(whole, why));
    }
    if !edit.ended {
        let why = "the script ends here without a newline";
        return Some(Fault::new(end, why).with("end the last line too"));
    }
    if bytes.is_empty() {
        return Some(Fault::new(whole, "the line is empty"));
    }
    let fields = edit.fields();
    let word = *fields.first()?;
    let known = FORMS.iter().find(|form| form.0.as_bytes() == word);
    let &Form(name, names, numbers) = if let Some(form) = known {
        form
    } else {
        return Some(no_word(word));
    };
    let (has, wanted) = (fields.len() - 1, names + numbers);
    if has != wanted {
        let why = format!("fields behind `{name}`: {has}, where {wanted} should stand");
        return Some(if bytes.contains(&b' ') {
            Fault::new(whole, format!("{why}; {SPACES}")).with(PART)
        } else {
            Fault::new(whole, why)
        });
    }
    let mut placed = fields.iter().zip(edit.places()).enumerate().skip(1);
    placed.find_map(|(at, (field, place))| {
        let why = if at <= names {
            name_fault(field)
        } else {
            number_fault(field)
        };
        let (why, to_do) = why?;
        Some(Fault::new(place, why).with(to_do))
    })
}

/// Why a field is no edit's word.
fn no_word(field: &[u8]) -> Fault {
    let whole = 0..field.len();
    let word = field.split(|&byte| byte == b' ').find(|w| !w.is_empty());
    let word = word.unwrap_or_default();
    let lower = word.to_ascii_lowercase();
    let known = FORMS.iter().any(|form| form.0.as_bytes() == lower);
    let lower_shown = shown(&lower);
    if [&b"help"[..], b"?", b"quit", b"exit"].contains(&&lower[..]) {
        let place = "where standard input and standard error are terminals";
        Fault::new(whole, format!("`{lower_shown}` is for the prompt, {place}"))
    } else if known && lower != word {
        let why = format!("the word is `{lower_shown}`, in lower case");
        Fault::new(whole, why).with("write the word in lower case")
    } else if known {
        Fault::new(whole, SPACES).with(PART)
    } else {
        let why = "an edit begins with `add`, `withdraw`, `retime` or `list`";
        Fault::new(whole, why)
    }
}

/// 3: what is wrong with an edit's times.
#[must_use]
pub fn times(edit: &Line) -> Option<Fault> {
    let (fields, places) = (edit.fields(), edit.places());
    let number = |field: &&[u8]| str::from_utf8(field).ok()?.parse().ok();
    let numbers: Option<Vec<u32>> = fields.get(2..)?.iter().map(number).collect();
    let (at, why) = broken_times(TIMES, &numbers?)?;
    let part = places.get(at.start + 2)?.start..places.get(at.end + 1)?.end;
    Some(Fault::new(part, why))
}

#[cfg(test)]
mod tests {
    use super::*;

    #[test]
    fn faults_of_forms() {
        let words = "an edit begins with `add`, `withdraw`, `retime` or `list`";
        let spaces = "there are spaces, and only tabs part fields";
        let returns = "a carriage return; the script has another system's line ends";
        let help =
            "`help` is for the prompt, where standard input and standard error are terminals";
        let quit =
            "`quit` is for the prompt, where standard input and standard error are terminals";
        let mark = "a byte-order mark, which some editors put before the first word";
        let letters = "a name has ASCII letters, digits, hyphens and full stops only";
        for [edit, part, words] in [
            ["", "", "the line is empty"],
            ["list\r", "\\r", returns],
            [
                "list\t",
                "list⇥",
                "fields behind `list`: 1, where 0 should stand",
            ],
            [
                "add\tx",
                "add⇥x",
                "fields behind `add`: 1, where 7 should stand",
            ],
            ["add x 1 1", "add x 1 1", spaces],
            [" list", " list", spaces],
            ["List", "List", "the word is `list`, in lower case"],
            ["HELP", "HELP", help],
            ["quit", "quit", quit],
            ["\u{feff}list\r", "\\u{feff}", mark],
            ["ad\tx", "ad", words],
            ["\tlist", "", words],
            ["withdraw\ta_b", "a_b", letters],
            [
                "add\tx\t01\t1\t1\t0\t0\t0",
                "01",
                "a number has no leading 0",
            ],
        ] {
            let edit = Line {
                bytes: edit.as_bytes().to_vec(),
                ended: true,
            };
            let found = fault(&edit).unwrap();
            assert_eq!(shown(&edit.bytes[found.part]), part);
            assert_eq!(found.why, words);
        }
    }

    /// What to do is told where the cause is known; else the refusal tells it.
    #[test]
    fn causes_have_remedies() {
        for (edit, to_do) in [
            ("list\r", Some("`tr -d '\\r' < EDITS > NEW` takes them off")),
            ("\u{feff}list", Some("save the script without it")),
            ("add x 1 1", Some("put one tab between fields")),
            ("withdraw\tx y\tz", Some("put one tab between fields")),
            ("List", Some("write the word in lower case")),
            ("", None),
            ("help", None),
            ("ad\tx", None),
            ("list\tx", None),
            (
                "withdraw\ta_b",
                Some("choose a name of these, the same wherever it stands"),
            ),
        ] {
            let mut line = Line {
                bytes: edit.as_bytes().to_vec(),
                ended: true,
            };
            assert_eq!(fault(&line).unwrap().to_do, to_do, "{edit}");
            if to_do.is_none() {
                line.ended = false;
                let to_do = fault(&line).unwrap().to_do;
                assert_eq!(to_do, Some("end the last line too"), "{edit}");
            }
        }
    }
}
