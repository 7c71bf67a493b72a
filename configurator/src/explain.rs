//! A refused sheet's sentences for people, with the words of the sheet that they are about.
//!
//! The refusal is the library's. What stands here only looks its line or its task up in the sheet's
//! text, so that nobody has to count lines, and gives no figure of its own.

use crate::answer::Refusal;
use crate::fault::{self, Fault, Numbers};
use crate::forms::Text;
use crate::mend::{self, Flaw};
use crate::text::{shell_word, shown};
use crate::why::{words, Why};
use crate::UnknownNumber;
use std::fmt::Write;
use unicode_width::UnicodeWidthStr;

/// The most characters that are shown of a line's fault, and of what stands on each side of it.
const SHOWN: usize = 60;

/// A refusal over a sheet, in the parts that a message or a page is made of.
#[derive(Clone, Debug, PartialEq, Eq)]
pub struct Explained {
    /// What was refused.
    pub refusal: Refusal,
    /// What it means; for 7 with the task's name.
    pub meaning: String,
    /// The line that it is about.
    pub line: Option<Line>,
    /// What is wrong with the line's words, and the hint where there is one.
    pub why: Option<String>,
    /// What `fmt` mends, where that is all that is wrong.
    pub flaw: Option<Flaw>,
    /// What a person can do about it, where that is known better than by the number alone.
    pub to_do: Option<&'static str>,
    /// Where no core has room (7): what the last core would be asked for, in sentences.
    pub no_room: Vec<String>,
}

/// A line of a sheet, cut where the fault in it begins and ends. Tabs are `⇥`, so that a wrong
/// space can be seen.
#[derive(Clone, Debug, PartialEq, Eq)]
pub struct Line {
    /// Its number, from 1.
    pub number: usize,
    /// What stands before the fault.
    pub before: String,
    /// What is wrong; empty where nothing can be pointed at.
    pub fault: String,
    /// What stands behind it.
    pub behind: String,
}

/// The refusal of a sheet by the library, with the sheet's words, and where no core has room with what
/// the last core would be asked for.
///
/// # Errors
///
/// The library answers a number that stands for nothing, which a proved library never does.
pub fn told(refusal: Refusal, sheet: &[u8]) -> Result<Explained, UnknownNumber> {
    let no_room = no_room(refusal, sheet)?;
    Ok(Explained {
        no_room,
        ..refused(refusal, sheet)
    })
}

/// What the last core would be asked for with the task that a sheet was refused for (7): which core,
/// within which length, by how much too many, and the pieces that ask most. Empty for other refusals.
///
/// # Errors
///
/// The library answers a number that stands for nothing, which a proved library never does.
pub fn no_room(refusal: Refusal, sheet: &[u8]) -> Result<Vec<String>, UnknownNumber> {
    if refusal.number() != 7 {
        return Ok(Vec::new());
    }
    let listing = crate::why_core(sheet, 1)?.unwrap_or_default();
    let why = Why::parse(&listing);
    let why = why.filter(|why| why.stuck.map(|stuck| stuck.place) == Some(refusal.carries()));
    Ok(why.map_or_else(Vec::new, |why| words::sentences(&why, Some(1), "ticks")))
}

/// The refusal of a sheet, with the sheet's words.
///
/// ```
/// use configurator::{explain, Refusal};
///
/// let sheet = b"machine\t1\t1\ncost\t0\t0\t0\t0\t0\t0\t0\t0\t0\npart\tdrv-a\t6\t10\t10\t0\t0\t1
/// fit\tpress\tdrv-a
/// fit\tfeed\tdrv-a2
/// ";
/// assert_eq!(
///     explain::refused(Refusal::new(5, 5), sheet).message("line.sheet"),
///     "line.sheet:5: refused (5): there is no part or task of that name
///   fit⇥feed⇥drv-a2
///            ^^^^^^
///   no part `drv-a2` above; `drv-a` is a different part
///   to do: write the name exactly as the line that defines it; upper and lower case differ"
/// );
/// let stuck = explain::refused(Refusal::new(7, 2), sheet);
/// assert_eq!(stuck.meaning, "no core has room for task 2, `feed`");
/// ```
#[must_use]
pub fn refused(refusal: Refusal, sheet: &[u8]) -> Explained {
    refused_in(Text::Sheet, refusal, sheet, &|above| above + 1)
}

/// The refusal of a sheet or a table, with its words, where the lines may have other numbers in the
/// file that they come from.
#[must_use]
pub fn refused_in(text: Text, refusal: Refusal, sheet: &[u8], numbers: Numbers) -> Explained {
    let mut meaning = refusal.meaning();
    let place = usize::try_from(refusal.carries()).unwrap_or(usize::MAX);
    let (mut line, mut why, mut flaw, mut to_do) = (None, None, None, None);
    match (refusal.number(), place.checked_sub(1)) {
        (1..=6 | 8, Some(above)) => {
            let fault = fault::find(refusal.number(), text, sheet, above, numbers);
            flaw = fault.as_ref().and_then(|fault| fault.flaw);
            to_do = fault.as_ref().and_then(|fault| fault.to_do);
            line = lines(sheet).nth(above).map(|bytes| {
                let part = fault
                    .as_ref()
                    .map_or(0..0, |fault: &Fault| fault.part.clone());
                Line::cut(numbers(above), bytes, part.start, part.end)
            });
            why = fault.map(|fault| fault.why);
        }
        (7, Some(above)) => {
            let mut fits = lines(sheet).enumerate().filter_map(fitted_task);
            if let Some((at, bytes, name)) = fits.nth(above) {
                let _ = write!(meaning, ", `{}`", shown(name));
                line = Some(Line::cut(numbers(at), bytes, 4, 4 + name.len()));
            }
        }
        (9, _) if is_wide(sheet) => {
            why = Some("the file is UTF-16, two bytes a letter".to_owned());
            flaw = Some(Flaw::Wide);
        }
        _ => {}
    }
    Explained {
        refusal,
        meaning,
        line,
        why,
        flaw,
        to_do,
        no_room: Vec::new(),
    }
}

impl Explained {
    /// What to do about it in a file that is called so in messages.
    #[must_use]
    pub fn remedy(&self, file: &str) -> String {
        match self.flaw {
            Some(flaw) => {
                let file = shell_word(file);
                format!("`spardimple fmt {file} -o NEW` {}", flaw.mending())
            }
            None => self.to_do.unwrap_or(self.refusal.remedy()).to_owned(),
        }
    }

    /// The message for a terminal: the file and the line, the refusal, the line's words with the
    /// fault underlined, what to do, and where no core has room, why.
    #[must_use]
    pub fn message(&self, file: &str) -> String {
        let mut text = file.to_owned();
        if let Some(line) = &self.line {
            let _ = write!(text, ":{}", line.number);
        }
        let _ = write!(
            text,
            ": refused ({}): {}",
            self.refusal.number(),
            self.meaning
        );
        if let Some(line) = &self.line {
            let _ = write!(text, "\n  {}{}{}", line.before, line.fault, line.behind);
            if !line.fault.is_empty() {
                let (indent, length) = (line.before.width(), line.fault.width().max(1));
                let _ = write!(text, "\n  {:indent$}{:^<length$}", "", "");
            }
        }
        if let Some(why) = &self.why {
            let _ = write!(text, "\n  {why}");
        }
        let remedy = self.remedy(file);
        if !remedy.is_empty() {
            let _ = write!(text, "\n  to do: {remedy}");
        }
        if !self.no_room.is_empty() {
            let _ = write!(text, "\n  why: {}", self.no_room.join("\n  "));
        }
        text
    }
}

impl Line {
    /// A line cut at two of its bytes.
    #[must_use]
    pub fn cut(number: usize, bytes: &[u8], from: usize, to: usize) -> Self {
        let before = shown(&bytes[..from]);
        let skipped = before.chars().count().saturating_sub(SHOWN);
        Line {
            number,
            before: match skipped {
                0 => before,
                _ => format!("…{}", before.chars().skip(skipped).collect::<String>()),
            },
            fault: begun(shown(&bytes[from..to])),
            behind: begun(shown(&bytes[to..])),
        }
    }
}

/// The beginning of a text, with a sign where it is cut.
fn begun(text: String) -> String {
    match text.char_indices().nth(SHOWN) {
        Some((end, _)) => format!("{}…", &text[..end]),
        None => text,
    }
}

/// Whether a sheet that is too long is UTF-16 that can be mended. Only its beginning is there.
fn is_wide(sheet: &[u8]) -> bool {
    let pairs = &sheet[..sheet.len() / 2 * 2];
    mend::decoded(pairs).1.contains(&Flaw::Wide)
}

/// A sheet's lines; behind the last newline there is one more, empty in a good sheet.
fn lines(sheet: &[u8]) -> impl Iterator<Item = &[u8]> {
    sheet.split(|&byte| byte == b'\n')
}

/// The task that a line fits to a part, behind its place and its bytes.
fn fitted_task((at, line): (usize, &[u8])) -> Option<(usize, &[u8], &[u8])> {
    let name = line.strip_prefix(b"fit\t")?.split(|&byte| byte == b'\t');
    name.take(1).map(|name| (at, line, name)).next()
}

#[cfg(test)]
mod tests {
    use super::*;

    /// A sheet made on another system: the carriage return is what is wrong, and is to be seen.
    #[test]
    fn what_is_wrong_can_be_seen() {
        let message = refused(Refusal::new(8, 1), b"machine\t2\t1\r\n").message("s");
        assert!(
            message.contains("\n  machine⇥2⇥1\\r\n             ^^\n  a carriage return ends"),
            "{message}"
        );
        let message = refused(Refusal::new(8, 2), b"machine\t2\t1\ncost 0 0\n").message("s");
        assert!(message.contains("\n  cost 0 0\n  ^^^^^^^^\n"), "{message}");
        let message = refused(Refusal::new(8, 2), b"machine\t2\t1\n").message("s");
        assert!(message.contains("the `cost` line is missing"), "{message}");
    }

    #[test]
    fn a_long_line_is_cut_on_both_sides() {
        let sheet = format!("{}\t{}\tx\n", "a".repeat(300), "b".repeat(300));
        let line = Line::cut(1, sheet.as_bytes(), 301, 601);
        assert_eq!(line.before.chars().count(), SHOWN + 1);
        assert!(line.before.starts_with('…') && line.before.ends_with('⇥'));
        assert_eq!(line.fault, format!("{}…", "b".repeat(SHOWN)));
    }

    /// Any refusal over any bytes has a message of some length, with the refusal's number.
    #[test]
    fn nothing_is_too_odd() {
        let long = vec![0xff; 40_000];
        for sheet in [&b""[..], b"\n", b"fit\t", b"fit\tt", b"part\t\xff", &long] {
            for number in 0..=11 {
                for carries in [0, 1, 2, u32::MAX] {
                    let message = refused(Refusal::new(number, carries), sheet).message("s");
                    assert!(message.contains(&format!(": refused ({number}): ")));
                    assert!(message.chars().count() < 800, "{message}");
                }
            }
        }
    }
}
