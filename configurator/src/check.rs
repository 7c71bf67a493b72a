//! All that is refused in a sheet, and not only the first. Every refusal is an answer of the library:
//! the first to the sheet itself, each other to the sheet with what was refused above it mended, so
//! that one mistake is told once.

use crate::explain::{no_room, refused_in, Explained};
use crate::forms::{name_fault, Text, SHEET_MOST};
use crate::mend::{self, Flaw};
use crate::misformed::everywhere;
use crate::UnknownNumber;
use std::collections::HashSet;

/// The refusals of a sheet, from the top. That there is no room (7) is told only of a sheet in which
/// nothing else is refused.
///
/// # Errors
///
/// The library answers a number that stands for nothing, which a proved library never does.
///
/// ```
/// let sheet = b"machine\t17\t1\ncost\t0\t0\t0\t0\t0\t0\t0\t0\t0\npart\tdrv\t6\t5\t10\t0\t0\t1
/// fit\tpress\tdrv\nfit\tpress\tdrv\n";
/// let told = configurator::check::refusals(sheet).unwrap();
/// let lines: Vec<usize> = told.iter().map(|told| told.line.as_ref().unwrap().number).collect();
/// assert_eq!(lines, [1, 3, 5]);
/// ```
pub fn refusals(sheet: &[u8]) -> Result<Vec<Explained>, UnknownNumber> {
    let (mut told, mut amended) = (Vec::new(), Amended::new(sheet));
    loop {
        let bytes = [&amended.good[..], &amended.rest].concat();
        let refusal = match crate::plan(&bytes)? {
            Err(refusal) => refusal,
            Ok(_) => return Ok(told),
        };
        let number = refusal.number();
        let at_a_line = matches!(number, 1..=6 | 8);
        if !at_a_line && !told.is_empty() {
            return Ok(told);
        }
        let numbers = |above| amended.number(above);
        let mut why = refused_in(Text::Sheet, refusal, &bytes, &numbers);
        why.no_room = no_room(refusal, &bytes)?;
        let above = usize::try_from(refusal.carries()).unwrap_or(0);
        let reached = at_a_line && amended.reach(above.saturating_sub(1));
        let known = reached && (amended.ours || number == 5 && amended.fits_gone());
        let flaw = why.flaw;
        if !known {
            told.push(why);
        }
        if !reached {
            return Ok(told);
        }
        amended.settle(number, flaw);
    }
}

/// A sheet with what was refused so far mended.
struct Amended {
    /// The lines down to the last one refused, all good by now.
    good: Vec<u8>,
    /// Their numbers in the file.
    numbers: Vec<usize>,
    /// The lines below them.
    rest: Vec<u8>,
    /// The number of the first of these.
    next: usize,
    /// It is one of ours: nothing in it but a name is the file's.
    ours: bool,
    /// The names of parts that had to be left out. Whoever fits them has made no mistake.
    gone: HashSet<Vec<u8>>,
}

impl Amended {
    fn new(sheet: &[u8]) -> Self {
        Amended {
            good: Vec::new(),
            numbers: Vec::new(),
            rest: sheet.to_vec(),
            next: 1,
            ours: false,
            gone: HashSet::new(),
        }
    }

    /// The number in the file of the line with so many lines above it.
    fn number(&self, above: usize) -> usize {
        let below = above.saturating_sub(self.numbers.len());
        let good = self.numbers.get(above).copied();
        good.unwrap_or(self.next + below)
    }

    /// Takes the lines above a refused one for good; whether there is such a line.
    fn reach(&mut self, above: usize) -> bool {
        while self.numbers.len() < above && !self.rest.is_empty() {
            let length = self.first_length();
            self.good.extend(self.rest.drain(..length));
            self.numbers.push(self.next);
            self.next += 1;
            self.ours = false;
        }
        self.numbers.len() == above && !self.rest.is_empty()
    }

    /// The length of the first line of the rest, its newline included.
    fn first_length(&self) -> usize {
        let newline = self.rest.iter().position(|&byte| byte == b'\n');
        newline.map_or(self.rest.len(), |newline| newline + 1)
    }

    /// The fields of the first line of the rest, as `fmt` would part them.
    fn fields(&self) -> Vec<Vec<u8>> {
        let line = &self.rest[..self.first_length()];
        let line = line.strip_suffix(b"\n").unwrap_or(line);
        let (mended, _) = mend::line(Text::Sheet, line);
        let fields = mended.split(|&byte| byte == b'\t');
        fields.map(<[u8]>::to_vec).collect()
    }

    /// Whether the first line of the rest fits a part that had to be left out.
    fn fits_gone(&self) -> bool {
        let part = self.fields().into_iter().nth(2);
        part.map_or(false, |part| self.gone.contains(&part))
    }

    /// Mends the first line of the rest, which was refused with that number, so that the next answer is
    /// about another, or about something else in this one.
    fn settle(&mut self, number: u8, flaw: Option<Flaw>) {
        match flaw {
            Some(flaw) => self.mend(flaw),
            None if self.ours || matches!(number, 4 | 6) => self.leave_out(),
            None if self.numbers.len() < 2 => self.put_head(),
            None => match self.harmless() {
                Some(line) => self.put(&line),
                None => self.leave_out(),
            },
        }
    }

    /// Does what `fmt` does about a flaw: in this line, or where all below have it too in all of them.
    fn mend(&mut self, flaw: Flaw) {
        let (decoded, of_file) = mend::decoded(&self.rest);
        let (line, below) = self.rest.split_at(self.first_length());
        let line = line.strip_suffix(b"\n").unwrap_or(line);
        if self.numbers.is_empty() && !of_file.is_empty() {
            self.rest = decoded.into_owned();
        } else if flaw == Flaw::Empty {
            self.leave_out();
        } else if everywhere(flaw, Text::Sheet, below) {
            let lines = self.rest.split(|&byte| byte == b'\n');
            let lines: Vec<Vec<u8>> = lines.map(|line| flaw.off(Text::Sheet, line)).collect();
            self.rest = lines.join(&b'\n');
        } else {
            let (line, _) = mend::line(Text::Sheet, line);
            self.rest = [&line, &b"\n"[..], below].concat();
        }
    }

    /// Sees that a line of ours stands where `machine` or `cost` should. What stands there is left out
    /// if the right line follows, and kept if it is a line that belongs further below.
    fn put_head(&mut self) {
        let (wanted, line) = match self.numbers.len() {
            0 => ("machine", &b"machine\t16\t1\n"[..]),
            _ => ("cost", &b"cost\t0\t0\t0\t0\t0\t0\t0\t0\t0\n"[..]),
        };
        let words: Vec<_> = words_of(&self.rest).take(2).collect();
        match words[0] {
            Some(word) if word != wanted => {
                self.good.extend(line);
                self.numbers.push(self.next);
            }
            None if words[1..] == [Some(wanted)] => self.leave_out(),
            _ => self.put(line),
        }
    }

    /// A line that keeps the name of a part or a task, and breaks no rule by itself. A line of
    /// another word is taken for the one whose number of fields it has.
    fn harmless(&self) -> Option<Vec<u8>> {
        let fields = self.fields();
        let name = fields.get(1).filter(|name| name_fault(name).is_none())?;
        let has = |lines, wanted| words_of(lines).any(|word| word == Some(wanted));
        match (words_of(&self.rest).next().flatten(), fields.len()) {
            (Some("part"), _) | (None, 8) if !has(&self.good, "fit") => {
                Some([b"part\t", &name[..], b"\t1\t1\t1\t0\t0\t0\n"].concat())
            }
            (Some("fit"), _) | (None, 3) if !has(&self.rest, "part") => {
                let mut good = self.good.split(|&byte| byte == b'\n');
                let part = good.find_map(|line| line.strip_prefix(b"part\t"))?;
                let part = part.split(|&byte| byte == b'\t').next()?;
                Some([b"fit\t", &name[..], b"\t", part, b"\n"].concat())
            }
            _ => None,
        }
    }

    /// Puts a line of ours in the place of the first of the rest, unless the sheet gets too long by it.
    fn put(&mut self, line: &[u8]) {
        let length = self.first_length();
        if self.good.len() + self.rest.len() - length + line.len() > SHEET_MOST {
            self.leave_out();
        } else {
            self.rest.splice(..length, line.iter().copied());
            self.ours = true;
        }
    }

    fn leave_out(&mut self) {
        if let [word, name, _, ..] = &self.fields()[..] {
            if word == b"part" {
                self.gone.insert(name.clone());
            }
        }
        self.rest.drain(..self.first_length());
        self.next += 1;
        self.ours = false;
    }
}

/// The first word of each line, if it is a sheet's.
fn words_of(lines: &[u8]) -> impl Iterator<Item = Option<&'static str>> + '_ {
    let lines = lines.split(|&byte| byte == b'\n');
    lines.map(|line| {
        let mut words = line.split(u8::is_ascii_whitespace);
        let word = words.find(|word| !word.is_empty())?;
        Some(Text::Sheet.form_of(word)?.word)
    })
}
