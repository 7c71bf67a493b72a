//! The comparison of the library's reasons for a verdict with the oracle's or stated ones, and the count
//! of what was compared.

use std::fmt;

use configurator::{
    why_core, why_core_into, why_records, why_records_into, Listed, Refusal, UnknownNumber,
};
use inputs::Random;
use plain::verdict::Way;
use plain::{records, sheet, why};

use super::listings::shown;
use super::refusal;

/// Where the judged span has at most this many lengths, counted once for each piece, the oracle
/// looks at all of them.
const LOOKED_AT: u64 = 20_000;

/// Bytes before and behind a lent buffer, which are watched.
const MARGIN: usize = 24;

/// A text, or the refusal.
pub type Said = Result<Vec<u8>, Refusal>;

/// What is asked about: lent records and costs, or a sheet and a core of it.
#[derive(Clone, Copy)]
pub enum Asked<'a> {
    Records(&'a [u8], &'a [u8]),
    Core(&'a [u8], u64),
}

impl Asked<'_> {
    /// The library's answer.
    pub fn said(self) -> Result<Said, UnknownNumber> {
        match self {
            Asked::Records(records, costs) => why_records(records, costs),
            Asked::Core(sheet, core) => why_core(sheet, core),
        }
    }

    /// The library's answer in a lent buffer.
    pub fn into(self, out: &mut [u8]) -> Result<Listed, UnknownNumber> {
        match self {
            Asked::Records(records, costs) => why_records_into(records, costs, out),
            Asked::Core(sheet, core) => why_core_into(sheet, core, out),
        }
    }

    /// The oracle's answer; about records by every length, or by stretches where the span is long.
    pub fn oracle(self, way: Way) -> Said {
        let said = match self {
            Asked::Records(lent, costs) => {
                why::of_records(lent, costs, way_for(lent, costs).unwrap_or(way))
            }
            Asked::Core(sheet, core) => why::of_sheet(sheet, core, way),
        };
        said.map_err(refusal)
    }

    /// Compares the library with what is right: in a buffer of its own choice and in a lent one of that
    /// length, in the midst of bytes that are watched. Where they differ, says how.
    pub fn compare(self, right: &Said, length: usize) -> Result<(), String> {
        let before = self.lent();
        let said = self.said().map_err(|unknown| unknown.to_string())?;
        if &said != right {
            let (ours, right) = (told(&said), told(right));
            return Err(format!("the library:\n{ours}what is right:\n{right}"));
        }
        let pattern: Vec<u8> = (0..length + 2 * MARGIN)
            .map(|place| (place * 37 % 251).to_le_bytes()[0])
            .collect();
        let (mut memory, mut expected) = (pattern.clone(), pattern);
        let listed = self.into(&mut memory[MARGIN..MARGIN + length]);
        let listed = listed.map_err(|unknown| unknown.to_string())?;
        let right = match right {
            Err(refusal) => Listed::Refused(*refusal),
            Ok(text) if length < text.len() => {
                Listed::Refused(Refusal::new(10, u32::try_from(text.len()).unwrap()))
            }
            Ok(text) => {
                expected[MARGIN..MARGIN + text.len()].copy_from_slice(text);
                Listed::Written(text.len())
            }
        };
        if listed != right {
            return Err(format!("in {length} bytes {listed:?}, but it is {right:?}"));
        }
        if memory != expected {
            return Err(format!("in {length} bytes another byte is written"));
        }
        if self.lent() != before {
            return Err("what is lent is only read".to_owned());
        }
        Ok(())
    }

    /// A copy of the bytes that are lent for reading.
    fn lent(self) -> [Vec<u8>; 2] {
        match self {
            Asked::Records(records, costs) => [records.to_vec(), costs.to_vec()],
            Asked::Core(sheet, _) => [sheet.to_vec(), Vec::new()],
        }
    }
}

impl fmt::Display for Asked<'_> {
    fn fmt(&self, f: &mut fmt::Formatter<'_>) -> fmt::Result {
        match self {
            Asked::Records(lent, costs) => match records::read(lent, costs) {
                Ok(core) => write!(f, "{core:?}"),
                Err(_) => write!(f, "records {lent:?}, costs {costs:?}"),
            },
            Asked::Core(sheet, core) => write!(f, "core {core} of\n{}", shown(sheet)),
        }
    }
}

/// How the oracle looks at lent records, if they are not refused.
fn way_for(lent: &[u8], costs: &[u8]) -> Option<Way> {
    let core = records::read(lent, costs).ok()?;
    let busy = core.busy_length().unwrap_or(0);
    Some(if busy * core.pieces.len() as u64 <= LOOKED_AT {
        Way::EveryLength
    } else {
        Way::Stretches
    })
}

/// An answer for a message.
fn told(said: &Said) -> String {
    match said {
        Ok(text) => shown(text),
        Err(refusal) => format!("{refusal}\n"),
    }
}

/// A core to ask about: most are of the sheet's machine.
pub fn core_of(sheet: &[u8], random: &mut Random) -> u64 {
    let cores = sheet::read(sheet).map_or(2, |sheet| sheet.machine.cores);
    if random.once_in(12) {
        random.pick(&[0, cores + 1, 16, 17, 1 << 32, (1 << 32) + 1, u64::MAX])
    } else {
        random.between(1, cores)
    }
}

/// What was compared, by the answer.
#[derive(Default)]
pub struct Tally {
    /// Passes, with pieces.
    pub passes: u64,
    /// Overloaded.
    pub overloaded: u64,
    /// Undecided.
    pub undecided: u64,
    /// No pieces.
    pub empty: u64,
    /// Of all these, with no room.
    pub no_room: u64,
    /// Refused, by the number.
    pub refused: [u64; 11],
    /// A core that the machine doesn't have.
    pub no_core: u64,
}

impl Tally {
    /// All of them.
    pub fn compared(&self) -> u64 {
        self.told() + self.refused.iter().sum::<u64>() + self.no_core
    }

    /// Those that were told why.
    pub fn told(&self) -> u64 {
        self.passes + self.overloaded + self.undecided + self.empty
    }

    /// Compares the library with the oracle, in a lent buffer of a length by chance: most are about as
    /// long as the text.
    pub fn asked(&mut self, asked: Asked, way: Way, random: &mut Random) -> Said {
        let right = asked.oracle(way);
        self.right(asked, &right, random);
        right
    }

    /// Compares the library with what is right, in such a buffer.
    pub fn right(&mut self, asked: Asked, right: &Said, random: &mut Random) {
        if let Err(why) = self.compare(asked, right, random) {
            panic!("{asked}\n{why}");
        }
    }

    /// The same; where they differ, says how.
    pub fn compare(
        &mut self,
        asked: Asked,
        right: &Said,
        random: &mut Random,
    ) -> Result<(), String> {
        let needed = right.as_ref().map_or(80, Vec::len);
        let by_chance = random.place(2 * needed);
        let length = random.pick(&[0, needed - 1, needed, needed + 1, by_chance]);
        asked.compare(right, length)?;
        self.count(right);
        Ok(())
    }

    /// Counts an answer.
    pub fn count(&mut self, right: &Said) {
        let text = match right {
            Ok(text) => shown(text),
            Err(refusal) if *refusal == Refusal::new(1, 0) => {
                self.no_core += 1;
                return;
            }
            Err(refusal) => {
                self.refused[usize::from(refusal.number())] += 1;
                return;
            }
        };
        let (no_room, pieces) = (text.starts_with("noroom\t"), text.contains("\npiece\t"));
        let why = text.lines().nth(usize::from(no_room)).unwrap_or("");
        self.no_room += u64::from(no_room);
        match why.split('\t').nth(1) {
            Some("passes") if pieces => self.passes += 1,
            Some("passes") => self.empty += 1,
            Some("overloaded") => self.overloaded += 1,
            Some("undecided") => self.undecided += 1,
            _ => panic!("{text:?} names no verdict"),
        }
    }
}

impl fmt::Display for Tally {
    fn fmt(&self, f: &mut fmt::Formatter<'_>) -> fmt::Result {
        write!(
            f,
            "{} compared: {} passes, {} overloaded, {} undecided, {} empty; {} with no room",
            self.compared(),
            self.passes,
            self.overloaded,
            self.undecided,
            self.empty,
            self.no_room
        )?;
        for (number, times) in self.refused.iter().enumerate().filter(|(_, &n)| n > 0) {
            write!(f, "; {times} refused with {number}")?;
        }
        write!(f, "; {} without that core", self.no_core)
    }
}
