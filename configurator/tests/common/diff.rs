//! The comparison of the library's two plans side by side with the oracle's or stated ones, over the C
//! boundary, and the count of what was compared.

use std::fmt;

use configurator::ffi::diff_listing;
use inputs::Random;
use plain::diff::{self, Refused};
use plain::verdict::Way;

use super::listings::shown;

/// Bytes before and behind a lent buffer, which are watched.
const MARGIN: usize = 24;

/// A text, or why there is none.
pub type Told = Result<Vec<u8>, Refused>;

/// Two sheets whose plans are asked for side by side.
#[derive(Clone, Copy)]
pub struct Asked<'a>(pub &'a [u8], pub &'a [u8]);

impl Asked<'_> {
    /// The oracle's answer.
    pub fn oracle(self, way: Way) -> Told {
        diff::of_sheets(self.0, self.1, way)
    }

    /// Compares the library with what is right, in a lent buffer of that length; where it is too short,
    /// also in one that is just long enough. Where they differ, says how.
    pub fn compare(self, right: &Told, length: usize) -> Result<(), String> {
        self.compare_in(right, length)?;
        match right {
            Ok(text) if length < text.len() => self.compare_in(right, text.len()),
            _ => Ok(()),
        }
    }

    /// The same in a buffer of that length alone, in the midst of bytes that are watched.
    fn compare_in(self, right: &Told, length: usize) -> Result<(), String> {
        let before = [self.0.to_vec(), self.1.to_vec()];
        let pattern: Vec<u8> = (0..length + 2 * MARGIN)
            .map(|place| (place * 37 % 251).to_le_bytes()[0])
            .collect();
        let (mut memory, mut expected) = (pattern.clone(), pattern);
        let number = diff_listing(self.0, self.1, &mut memory[MARGIN..MARGIN + length]);
        let answer = match right {
            Err(refused) => Err(*refused),
            Ok(text) if length < text.len() => {
                Err(Refused::Short(u32::try_from(text.len()).unwrap()))
            }
            Ok(text) => {
                expected[MARGIN..MARGIN + text.len()].copy_from_slice(text);
                Ok(text.len())
            }
        };
        let right = diff::number(answer);
        if number != right {
            let halves = |number| (number >> 32, number & u64::from(u32::MAX));
            let (ours, right) = (halves(number), halves(right));
            return Err(format!("in {length} bytes {ours:?}, but it is {right:?}"));
        }
        let written = MARGIN..MARGIN + answer.unwrap_or(0);
        if memory[written.clone()] != expected[written.clone()] {
            let (ours, right) = (shown(&memory[written.clone()]), shown(&expected[written]));
            return Err(format!("the library:\n{ours}what is right:\n{right}"));
        }
        if memory != expected {
            return Err(format!("in {length} bytes another byte is written"));
        }
        if [self.0, self.1] != [&before[0][..], &before[1][..]] {
            return Err("lent sheets are only read".to_owned());
        }
        Ok(())
    }
}

impl fmt::Display for Asked<'_> {
    fn fmt(&self, f: &mut fmt::Formatter<'_>) -> fmt::Result {
        write!(f, "{}and\n{}", shown(self.0), shown(self.1))
    }
}

/// What was compared, by the answer.
#[derive(Default)]
pub struct Tally {
    /// Told.
    pub told: u64,
    /// Of these, equal: the header alone.
    pub equal: u64,
    /// Of these, with a task that is only in the first plan, only in the second, with one that is in
    /// both, and with a piece of a split one.
    pub with: [u64; 4],
    /// Refused for the first sheet, and for the second, by the number.
    pub refused: [[u64; 11]; 2],
}

impl Tally {
    /// All of them.
    pub fn compared(&self) -> u64 {
        self.told + self.refused.iter().flatten().sum::<u64>()
    }

    /// Compares the library with the oracle, in a lent buffer of a length by chance: most are about as
    /// long as the text.
    pub fn asked(&mut self, asked: Asked, way: Way, random: &mut Random) -> Result<(), String> {
        let right = asked.oracle(way);
        let needed = right.as_ref().map_or(80, Vec::len);
        let by_chance = random.place(2 * needed);
        let length = random.pick(&[0, needed - 1, needed, needed, needed + 1, by_chance]);
        asked.compare(&right, length)?;
        self.count(&right);
        Ok(())
    }

    /// Counts an answer.
    pub fn count(&mut self, right: &Told) {
        let text = match right {
            Ok(text) => shown(text),
            Err(Refused::First(refusal)) => {
                self.refused[0][usize::from(refusal.number)] += 1;
                return;
            }
            Err(Refused::Second(refusal)) => {
                self.refused[1][usize::from(refusal.number)] += 1;
                return;
            }
            Err(Refused::Short(_)) => panic!("the text was asked for, not a buffer"),
        };
        self.told += 1;
        self.equal += u64::from(text.lines().count() == 1);
        let words = ["\nonly1\t", "\nonly2\t", "\nwas\t", "\tfirst\t"];
        for (times, word) in self.with.iter_mut().zip(words) {
            *times += u64::from(text.contains(word));
        }
    }
}

impl fmt::Display for Tally {
    fn fmt(&self, f: &mut fmt::Formatter<'_>) -> fmt::Result {
        let [only1, only2, both, split] = self.with;
        write!(
            f,
            "{} compared: {} told, {} of them equal; with tasks only in the first {only1}, only in the second {only2}, in both {both}, split {split}",
            self.compared(),
            self.told,
            self.equal,
        )?;
        for (side, refused) in ["first", "second"].iter().zip(&self.refused) {
            for (number, times) in refused.iter().enumerate().filter(|(_, &n)| n > 0) {
                write!(f, "; {times} refused with the {side}'s {number}")?;
            }
        }
        Ok(())
    }
}
