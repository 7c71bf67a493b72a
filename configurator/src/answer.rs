//! What the library's numbers mean. An answer is `2^32 · which + detail`, and this file is the one
//! place that takes it apart.
//!
//! | which | answer to `verdict` | detail |
//! |---|---|---|
//! | 0 | passes | 0 |
//! | 1 | overloaded | the length |
//! | 2 | undecided | 0 |
//! | 100 + N | refusal N | what it carries |
//!
//! | which | answer to `plan_listing`, `why_records`, `why_core` | detail |
//! |---|---|---|
//! | 0 | the text is written | its length |
//! | 100 + N | refusal N | what it carries |
//!
//! | which | answer to `diff_listing` | detail |
//! |---|---|---|
//! | 0 | the text is written | its length |
//! | 100 + N, N below 10 | refusal N of the first sheet | what it carries |
//! | 1100 + N, N below 10 | refusal N of the second sheet, where the first is accepted | what it carries |
//! | 110 | refusal 10, of no sheet: the buffer is too short | the length needed |
//!
//! What `demand_at` gives back is a plain number.

use crate::refusals;
use std::error::Error;
use std::fmt;

/// The answer to a verdict on lent records: document 01, "Verdict on a core".
#[derive(Clone, Copy, Debug, PartialEq, Eq)]
pub enum Answer {
    /// Every live length is good, without end.
    Passes,
    /// The greatest length of the judged span at which the demand is above the length. It can be 0.
    Overloaded(u64),
    /// No busy length up to the limit: within each length from 1 to 100,000,000 ticks more work comes than
    /// the length has ticks. It is no "maybe": such a core does not pass.
    Undecided,
    /// The records or the costs break a rule.
    Refused(Refusal),
}

impl Answer {
    /// The answer that a number of the library stands for.
    ///
    /// # Errors
    ///
    /// [`UnknownNumber`] if it stands for none.
    ///
    /// ```
    /// use configurator::{Answer, Refusal, UnknownNumber};
    ///
    /// assert_eq!(Answer::decode(0), Ok(Answer::Passes));
    /// assert_eq!(Answer::decode((1 << 32) + 9), Ok(Answer::Overloaded(9)));
    /// assert_eq!(Answer::decode(2 << 32), Ok(Answer::Undecided));
    /// assert_eq!(Answer::decode((103 << 32) + 2), Ok(Answer::Refused(Refusal::new(3, 2))));
    /// assert_eq!(Answer::decode(7), Err(UnknownNumber(7)));
    /// ```
    pub fn decode(number: u64) -> Result<Self, UnknownNumber> {
        let (which, detail) = halves(number);
        match (which, detail) {
            (0, 0) => Ok(Answer::Passes),
            (1, length) => Ok(Answer::Overloaded(u64::from(length))),
            (2, 0) => Ok(Answer::Undecided),
            _ => Refusal::decode(number).map(Answer::Refused),
        }
    }
}

impl fmt::Display for Answer {
    /// A sentence for people; a refusal's place is a record's.
    fn fmt(&self, f: &mut fmt::Formatter<'_>) -> fmt::Result {
        match self {
            Answer::Passes => write!(f, "passes: in no length of time is more work due than fits"),
            Answer::Overloaded(length) => write!(
                f,
                "overloaded at {length}: within {length} ticks more work is due than fits"
            ),
            Answer::Undecided => write!(
                f,
                "undecided: more work than time in every length up to 100,000,000 ticks; \
                 such a core does not pass, and no plan has one"
            ),
            Answer::Refused(refusal) => refusal.write(f, "record"),
        }
    }
}

/// What every answer to a text asked for in a lent buffer tells: how long the text is, or what is refused.
pub(crate) trait Text {
    /// A refusal, and whose it is if there is a choice.
    type Refused: Copy + Into<Refusal>;

    /// The text's length, where it is written.
    fn length(self) -> Result<usize, Self::Refused>;
}

/// The answer to a text asked for in a lent buffer, a sheet's listing or the reasons for a verdict:
/// document 01, "Sheet" and "Refusal numbers", and document 02, E1.
#[derive(Clone, Copy, Debug, PartialEq, Eq)]
pub enum Listed {
    /// The text stands in the buffer's first bytes, this many; those beyond it are as they were.
    Written(usize),
    /// What was lent breaks a rule, the walk of a listing sticks, or the buffer is too short. No byte
    /// is written.
    Refused(Refusal),
}

impl Listed {
    /// The answer that a number of the library stands for.
    ///
    /// # Errors
    ///
    /// [`UnknownNumber`] if it stands for none.
    ///
    /// ```
    /// use configurator::{Listed, Refusal, UnknownNumber};
    ///
    /// assert_eq!(Listed::decode(134), Ok(Listed::Written(134)));
    /// assert_eq!(Listed::decode((110 << 32) + 134), Ok(Listed::Refused(Refusal::new(10, 134))));
    /// assert_eq!(Listed::decode(1 << 32), Err(UnknownNumber(1 << 32)));
    /// ```
    pub fn decode(number: u64) -> Result<Self, UnknownNumber> {
        match halves(number) {
            (0, length) => usize::try_from(length)
                .map(Listed::Written)
                .map_err(|_| UnknownNumber(number)),
            _ => Refusal::decode(number).map(Listed::Refused),
        }
    }
}

impl Text for Listed {
    type Refused = Refusal;

    fn length(self) -> Result<usize, Refusal> {
        match self {
            Listed::Written(length) => Ok(length),
            Listed::Refused(refusal) => Err(refusal),
        }
    }
}

/// The answer to what moved between the plans of two sheets, asked for in a lent buffer: document 02,
/// E3.
#[derive(Clone, Copy, Debug, PartialEq, Eq)]
pub enum Compared {
    /// The text stands in the buffer's first bytes, this many; those beyond it are as they were.
    Written(usize),
    /// A sheet has no plan, or the buffer is too short. No byte is written.
    Refused(Whose, Refusal),
}

/// Whose refusal the answer to two sheets is.
#[derive(Clone, Copy, Debug, PartialEq, Eq)]
pub enum Whose {
    /// The first sheet's.
    First,
    /// The second sheet's; the first is accepted.
    Second,
    /// Of neither sheet: the buffer for the text is too short (10).
    Buffer,
}

impl Compared {
    /// What is added to `which` where the refusal is the second sheet's.
    const SECOND: u64 = 1_000;

    /// The answer that a number of the library stands for.
    ///
    /// # Errors
    ///
    /// [`UnknownNumber`] if it stands for none.
    ///
    /// ```
    /// use configurator::{Compared, Refusal, UnknownNumber, Whose};
    ///
    /// assert_eq!(Compared::decode(9), Ok(Compared::Written(9)));
    /// let refused = |whose, number, carries| Ok(Compared::Refused(whose, Refusal::new(number, carries)));
    /// assert_eq!(Compared::decode((107 << 32) + 3), refused(Whose::First, 7, 3));
    /// assert_eq!(Compared::decode((1107 << 32) + 3), refused(Whose::Second, 7, 3));
    /// assert_eq!(Compared::decode((110 << 32) + 9), refused(Whose::Buffer, 10, 9));
    /// assert_eq!(Compared::decode(1110 << 32), Err(UnknownNumber(1110 << 32)));
    /// ```
    pub fn decode(number: u64) -> Result<Self, UnknownNumber> {
        if let Some(second) = number.checked_sub(Self::SECOND << 32) {
            return match Refusal::decode(second) {
                // the buffer is no sheet's
                Ok(refusal) if refusal.number() < 10 => {
                    Ok(Compared::Refused(Whose::Second, refusal))
                }
                _ => Err(UnknownNumber(number)),
            };
        }
        Ok(match Listed::decode(number)? {
            Listed::Written(length) => Compared::Written(length),
            Listed::Refused(refusal) if refusal.number() == 10 => {
                Compared::Refused(Whose::Buffer, refusal)
            }
            Listed::Refused(refusal) => Compared::Refused(Whose::First, refusal),
        })
    }
}

impl Text for Compared {
    type Refused = (Whose, Refusal);

    fn length(self) -> Result<usize, (Whose, Refusal)> {
        match self {
            Compared::Written(length) => Ok(length),
            Compared::Refused(whose, refusal) => Err((whose, refusal)),
        }
    }
}

/// Why the planner refused, by document 01's number, with what the refusal carries.
///
/// ```
/// use configurator::Refusal;
///
/// assert_eq!(Refusal::new(7, 3).to_string(), "refused (7): no core has room for task 3");
/// assert_eq!(Refusal::new(4, 9).to_string(), "refused (4) at line 9: that name is already taken");
/// ```
#[derive(Clone, Copy, Debug, PartialEq, Eq)]
pub struct Refusal {
    number: u8,
    carries: u32,
}

impl Refusal {
    /// The greatest refusal number of document 01.
    pub const MOST: u8 = 10;

    /// The refusal of that number, with what it carries.
    #[must_use]
    pub const fn new(number: u8, carries: u32) -> Self {
        Refusal { number, carries }
    }

    /// The refusal that a number of the library stands for.
    ///
    /// # Errors
    ///
    /// [`UnknownNumber`] if it stands for none.
    ///
    /// ```
    /// use configurator::{Refusal, UnknownNumber};
    ///
    /// assert_eq!(Refusal::decode((107 << 32) + 3), Ok(Refusal::new(7, 3)));
    /// assert_eq!(Refusal::decode(100 << 32), Err(UnknownNumber(100 << 32)));
    /// assert_eq!(Refusal::decode(111 << 32), Err(UnknownNumber(111 << 32)));
    /// ```
    pub fn decode(number: u64) -> Result<Self, UnknownNumber> {
        let (which, carries) = halves(number);
        (1..=Self::MOST)
            .find(|&refusal| which == 100 + u32::from(refusal))
            .map(|refusal| Refusal::new(refusal, carries))
            .ok_or(UnknownNumber(number))
    }

    /// Document 01's number.
    #[must_use]
    pub const fn number(self) -> u8 {
        self.number
    }

    /// What it carries: a line, a record's or a task's place from 1, a length, or 0 for nothing.
    #[must_use]
    pub const fn carries(self) -> u32 {
        self.carries
    }

    /// What it means, by the table of refusals.
    ///
    /// ```
    /// use configurator::Refusal;
    ///
    /// assert_eq!(Refusal::new(7, 3).meaning(), "no core has room for task 3");
    /// ```
    #[must_use]
    pub fn meaning(self) -> String {
        match refusals::entry(self.number) {
            Some(entry) => entry.meaning.replace("{}", &self.carries.to_string()),
            None => "a rule that this program does not know".to_owned(),
        }
    }

    /// What to do, by the table of refusals.
    #[must_use]
    pub fn remedy(self) -> &'static str {
        refusals::entry(self.number).map_or("", |entry| entry.remedy)
    }

    /// The sentence for people, where a place that a rule is broken at is a `place`.
    fn write(self, f: &mut fmt::Formatter<'_>, place: &str) -> fmt::Result {
        write!(f, "refused ({})", self.number)?;
        let at_a_place = matches!(self.number, 1..=6 | 8);
        if at_a_place && self.carries > 0 {
            write!(f, " at {place} {}", self.carries)?;
        }
        write!(f, ": {}", self.meaning())
    }
}

impl fmt::Display for Refusal {
    /// A sentence for people; the place is a sheet's line.
    fn fmt(&self, f: &mut fmt::Formatter<'_>) -> fmt::Result {
        self.write(f, "line")
    }
}

impl From<(Whose, Refusal)> for Refusal {
    /// The refusal, whosever it is.
    fn from((_, refusal): (Whose, Refusal)) -> Self {
        refusal
    }
}

/// A number that stands for no answer.
#[derive(Clone, Copy, Debug, PartialEq, Eq)]
pub struct UnknownNumber(
    /// The number as the library gave it back.
    pub u64,
);

impl fmt::Display for UnknownNumber {
    fn fmt(&self, f: &mut fmt::Formatter<'_>) -> fmt::Result {
        write!(f, "the library gave back {}, which is no answer", self.0)
    }
}

impl Error for UnknownNumber {}

/// `which` and `detail` of a number: its upper and lower 32 bits.
fn halves(number: u64) -> (u32, u32) {
    let [b0, b1, b2, b3, b4, b5, b6, b7] = number.to_le_bytes();
    (
        u32::from_le_bytes([b4, b5, b6, b7]),
        u32::from_le_bytes([b0, b1, b2, b3]),
    )
}

#[cfg(test)]
mod tests {
    use super::*;

    /// The number of an answer, the other way round.
    fn encode(which: u64, detail: u32) -> u64 {
        which * (1 << 32) + u64::from(detail)
    }

    #[test]
    fn every_which_is_decoded_or_unknown() {
        for which in 0..300 {
            for detail in [0, 1, 79, u32::MAX] {
                let number = encode(which, detail);
                let expected = match (which, detail) {
                    (0, 0) => Ok(Answer::Passes),
                    (1, length) => Ok(Answer::Overloaded(u64::from(length))),
                    (2, 0) => Ok(Answer::Undecided),
                    (101..=110, carries) => {
                        let refusal = u8::try_from(which - 100).unwrap();
                        Ok(Answer::Refused(Refusal::new(refusal, carries)))
                    }
                    _ => Err(UnknownNumber(number)),
                };
                assert_eq!(Answer::decode(number), expected, "{which} {detail}");
            }
        }
        assert_eq!(Answer::decode(u64::MAX), Err(UnknownNumber(u64::MAX)));
    }

    #[test]
    fn every_which_of_a_listing_is_decoded_or_unknown() {
        for which in 0..300 {
            for detail in [0, 1, 5_699, u32::MAX] {
                let number = encode(which, detail);
                let expected = match which {
                    0 => Ok(Listed::Written(usize::try_from(detail).unwrap())),
                    101..=110 => {
                        let refusal = u8::try_from(which - 100).unwrap();
                        Ok(Listed::Refused(Refusal::new(refusal, detail)))
                    }
                    _ => Err(UnknownNumber(number)),
                };
                assert_eq!(Listed::decode(number), expected, "{which} {detail}");
            }
        }
        assert_eq!(Listed::decode(u64::MAX), Err(UnknownNumber(u64::MAX)));
    }

    #[test]
    fn every_which_of_two_sheets_is_decoded_or_unknown() {
        for which in (0..300).chain(900..1_300).chain(2_000..2_300) {
            for detail in [0, 1, 13_599, u32::MAX] {
                let number = encode(which, detail);
                let refused = |whose, above: u64| {
                    let refusal = u8::try_from(which - above).unwrap();
                    Ok(Compared::Refused(whose, Refusal::new(refusal, detail)))
                };
                let expected = match which {
                    0 => Ok(Compared::Written(usize::try_from(detail).unwrap())),
                    101..=109 => refused(Whose::First, 100),
                    110 => refused(Whose::Buffer, 100),
                    1_101..=1_109 => refused(Whose::Second, 1_100),
                    _ => Err(UnknownNumber(number)),
                };
                assert_eq!(Compared::decode(number), expected, "{which} {detail}");
            }
        }
        assert_eq!(Compared::decode(u64::MAX), Err(UnknownNumber(u64::MAX)));
    }

    #[test]
    fn sentences_name_the_place() {
        assert_eq!(
            Answer::Refused(Refusal::new(3, 2)).to_string(),
            "refused (3) at record 2: a time must be at most 1,000,000, a cache charge at most 100,000, and 1 ≤ C ≤ D ≤ T"
        );
        assert_eq!(
            Refusal::new(8, 1).to_string(),
            "refused (8) at line 1: not formed as it should be, or cut short"
        );
        assert_eq!(
            Refusal::new(10, 120).to_string(),
            "refused (10): the listing needs 120 bytes"
        );
        assert_eq!(
            Answer::Overloaded(0).to_string(),
            "overloaded at 0: within 0 ticks more work is due than fits"
        );
    }
}
