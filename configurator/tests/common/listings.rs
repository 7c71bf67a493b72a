//! The comparison of the library's listing with the oracle's or a stated one, and the count of what
//! was compared.

use std::fmt::{self, Write as _};

use configurator::{plan, Refusal};
use plain::listing;
use plain::verdict::Way;

use super::refusal;

/// The sheets compared, by what they were answered with.
#[derive(Default)]
pub struct Tally {
    /// Accepted.
    pub accepted: u64,
    /// Of these, with a split.
    pub with_split: u64,
    /// The splits of all of them.
    pub splits: u64,
    /// Refused, by the number.
    pub refused: [u64; 11],
}

impl Tally {
    /// All of them.
    pub fn compared(&self) -> u64 {
        self.accepted + self.refused.iter().sum::<u64>()
    }

    /// Compares the library with the oracle on a sheet.
    pub fn sheet(&mut self, sheet: &[u8], way: Way) -> Result<Vec<u8>, Refusal> {
        let expected = listing::of_sheet(sheet, way).map_err(refusal);
        self.stated(sheet, &expected, "as the oracle says");
        expected
    }

    /// Compares the library with what is right for a sheet.
    pub fn stated(&mut self, sheet: &[u8], expected: &Result<Vec<u8>, Refusal>, name: &str) {
        if let Err(why) = self.compare(sheet, expected) {
            panic!("{name}: {:?}\n{why}", shown(sheet));
        }
    }

    /// The same; where they differ, says how.
    pub fn compare(
        &mut self,
        sheet: &[u8],
        expected: &Result<Vec<u8>, Refusal>,
    ) -> Result<(), String> {
        let before = sheet.to_vec();
        let answer = plan(sheet).map_err(|unknown| unknown.to_string())?;
        if sheet != before {
            return Err("a lent sheet is only read".to_owned());
        }
        if &answer != expected {
            let told = |answer: &Result<Vec<u8>, Refusal>| match answer {
                Ok(listing) => shown(listing),
                Err(refusal) => format!("{refusal}\n"),
            };
            let (ours, right) = (told(&answer), told(expected));
            return Err(format!("the library:\n{ours}what is right:\n{right}"));
        }
        match answer {
            Ok(listing) => {
                let splits = splits(&listing);
                self.accepted += 1;
                self.with_split += u64::from(splits > 0);
                self.splits += splits;
            }
            Err(refusal) => self.refused[usize::from(refusal.number())] += 1,
        }
        Ok(())
    }
}

impl fmt::Display for Tally {
    fn fmt(&self, f: &mut fmt::Formatter<'_>) -> fmt::Result {
        write!(
            f,
            "{} compared: {} accepted, {} of them with a split, {} splits in all",
            self.compared(),
            self.accepted,
            self.with_split,
            self.splits
        )?;
        for (number, times) in self.refused.iter().enumerate().filter(|(_, &n)| n > 0) {
            write!(f, "; {times} refused with {number}")?;
        }
        Ok(())
    }
}

/// The split tasks of a listing: its last pieces.
fn splits(listing: &[u8]) -> u64 {
    let kind = |line: &[u8]| line.split(|&byte| byte == b'\t').nth(3) == Some(b"last");
    let lines = listing.split(|&byte| byte == b'\n');
    lines.filter(|line| kind(line)).count() as u64
}

/// Bytes as text, for a message that can be read.
pub fn shown(bytes: &[u8]) -> String {
    String::from_utf8_lossy(bytes).into_owned()
}

/// What a case's `.out` file states: `refusal`, its number and what it carries, or the text.
pub fn stated(out: Vec<u8>) -> Result<Vec<u8>, Refusal> {
    let text = shown(&out);
    let fields: Vec<&str> = text.trim_end_matches('\n').split('\t').collect();
    match fields[..] {
        ["refusal", number, carries] => Err(Refusal::new(
            number.parse().unwrap(),
            carries.parse().unwrap(),
        )),
        _ => Ok(out),
    }
}

/// The bytes of a text's lines, in which blanks stand for tabs.
pub fn text(lines: &str) -> Vec<u8> {
    let lines = lines.lines().map(|line| line.trim().replace(' ', "\t"));
    lines.map(|line| line + "\n").collect::<String>().into()
}

/// A sheet that is planned; once more the same task would have no room.
pub const GOOD: &str = "machine\t1\t1
cost\t0\t0\t0\t0\t0\t0\t0\t0\t0
part\tp\t6\t10\t10\t0\t0\t0
fit\tt\tp
";

/// Sheets that break a rule, with their refusals: each number but 7 and 10, which no rule for lines has.
pub fn broken_sheets() -> Vec<(Vec<u8>, Refusal)> {
    let mut many_tasks = GOOD
        .replace("\t6\t10\t10", "\t1\t100\t100")
        .replace("fit\tt\t", "fit\tt1\t");
    for place in 2..=66 {
        let _ = writeln!(many_tasks, "fit\tt{place}\tp");
    }
    let good = GOOD.to_owned();
    vec![
        ("\n".repeat(16_385).into(), Refusal::new(9, 0)),
        (Vec::new(), Refusal::new(8, 1)),
        (
            good.replace("machine\t1", "machine\t17").into(),
            Refusal::new(1, 1),
        ),
        (
            good.replace("\t0\n", "\t100001\n").into(),
            Refusal::new(2, 2),
        ),
        (
            good.replace("\t6\t10", "\t11\t10").into(),
            Refusal::new(3, 3),
        ),
        ((good.clone() + "fit\tt\tp\n").into(), Refusal::new(4, 5)),
        ((good.clone() + "fit\tu\tq\n").into(), Refusal::new(5, 5)),
        (many_tasks.into(), Refusal::new(6, 68)),
        (good.trim_end().into(), Refusal::new(8, 4)),
    ]
}
