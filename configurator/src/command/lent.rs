//! What is wrong with the bytes that a verdict was asked on. The refusal is the library's; which of the
//! two files it is about is found by asking the library about each alone.

use super::files::{Lent, COSTS, RECORD, RECORDS_MOST};
use super::show::counted;
use crate::fault::{broken_cost, broken_times};
use crate::forms::Text;
use crate::{verdict, Answer, Refusal, UnknownNumber};

/// What is wrong with one of the files.
#[derive(Clone, Debug, PartialEq, Eq)]
pub struct Wrong {
    /// It is the costs, and else the records.
    pub costs: bool,
    /// How it is wrong.
    pub why: String,
    /// What to do.
    pub remedy: String,
}

/// What is wrong with the files for which the library gave a refusal: with one of them, and with both
/// only where both break the rules of length.
///
/// # Errors
///
/// The library answers a number that stands for nothing, which a proved library never does.
pub fn wrong(refusal: Refusal, records: &Lent, costs: &Lent) -> Result<Vec<Wrong>, UnknownNumber> {
    let remedy = refusal.remedy().to_owned();
    let told = |costs, why, remedy| Ok(vec![Wrong { costs, why, remedy }]);
    match refusal.number() {
        8 => lengths(records, costs),
        2 => {
            let why = broken_cost(&numbers(&costs.bytes)).map_or_else(String::new, |(_, why)| why);
            let remedy = "correct that constant; it counts ticks, as all times do".to_owned();
            told(true, why, remedy)
        }
        3 => {
            let record = usize::try_from(refusal.carries()).unwrap_or(usize::MAX);
            let (why, mended) = in_record(records, record.saturating_sub(1));
            let remedy = mended.map_or(remedy, str::to_owned);
            told(false, format!("record {record}: {why}"), remedy)
        }
        _ => {
            let has = match records.length {
                Some(length) => {
                    let records = usize::try_from(length / RECORD as u64).unwrap_or(usize::MAX);
                    counted(records, "record")
                }
                None => format!("more than {} records", RECORDS_MOST + 1),
            };
            let remedy = "share the pieces out over two cores".to_owned();
            told(false, format!("{has}, {RECORDS_MOST} at most"), remedy)
        }
    }
}

/// What is wrong in the record with so many above it, and what to do if that is no matter of times.
fn in_record(records: &Lent, above: usize) -> (String, Option<&'static str>) {
    let numbers = numbers(&records.bytes);
    let record: Vec<u32> = numbers.chunks(7).nth(above).unwrap_or_default().to_vec();
    match record.split_first() {
        Some((&kind, _)) if kind > 2 => (
            format!("kind {kind}, where 0 (whole), 1 (first) or 2 (last) should stand"),
            Some("correct the kind, the record's first number"),
        ),
        Some((_, times)) => {
            let broken = broken_times(Text::Table.times(), times);
            (broken.map_or_else(String::new, |(_, why)| why), None)
        }
        None => (String::new(), None),
    }
}

/// The files whose length the library refuses.
fn lengths(records: &Lent, costs: &Lent) -> Result<Vec<Wrong>, UnknownNumber> {
    let refused = |records: &[u8], costs: &[u8]| {
        let answer = verdict(records, costs)?;
        Ok(matches!(answer, Answer::Refused(refusal) if refusal.number() == 8))
    };
    let behind = costs.length.unwrap_or(1) % RECORD as u64;
    let behind = usize::try_from(behind).unwrap_or(1);
    let swapped = !refused(&vec![0; behind], &records.bytes)?;
    let remedy = |remedy: &'static str| {
        let change = "RECORDS stands first, then COSTS; the two files seem to have changed places";
        if swapped { change } else { remedy }.to_owned()
    };
    let bytes = |lent: &Lent, most: usize| match lent.length {
        Some(1) => "1 byte".to_owned(),
        Some(length) => format!("{length} bytes"),
        None => format!("more than {most} bytes"),
    };
    let mut wrong = Vec::new();
    if refused(&records.bytes, &[0; COSTS])? {
        let has = bytes(records, records.bytes.len());
        wrong.push(Wrong {
            costs: false,
            why: format!("{has} is no multiple of {RECORD}"),
            remedy: remedy("RECORDS has seven numbers of four bytes for each piece"),
        });
    }
    if refused(&[], &costs.bytes)? {
        wrong.push(Wrong {
            costs: true,
            why: format!("{}, {COSTS} needed", bytes(costs, COSTS)),
            remedy: remedy("COSTS has nine numbers of four bytes"),
        });
    }
    Ok(wrong)
}

/// Numbers of four bytes, lowest first.
fn numbers(bytes: &[u8]) -> Vec<u32> {
    let number = |four: &[u8]| Some(u32::from_le_bytes(four.try_into().ok()?));
    bytes.chunks(4).filter_map(number).collect()
}
