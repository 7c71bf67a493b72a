//! The verdict on a lent run of piece records, given as bytes: document 01, "Verdict on a core",
//! last paragraph.

use std::array;

use crate::demand::Core;
use crate::piece::{Costs, Kind, Piece};
use crate::refusal::Refusal;
use crate::verdict::{self, Verdict};

/// Bytes of one record: seven numbers of four.
pub const RECORD_BYTES: usize = 28;

/// Bytes of the costs: nine numbers of four.
pub const COST_BYTES: usize = 36;

/// The most records of a lent run.
pub const RECORDS_MOST: usize = 79;

/// The verdict on the core that the bytes spell, by looking at every length.
///
/// # Errors
///
/// As [`read`].
///
/// ```
/// use plain::records;
/// use plain::refusal::Refusal;
/// use plain::verdict::Verdict;
///
/// assert_eq!(records::judge(&[], &[0; 36]), Ok(Verdict::Passes));
/// assert_eq!(records::judge(&[0; 28], &[0; 36]), Err(Refusal::new(3, 1)));
/// ```
pub fn judge(records: &[u8], costs: &[u8]) -> Result<Verdict, Refusal> {
    read(records, costs).map(|core| verdict::by_every_length(&core))
}

/// The core that the bytes spell.
///
/// # Errors
///
/// The refusals in document 01's order: 8 by the lengths, 6 for an 80th record, 2 for a bad
/// constant, then 3 with the place, from 1, of the first record outside the sizes. Only 3 carries
/// anything.
pub fn read(records: &[u8], costs: &[u8]) -> Result<Core, Refusal> {
    if records.len() % RECORD_BYTES != 0 || costs.len() != COST_BYTES {
        return Err(Refusal::new(8, 0));
    }
    if records.len() / RECORD_BYTES > RECORDS_MOST {
        return Err(Refusal::new(6, 0));
    }
    let costs = Costs::from_numbers(numbers(costs));
    if !costs.sized() {
        return Err(Refusal::new(2, 0));
    }
    let mut pieces = Vec::new();
    for (place, record) in (1..).zip(records.chunks(RECORD_BYTES)) {
        match piece(numbers(record)) {
            Some(piece) if piece.sized() => pieces.push(piece),
            _ => return Err(Refusal::new(3, place)),
        }
    }
    Ok(Core { costs, pieces })
}

/// The piece of a record's numbers, whatever their sizes, if there is such a kind.
fn piece(record: [u64; 7]) -> Option<Piece> {
    let [kind, budget, window, period, jitter, preemption, migration] = record;
    let kind = match kind {
        0 => Kind::Whole,
        1 => Kind::First,
        2 => Kind::Last,
        _ => return None,
    };
    Some(Piece {
        kind,
        budget,
        window,
        period,
        jitter,
        preemption,
        migration,
    })
}

/// N numbers of four bytes each, lowest first.
fn numbers<const N: usize>(bytes: &[u8]) -> [u64; N] {
    array::from_fn(|i| {
        let number = &bytes[4 * i..4 * i + 4];
        number
            .iter()
            .rev()
            .fold(0, |above, &byte| above * 256 + u64::from(byte))
    })
}
