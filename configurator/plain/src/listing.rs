//! A plan as text: document 01, "Sheet", the listing.

use std::collections::BTreeSet;

use crate::piece::Kind;
use crate::refusal::Refusal;
use crate::sheet::{self, Sheet};
use crate::verdict::Way;
use crate::walk::{walk, Plan};

/// The listing of a plan of what the sheet says.
#[must_use]
pub fn of_plan(sheet: &Sheet, plan: &Plan) -> Vec<u8> {
    let placed: Vec<_> = plan.rows.iter().flatten().collect();
    let tasks: BTreeSet<usize> = placed.iter().map(|placed| placed.task).collect();
    let mut text = format!("plan\t{}\t{}\n", tasks.len(), placed.len()).into_bytes();
    for (core, row) in (1..).zip(&plan.rows) {
        for placed in row {
            let piece = &placed.piece;
            let kind = kind_word(piece.kind);
            text.extend(format!("piece\t{core}\t").bytes());
            text.extend(&sheet.tasks[placed.task].name);
            let (budget, window, jitter) = (piece.budget, piece.window, piece.jitter);
            let charge = piece.charge(&sheet.costs);
            text.extend(format!("\t{kind}\t{budget}\t{window}\t{jitter}\t{charge}\n").bytes());
        }
    }
    text
}

/// A kind's word.
#[must_use]
pub fn kind_word(kind: Kind) -> &'static str {
    match kind {
        Kind::Whole => "whole",
        Kind::First => "first",
        Kind::Last => "last",
    }
}

/// From the bytes of a sheet to those of its listing.
///
/// # Errors
///
/// The sheet's refusal, or 7.
pub fn of_sheet(bytes: &[u8], way: Way) -> Result<Vec<u8>, Refusal> {
    let sheet = sheet::read(bytes)?;
    let plan = walk(&sheet, way)?;
    Ok(of_plan(&sheet, &plan))
}

/// What a lent buffer holds after the listing was asked for, and the listing's length.
///
/// # Errors
///
/// The sheet's refusal, 7, or 10 with the length needed; the buffer then stays as it is.
pub fn write(bytes: &[u8], buffer: &mut [u8], way: Way) -> Result<usize, Refusal> {
    put(&of_sheet(bytes, way)?, buffer)
}

/// Puts a text in a lent buffer's first bytes, and gives its length.
///
/// # Errors
///
/// 10 with the length needed; the buffer then stays as it is.
pub fn put(text: &[u8], buffer: &mut [u8]) -> Result<usize, Refusal> {
    let needed = u32::try_from(text.len()).unwrap_or(u32::MAX);
    let too_short = Refusal::new(10, needed);
    let lent = buffer.get_mut(..text.len()).ok_or(too_short)?;
    lent.copy_from_slice(text);
    Ok(text.len())
}
