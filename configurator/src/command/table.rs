//! A core as a table of text: a line `cost` with the nine constants, then a line for each piece,
//! its kind and x, D, T, J, P, M. It becomes the bytes that the library judges.

use super::files::{RECORDS_MOST, SHEET_MOST};
use crate::demand::lent;
use crate::quoted;
use crate::{Refusal, UnknownNumber};
use std::str;

/// The records and the costs of a table, as the library takes them.
///
/// # Errors
///
/// The first line that is not formed as it should be, with document 01's number 8.
///
/// ```
/// use configurator::command::table;
/// use configurator::{verdict, Answer, Refusal};
///
/// let k3 = b"cost\t0\t0\t0\t0\t0\t0\t0\t0\t0\nwhole\t5\t5\t10\t0\t0\t0\nwhole\t5\t5\t10\t0\t0\t0\n";
/// let (records, costs) = table::read(k3).unwrap();
/// assert_eq!(verdict(&records, &costs), Ok(Answer::Overloaded(9)));
/// assert_eq!(table::read(b"whole\t5\n"), Err(Refusal::new(8, 1)));
/// ```
pub fn read(table: &[u8]) -> Result<(Vec<u8>, Vec<u8>), Refusal> {
    let bad = |above: usize| Refusal::new(8, u32::try_from(above + 1).unwrap_or(u32::MAX));
    let mut lines: Vec<&[u8]> = table.split(|&byte| byte == b'\n').collect();
    let cut = lines.pop().unwrap_or_default();
    let mut costs = None;
    let mut records = Vec::new();
    for (above, line) in lines.iter().enumerate() {
        let (word, numbers) = numbers(line).ok_or_else(|| bad(above))?;
        match (above, word, numbers.len()) {
            (0, "cost", 9) => costs = Some(lent(&numbers)),
            (1.., _, 6) => {
                let kind = ["whole", "first", "last"].iter().position(|k| *k == word);
                let kind = kind.and_then(|kind| u32::try_from(kind).ok());
                records.extend(lent(&[kind.ok_or_else(|| bad(above))?]));
                records.extend(lent(&numbers));
            }
            _ => return Err(bad(above)),
        }
    }
    match costs {
        Some(costs) if cut.is_empty() => Ok((records, costs)),
        _ => Err(bad(lines.len())),
    }
}

/// What the library says about a table, asked on records and costs. A refusal carries the table's line: 2
/// the first, 3 the record's, 6 that of the first record that is one too many.
///
/// # Errors
///
/// The library answers a number that stands for nothing, which a proved library never does.
pub fn ask<T>(
    table: &[u8],
    library: impl Fn(&[u8], &[u8]) -> Result<Result<T, Refusal>, UnknownNumber>,
) -> Result<Result<T, Refusal>, UnknownNumber> {
    if table.len() > SHEET_MOST {
        return Ok(Err(Refusal::new(9, 0)));
    }
    let (records, costs) = match read(table) {
        Ok(core) => core,
        Err(refusal) => return Ok(Err(refusal)),
    };
    let answer = library(&records, &costs)?;
    Ok(answer.map_err(|refusal| {
        let line = match (refusal.number(), refusal.carries()) {
            (2, _) => 1,
            (3, record) => record + 1,
            (6, _) => u32::try_from(RECORDS_MOST + 2).unwrap_or(0),
            _ => 0,
        };
        Refusal::new(refusal.number(), line)
    }))
}

/// A line's first word and the numbers behind it.
fn numbers(line: &[u8]) -> Option<(&str, Vec<u32>)> {
    let mut fields = str::from_utf8(line).ok()?.split('\t');
    let word = fields.next()?;
    let numbers = fields.map(quoted::number).collect::<Option<Vec<_>>>()?;
    Some((word, numbers))
}
