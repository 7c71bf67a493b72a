//! The configurator: the Rust front end of the C=D planner of document 01.
//!
//! The planner itself is proved and written in Rattle; this package calls it and tests it.
//!
//! - [`plan`]: from a timing sheet's bytes to its listing's, or the [`Refusal`]. [`plan_into`] is
//!   the same in a lent buffer.
//! - [`verdict`]: the verdict on one core, asked on lent bytes and decoded into an [`Answer`].
//! - [`why_records`], [`why_core`]: the reasons for a verdict, as text; [`demand_at`]: what is asked of
//!   a core within a length of time.
//! - [`diff`](fn@diff): what moved between the plans of two sheets, as text, or whose [`Refusal`] it is.
//!   [`diff_into`] is the same in a lent buffer.
//! - [`ffi`]: the C functions of the library, the only place with `unsafe`.
//! - [`answer`]: what the library's numbers mean, and the sentences for them.
//! - [`refusals`]: the table of refusals, each with what it means and what to do.
//! - [`explain`]: a refused sheet's sentences, with the words of the sheet that they are about, which
//!   [`fault`] finds; [`check`]: all that is refused in a sheet.
//! - [`forms`]: the forms of lines; [`mend`]: what can be mended in a text without touching a word.
//! - [`text`]: bytes as text for people.
//! - [`listing`], [`why`], [`mod@diff`], [`quoted`]: the lines of a listing, of a why listing, of what moved
//!   and of an accepted sheet, for tables and drawings; [`demand`]: a core's demand, for drawings.
//! - [`origin`]: what a paper came from.
//! - [`command`]: the command for people.
//!
//! Document 01's sheet, three drives of six ticks in ten on two cores, and its listing:
//!
//! ```
//! let sheet = b"machine\t2\t1
//! cost\t0\t0\t0\t0\t0\t0\t0\t0\t0
//! part\tdrv-a\t6\t10\t10\t0\t0\t1
//! fit\tpress\tdrv-a
//! fit\tfeed\tdrv-a
//! fit\tweld\tdrv-a
//! ";
//! let listing = b"plan\t3\t4
//! piece\t1\tpress\twhole\t6\t10\t0\t6
//! piece\t1\tfeed\tfirst\t4\t4\t0\t4
//! piece\t2\tfeed\tlast\t2\t6\t0\t3
//! piece\t2\tweld\twhole\t6\t10\t0\t6
//! ";
//! assert_eq!(configurator::plan(sheet), Ok(Ok(listing.to_vec())));
//! ```
//!
//! Document 01's K3, two pieces of budget 5, window 5 and period 10 on one core without costs:
//!
//! ```
//! use configurator::{verdict, Answer};
//!
//! let record: Vec<u8> = [0u32, 5, 5, 10, 0, 0, 0].iter().flat_map(|n| n.to_le_bytes()).collect();
//! let records = [record.clone(), record].concat();
//! assert_eq!(verdict(&records, &[0; 36]), Ok(Answer::Overloaded(9)));
//! ```

#![deny(missing_docs)]
#![deny(unsafe_code)]
#![deny(unsafe_op_in_unsafe_fn)]
#![deny(clippy::undocumented_unsafe_blocks)]
#![warn(clippy::all, clippy::pedantic)]

pub mod answer;
pub mod check;
pub mod command;
pub mod demand;
pub mod diff;
pub mod explain;
pub mod fault;
pub mod ffi;
pub mod forms;
pub mod listing;
pub mod mend;
mod misformed;
pub mod origin;
pub mod quoted;
pub mod refusals;
pub mod text;
pub mod why;

pub use answer::{Answer, Compared, Listed, Refusal, UnknownNumber, Whose};
pub use ffi::demand_at;

use answer::Text;

/// The verdict of the proved library on a lent run of piece records: document 01, "Verdict on a
/// core".
///
/// Four bytes a number, lowest first; seven numbers a record (kind 0, 1, 2 for whole, first, last,
/// then x, D, T, J, P, M) and nine costs in the sheet's order. Any bytes may be given: the library
/// refuses what breaks a rule.
///
/// # Errors
///
/// [`UnknownNumber`] if the library gives back a number that stands for no answer, which a proved
/// library never does.
///
/// ```
/// use configurator::{verdict, Answer, Refusal};
///
/// assert_eq!(verdict(&[], &[0; 36]), Ok(Answer::Passes));
/// assert_eq!(verdict(&[0; 27], &[0; 36]), Ok(Answer::Refused(Refusal::new(8, 0))));
/// ```
pub fn verdict(records: &[u8], costs: &[u8]) -> Result<Answer, UnknownNumber> {
    Answer::decode(ffi::verdict(records, costs))
}

/// The listing of a sheet by the proved library, or the refusal. Any bytes may be given.
///
/// # Errors
///
/// [`UnknownNumber`] if the library gives back a number that stands for no answer, which a proved
/// library never does.
///
/// ```
/// use configurator::{plan, Refusal};
///
/// let sheet = b"machine\t1\t1\ncost\t0\t0\t0\t0\t0\t0\t0\t0\t0\n";
/// assert_eq!(plan(sheet), Ok(Ok(b"plan\t0\t0\n".to_vec())));
/// assert_eq!(plan(b"machine\t17\t1\n"), Ok(Err(Refusal::new(1, 1))));
/// ```
pub fn plan(sheet: &[u8]) -> Result<Result<Vec<u8>, Refusal>, UnknownNumber> {
    // the longest listing, 79 lines of 72 bytes and the header, has 5,699
    text_from(BUFFER, |buffer| plan_into(sheet, buffer))
}

/// The length of the buffer that is tried first.
const BUFFER: usize = 8_192;

/// A text that the library writes, by a buffer of that length first. Where it is too short, the one
/// tried next has the length needed, which a refusal 10 carries.
fn text_from<A: Text>(
    length: usize,
    write: impl Fn(&mut [u8]) -> Result<A, UnknownNumber>,
) -> Result<Result<Vec<u8>, A::Refused>, UnknownNumber> {
    let mut text = vec![0; length];
    let mut written = write(&mut text)?.length();
    let refusal: Option<Refusal> = written.err().map(Into::into);
    if let Some(short) = refusal.filter(|refusal| refusal.number() == 10) {
        text.resize(usize::try_from(short.carries()).unwrap_or(length), 0);
        written = write(&mut text)?.length();
    }
    Ok(written.map(|length| {
        text.truncate(length);
        text
    }))
}

/// The listing of a sheet by the proved library, written into a lent buffer. Any bytes may be given
/// and the buffer may have any length: where it is too short, it is refused with 10 and the length
/// needed.
///
/// # Errors
///
/// [`UnknownNumber`] if the library gives back a number that stands for no answer, which a proved
/// library never does.
///
/// ```
/// use configurator::{plan_into, Listed, Refusal};
///
/// let sheet = b"machine\t1\t1\ncost\t0\t0\t0\t0\t0\t0\t0\t0\t0\n";
/// let mut buffer = [b'.'; 12];
/// assert_eq!(plan_into(sheet, &mut buffer[..8]), Ok(Listed::Refused(Refusal::new(10, 9))));
/// assert_eq!(&buffer, b"............");
/// assert_eq!(plan_into(sheet, &mut buffer), Ok(Listed::Written(9)));
/// assert_eq!(&buffer, b"plan\t0\t0\n...");
/// ```
pub fn plan_into(sheet: &[u8], listing: &mut [u8]) -> Result<Listed, UnknownNumber> {
    Listed::decode(ffi::plan_listing(sheet, listing))
}

/// The reasons for the proved library's verdict on a lent run of piece records, or the refusal:
/// document 02, E1. `docs/LISTINGS.md` has the form of the text. Any bytes may be given, as for
/// [`verdict`].
///
/// # Errors
///
/// [`UnknownNumber`] if the library gives back a number that stands for no answer, which a proved
/// library never does.
///
/// ```
/// use configurator::{why_records, Refusal};
///
/// // document 01's K7, overloaded at 11 by one tick
/// let lent = |numbers: &[u32]| numbers.iter().flat_map(|n| n.to_le_bytes()).collect::<Vec<u8>>();
/// let records = lent(&[0, 8, 10, 50, 0, 0, 0, 0, 1, 12, 50, 0, 0, 0]);
/// let costs = lent(&[0, 0, 0, 4, 0, 0, 0, 0, 0]);
/// let text = b"why\toverloaded\t11\t4
/// piece\t1\twhole\t1\t8\t0
/// piece\t2\twhole\t0\t0\t0
/// total\t12
/// slack\t-1
/// ";
/// assert_eq!(why_records(&records, &costs), Ok(Ok(text.to_vec())));
/// assert_eq!(why_records(&records[1..], &costs), Ok(Err(Refusal::new(8, 0))));
/// ```
pub fn why_records(
    records: &[u8],
    costs: &[u8],
) -> Result<Result<Vec<u8>, Refusal>, UnknownNumber> {
    // the longest text, 79 lines of 55 bytes and three others, has less than 4,500
    text_from(BUFFER, |buffer| why_records_into(records, costs, buffer))
}

/// The same, written into a lent buffer, which may have any length: where it is too short, it is
/// refused with 10 and the length needed.
///
/// # Errors
///
/// [`UnknownNumber`] if the library gives back a number that stands for no answer, which a proved
/// library never does.
///
/// ```
/// use configurator::{why_records_into, Listed, Refusal};
///
/// let mut buffer = [b'.'; 17];
/// let short = why_records_into(&[], &[0; 36], &mut buffer[..14]);
/// assert_eq!(short, Ok(Listed::Refused(Refusal::new(10, 15))));
/// assert_eq!(&buffer, b".................");
/// assert_eq!(why_records_into(&[], &[0; 36], &mut buffer), Ok(Listed::Written(15)));
/// assert_eq!(&buffer, b"why\tpasses\t0\t0\n..");
/// ```
pub fn why_records_into(
    records: &[u8],
    costs: &[u8],
    out: &mut [u8],
) -> Result<Listed, UnknownNumber> {
    Listed::decode(ffi::why_records(records, costs, out))
}

/// The reasons for the proved library's verdict on a core, from 1, of a sheet's plan, or the refusal:
/// document 02, E1. Where the walk sticks, the text is about the last core with the stuck task added,
/// whichever core was asked for. Any bytes and any number may be given: a core that the sheet's
/// machine does not have is refused with 1 and carries 0.
///
/// # Errors
///
/// [`UnknownNumber`] if the library gives back a number that stands for no answer, which a proved
/// library never does.
///
/// ```
/// use configurator::{why_core, Refusal};
///
/// // two drives of six ticks in ten have no room on one core
/// let sheet = b"machine\t1\t1
/// cost\t0\t0\t0\t0\t0\t0\t0\t0\t0
/// part\tdrv-a\t6\t10\t10\t0\t0\t1
/// fit\tpress\tdrv-a
/// fit\tfeed\tdrv-a
/// ";
/// let text = b"noroom\t2\tfeed\t1
/// why\tundecided\t100000000\t0
/// piece\tpress\twhole\t10000000\t60000000\t0
/// piece\tfeed\twhole\t10000000\t60000000\t0
/// total\t120000000
/// slack\t-20000000
/// ";
/// assert_eq!(why_core(sheet, 1), Ok(Ok(text.to_vec())));
/// assert_eq!(why_core(sheet, 2), Ok(Err(Refusal::new(1, 0))));
/// ```
pub fn why_core(sheet: &[u8], core: u64) -> Result<Result<Vec<u8>, Refusal>, UnknownNumber> {
    // the longest text, 64 lines of 77 bytes and four others, has less than 5,100
    text_from(BUFFER, |buffer| why_core_into(sheet, core, buffer))
}

/// The same, written into a lent buffer, which may have any length: where it is too short, it is
/// refused with 10 and the length needed.
///
/// # Errors
///
/// [`UnknownNumber`] if the library gives back a number that stands for no answer, which a proved
/// library never does.
///
/// ```
/// use configurator::{why_core_into, Listed, Refusal};
///
/// let sheet = b"machine\t1\t1\ncost\t0\t0\t0\t0\t0\t0\t0\t0\t0\n";
/// let mut buffer = [b'.'; 17];
/// let short = why_core_into(sheet, 1, &mut buffer[..14]);
/// assert_eq!(short, Ok(Listed::Refused(Refusal::new(10, 15))));
/// assert_eq!(&buffer, b".................");
/// assert_eq!(why_core_into(sheet, 1, &mut buffer), Ok(Listed::Written(15)));
/// assert_eq!(&buffer, b"why\tpasses\t0\t0\n..");
/// ```
pub fn why_core_into(sheet: &[u8], core: u64, out: &mut [u8]) -> Result<Listed, UnknownNumber> {
    Listed::decode(ffi::why_core(sheet, core, out))
}

/// What moved from the plan of one sheet to the plan of another by the proved library, or whose refusal
/// it is: document 02, E3. The text has the pieces of every task that only one of the plans has, or that
/// has other pieces in each. Any bytes may be given.
///
/// # Errors
///
/// [`UnknownNumber`] if the library gives back a number that stands for no answer, which a proved
/// library never does.
///
/// Document 01's sheet, and the same with a lighter drive for `feed`. Then `weld` is the one that is
/// split:
///
/// ```
/// use configurator::{diff, Refusal, Whose};
///
/// let sheet = b"machine\t2\t1
/// cost\t0\t0\t0\t0\t0\t0\t0\t0\t0
/// part\tdrv-a\t6\t10\t10\t0\t0\t1
/// fit\tpress\tdrv-a
/// fit\tfeed\tdrv-a
/// fit\tweld\tdrv-a
/// ";
/// let other = b"machine\t2\t1
/// cost\t0\t0\t0\t0\t0\t0\t0\t0\t0
/// part\tdrv-a\t6\t10\t10\t0\t0\t1
/// part\tdrv-b\t4\t10\t10\t0\t0\t1
/// fit\tpress\tdrv-a
/// fit\tfeed\tdrv-b
/// fit\tweld\tdrv-a
/// ";
/// let text = b"diff\t3\t3
/// was\tfeed\t1\tfirst\t4\t4\t10\t0\t0\t1
/// was\tfeed\t2\tlast\t2\t6\t10\t0\t0\t1
/// now\tfeed\t2\twhole\t4\t10\t10\t0\t0\t1
/// was\tweld\t2\twhole\t6\t10\t10\t0\t0\t1
/// now\tweld\t1\tfirst\t4\t4\t10\t0\t0\t1
/// now\tweld\t2\tlast\t2\t6\t10\t0\t0\t1
/// ";
/// assert_eq!(diff(sheet, other), Ok(Ok(text.to_vec())));
/// assert_eq!(diff(sheet, sheet), Ok(Ok(b"diff\t3\t3\n".to_vec())));
/// assert_eq!(diff(sheet, b""), Ok(Err((Whose::Second, Refusal::new(8, 1)))));
/// ```
pub fn diff(
    sheet1: &[u8],
    sheet2: &[u8],
) -> Result<Result<Vec<u8>, (Whose, Refusal)>, UnknownNumber> {
    // the longest text, two times 79 lines of 86 bytes and the header, has less than 13,600
    text_from(2 * BUFFER, |buffer| diff_into(sheet1, sheet2, buffer))
}

/// The same, written into a lent buffer, which may have any length: where it is too short, it is
/// refused with 10 and the length needed, which is neither sheet's refusal.
///
/// # Errors
///
/// [`UnknownNumber`] if the library gives back a number that stands for no answer, which a proved
/// library never does.
///
/// ```
/// use configurator::{diff_into, Compared, Refusal, Whose};
///
/// let sheet = b"machine\t1\t1\ncost\t0\t0\t0\t0\t0\t0\t0\t0\t0\n";
/// let mut buffer = [b'.'; 12];
/// let short = diff_into(sheet, sheet, &mut buffer[..8]);
/// assert_eq!(short, Ok(Compared::Refused(Whose::Buffer, Refusal::new(10, 9))));
/// assert_eq!(&buffer, b"............");
/// assert_eq!(diff_into(sheet, sheet, &mut buffer), Ok(Compared::Written(9)));
/// assert_eq!(&buffer, b"diff\t0\t0\n...");
/// ```
pub fn diff_into(sheet1: &[u8], sheet2: &[u8], out: &mut [u8]) -> Result<Compared, UnknownNumber> {
    Compared::decode(ffi::diff_listing(sheet1, sheet2, out))
}

#[cfg(test)]
mod tests {
    use super::*;

    /// What is tried first makes no difference: too short by much or by one, right, or longer.
    #[test]
    fn any_first_buffer_gives_the_text() {
        let sheet = b"machine\t1\t1\ncost\t0\t0\t0\t0\t0\t0\t0\t0\t0\n";
        let plan = |length, sheet: &[u8]| text_from(length, |buffer| plan_into(sheet, buffer));
        let core = |length, core| text_from(length, |buffer| why_core_into(sheet, core, buffer));
        let records =
            |length, costs: &[u8]| text_from(length, |buffer| why_records_into(&[], costs, buffer));
        let moved =
            |length, sheet2: &[u8]| text_from(length, |buffer| diff_into(sheet, sheet2, buffer));
        let why = b"why\tpasses\t0\t0\n".to_vec();
        let second = (Whose::Second, Refusal::new(8, 1));
        for length in [0, 1, 8, 9, 10, 14, 15, 16, 5_699, 8_192] {
            assert_eq!(plan(length, sheet), Ok(Ok(b"plan\t0\t0\n".to_vec())));
            assert_eq!(plan(length, b""), Ok(Err(Refusal::new(8, 1))));
            assert_eq!(core(length, 1), Ok(Ok(why.clone())));
            assert_eq!(core(length, 0), Ok(Err(Refusal::new(1, 0))));
            assert_eq!(records(length, &[0; 36]), Ok(Ok(why.clone())));
            assert_eq!(records(length, &[]), Ok(Err(Refusal::new(8, 0))));
            assert_eq!(moved(length, sheet), Ok(Ok(b"diff\t0\t0\n".to_vec())));
            assert_eq!(moved(length, b""), Ok(Err(second)));
        }
    }
}
