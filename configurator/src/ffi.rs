//! The C functions of the proved library, each behind a safe function, and three of the C library. The
//! only `unsafe` of the package stands here.
//!
//! Nothing checks these declarations against the Rattle source, so each import has the signature
//! that it copies. At the C boundary a number passes as itself and a slice as a pointer and then a
//! length.

#![allow(unsafe_code)] // the imports below are what this file is for

use std::fs::File;
use std::io;
use std::os::unix::io::IntoRawFd;
use std::sync::atomic::{AtomicBool, Ordering};

mod imports {
    extern "C" {
        /// `#[no_mangle] pub extern "C" fn verdict(records: &[u8], costs: &[u8]) -> u64`
        pub fn verdict(
            records: *const u8,
            records_len: usize,
            costs: *const u8,
            costs_len: usize,
        ) -> u64;

        /// `#[no_mangle] pub extern "C" fn plan_listing(sheet: &[u8], listing: &mut [u8]) -> u64`
        pub fn plan_listing(
            sheet: *const u8,
            sheet_len: usize,
            listing: *mut u8,
            listing_len: usize,
        ) -> u64;

        /// `#[no_mangle] pub extern "C" fn why_records(records: &[u8], costs: &[u8], out: &mut [u8]) -> u64`
        pub fn why_records(
            records: *const u8,
            records_len: usize,
            costs: *const u8,
            costs_len: usize,
            out: *mut u8,
            out_len: usize,
        ) -> u64;

        /// `#[no_mangle] pub extern "C" fn why_core(sheet: &[u8], core: u64, out: &mut [u8]) -> u64`
        pub fn why_core(
            sheet: *const u8,
            sheet_len: usize,
            core: u64,
            out: *mut u8,
            out_len: usize,
        ) -> u64;

        /// `#[no_mangle] pub extern "C" fn demand_at(records: &[u8], costs: &[u8], length: u64) -> u64`
        pub fn demand_at(
            records: *const u8,
            records_len: usize,
            costs: *const u8,
            costs_len: usize,
            length: u64,
        ) -> u64;

        /// `#[no_mangle] pub extern "C" fn diff_listing(sheet1: &[u8], sheet2: &[u8], out: &mut [u8]) -> u64`
        pub fn diff_listing(
            sheet1: *const u8,
            sheet1_len: usize,
            sheet2: *const u8,
            sheet2_len: usize,
            out: *mut u8,
            out_len: usize,
        ) -> u64;

        /// The C library's `int isatty(int fd)`
        pub fn isatty(fd: i32) -> i32;

        /// The C library's `int close(int fd)`
        pub fn close(fd: i32) -> i32;

        /// The C library's `int fcntl(int fd, int cmd, ...)`, here with no third word
        pub fn fcntl(fd: i32, cmd: i32, ...) -> i32;
    }
}

/// The number that the library's `verdict` gives back for lent records and costs.
/// [`crate::Answer::decode`] reads it.
///
/// ```
/// assert_eq!(configurator::ffi::verdict(&[], &[0; 36]), 0);
/// assert_eq!(configurator::ffi::verdict(&[], &[]), 108 << 32);
/// ```
#[must_use]
pub fn verdict(records: &[u8], costs: &[u8]) -> u64 {
    // SAFETY: each pointer and length come from one live slice, so they name bytes that may be
    // read, and both slices outlive the call. The library only reads them, keeps neither, and its
    // contract asks nothing of what they hold.
    unsafe { imports::verdict(records.as_ptr(), records.len(), costs.as_ptr(), costs.len()) }
}

/// The number that the library's `plan_listing` gives back for a lent sheet and a lent buffer, which
/// then begins with the listing. [`crate::Listed::decode`] reads it.
///
/// ```
/// let mut buffer = [b'.'; 12];
/// let sheet = b"machine\t1\t1\ncost\t0\t0\t0\t0\t0\t0\t0\t0\t0\n";
/// assert_eq!(configurator::ffi::plan_listing(sheet, &mut buffer), 9);
/// assert_eq!(&buffer, b"plan\t0\t0\n...");
/// assert_eq!(configurator::ffi::plan_listing(b"", &mut buffer), (108 << 32) + 1);
/// ```
#[must_use]
pub fn plan_listing(sheet: &[u8], listing: &mut [u8]) -> u64 {
    // SAFETY: each pointer and length come from one live slice, so they name bytes that may be
    // read, and those of the listing be written; both slices outlive the call, and being lent by
    // `&` and `&mut` they don't overlap. The library only reads the sheet, writes the listing within
    // its length, keeps neither, and its contract asks nothing of what they hold.
    unsafe {
        imports::plan_listing(
            sheet.as_ptr(),
            sheet.len(),
            listing.as_mut_ptr(),
            listing.len(),
        )
    }
}

/// The number that the library's `why_records` gives back for lent records, costs and buffer. The
/// buffer then begins with the reasons for the verdict. [`crate::Listed::decode`] reads the number.
///
/// ```
/// let mut buffer = [b'.'; 17];
/// assert_eq!(configurator::ffi::why_records(&[], &[0; 36], &mut buffer), 15);
/// assert_eq!(&buffer, b"why\tpasses\t0\t0\n..");
/// assert_eq!(configurator::ffi::why_records(&[], &[], &mut buffer), 108 << 32);
/// ```
#[must_use]
pub fn why_records(records: &[u8], costs: &[u8], out: &mut [u8]) -> u64 {
    // SAFETY: each pointer and length come from one live slice, so they name bytes that may be
    // read, and those of `out` be written; the slices outlive the call, and being lent by `&` and
    // `&mut` those that are read don't overlap the one that is written. The library only reads
    // records and costs, writes `out` within its length, keeps none, and its contract asks nothing
    // of what they hold.
    unsafe {
        imports::why_records(
            records.as_ptr(),
            records.len(),
            costs.as_ptr(),
            costs.len(),
            out.as_mut_ptr(),
            out.len(),
        )
    }
}

/// The number that the library's `why_core` gives back for a lent sheet, a core from 1 and a lent
/// buffer. The buffer then begins with the reasons for the core's verdict. [`crate::Listed::decode`]
/// reads the number.
///
/// ```
/// let mut buffer = [b'.'; 17];
/// let sheet = b"machine\t1\t1\ncost\t0\t0\t0\t0\t0\t0\t0\t0\t0\n";
/// assert_eq!(configurator::ffi::why_core(sheet, 1, &mut buffer), 15);
/// assert_eq!(&buffer, b"why\tpasses\t0\t0\n..");
/// assert_eq!(configurator::ffi::why_core(sheet, 2, &mut buffer), 101 << 32);
/// ```
#[must_use]
pub fn why_core(sheet: &[u8], core: u64, out: &mut [u8]) -> u64 {
    // SAFETY: each pointer and length come from one live slice, so they name bytes that may be
    // read, and those of `out` be written; both slices outlive the call, and being lent by `&` and
    // `&mut` they don't overlap. The library only reads the sheet, writes `out` within its length,
    // keeps neither, and its contract asks nothing of what they hold, nor of the core.
    unsafe {
        imports::why_core(
            sheet.as_ptr(),
            sheet.len(),
            core,
            out.as_mut_ptr(),
            out.len(),
        )
    }
}

/// The demand g(length) of lent records, taken as one core. It is 0 where `verdict` refuses the
/// records or the costs, and where the length is above 101,000,000.
///
/// ```
/// let piece = [0u32, 1, 5, 10, 0, 0, 0]; // one tick in five, every ten
/// let record: Vec<u8> = piece.iter().flat_map(|n| n.to_le_bytes()).collect();
/// let demand = |length| configurator::ffi::demand_at(&record, &[0; 36], length);
/// assert_eq!([4, 5, 14, 15].map(demand), [0, 1, 1, 2]);
/// assert_eq!(demand(101_000_001), 0);
/// ```
#[must_use]
pub fn demand_at(records: &[u8], costs: &[u8], length: u64) -> u64 {
    // SAFETY: each pointer and length come from one live slice, so they name bytes that may be
    // read, and both slices outlive the call. The library only reads them, keeps neither, and its
    // contract asks nothing of what they hold, nor of the length.
    unsafe {
        imports::demand_at(
            records.as_ptr(),
            records.len(),
            costs.as_ptr(),
            costs.len(),
            length,
        )
    }
}

/// The number that the library's `diff_listing` gives back for two lent sheets and a lent buffer. The
/// buffer then begins with what moved from the first sheet's plan to the second's.
/// [`crate::Compared::decode`] reads the number.
///
/// ```
/// let mut buffer = [b'.'; 12];
/// let sheet = b"machine\t1\t1\ncost\t0\t0\t0\t0\t0\t0\t0\t0\t0\n";
/// assert_eq!(configurator::ffi::diff_listing(sheet, sheet, &mut buffer), 9);
/// assert_eq!(&buffer, b"diff\t0\t0\n...");
/// assert_eq!(configurator::ffi::diff_listing(b"", sheet, &mut buffer), (108 << 32) + 1);
/// assert_eq!(configurator::ffi::diff_listing(sheet, b"", &mut buffer), (1108 << 32) + 1);
/// ```
#[must_use]
pub fn diff_listing(sheet1: &[u8], sheet2: &[u8], out: &mut [u8]) -> u64 {
    // SAFETY: each pointer and length come from one live slice, so they name bytes that may be
    // read, and those of `out` be written; the slices outlive the call, and being lent by `&` and
    // `&mut` those that are read don't overlap the one that is written. The library only reads the
    // sheets, writes `out` within its length, keeps none, and its contract asks nothing of what they
    // hold.
    unsafe {
        imports::diff_listing(
            sheet1.as_ptr(),
            sheet1.len(),
            sheet2.as_ptr(),
            sheet2.len(),
            out.as_mut_ptr(),
            out.len(),
        )
    }
}

/// Whether a file descriptor is a terminal: 1 for standard output, 2 for standard error. (Rust's own
/// library has this from 1.70 on.)
#[must_use]
pub fn is_terminal(fd: i32) -> bool {
    // SAFETY: the function takes any number, and touches no memory but `errno`.
    unsafe { imports::isatty(fd) == 1 }
}

/// Closes a file. A full disk may be told of only now, and Rust's own library does not look.
///
/// # Errors
///
/// The system has not taken all that was written to the file.
pub fn close(file: File) -> io::Result<()> {
    // SAFETY: the file gives its descriptor up, so nothing else uses or closes it. The function
    // touches no memory but `errno`.
    match unsafe { imports::close(file.into_raw_fd()) } {
        0 => Ok(()),
        _ => Err(io::Error::last_os_error()),
    }
}

/// The system's number for an error about a folder.
pub const EISDIR: i32 = 21;

/// Whether standard output was open when the program began. Before `main`, Rust's runtime opens
/// `/dev/null` where it was not, and then nothing tells.
#[must_use]
pub fn output_was_open() -> bool {
    OUTPUT_WAS_OPEN.load(Ordering::Relaxed)
}

static OUTPUT_WAS_OPEN: AtomicBool = AtomicBool::new(true);

/// What the system runs before Rust's runtime begins.
#[used]
#[link_section = ".init_array"]
static BEFORE_MAIN: extern "C" fn() = look_at_output;

extern "C" fn look_at_output() {
    const F_GETFD: i32 = 1;
    // SAFETY: with this command the function takes no third word, any number will do, and it touches
    // no memory but `errno`.
    let open = unsafe { imports::fcntl(1, F_GETFD) } != -1;
    OUTPUT_WAS_OPEN.store(open, Ordering::Relaxed);
}
