//! What a paper came from: the program, the library that it carries, and the sheet. The build looks
//! the first two up.

use sha2::{Digest, Sha256};
use std::path::{Path, PathBuf};

/// The program's name and version.
pub const PROGRAM: &str = concat!("spardimple ", env!("CARGO_PKG_VERSION"));

/// The commit that the program was built from. Behind it stands `with changes` if sources had been
/// changed since; it is `unknown` where the build saw no history.
pub const COMMIT: &str = env!("SPARDIMPLE_COMMIT");

/// The SHA-256 of the proved library's archive, `libspardimple.a`.
pub const ARCHIVE: &str = env!("SPARDIMPLE_ARCHIVE_SHA256");

/// What `--version` says behind the program's name.
pub const VERSION: &str = concat!(
    env!("CARGO_PKG_VERSION"),
    "\ncommit ",
    env!("SPARDIMPLE_COMMIT"),
    "\nlibspardimple.a SHA-256 ",
    env!("SPARDIMPLE_ARCHIVE_SHA256")
);

/// The SHA-256 of bytes, as `sha256sum` writes it.
///
/// ```
/// use configurator::origin::digest;
///
/// assert_eq!(digest(b""), "e3b0c44298fc1c149afbf4c8996fb92427ae41e4649b934ca495991b7852b855");
/// ```
#[must_use]
pub fn digest(bytes: &[u8]) -> String {
    format!("{:x}", Sha256::digest(bytes))
}

/// Where it is said what a listing came from: beside it.
///
/// ```
/// use configurator::origin::place;
/// use std::path::Path;
///
/// assert_eq!(place(Path::new("a/b.listing")), Path::new("a/b.listing.origin"));
/// ```
#[must_use]
pub fn place(listing: &Path) -> PathBuf {
    let mut name = listing.as_os_str().to_owned();
    name.push(".origin");
    PathBuf::from(name)
}

/// What is said there: lines of fields parted by one tab. The sheet's name is as it
/// was given.
#[must_use]
pub fn beside(name: &str, sheet: &[u8], listing: &[u8]) -> String {
    format!(
        "program\t{PROGRAM}\ncommit\t{COMMIT}\nlibspardimple.a\t{ARCHIVE}\nsheet\t{}\t{name}\nlisting\t{}\n",
        digest(sheet),
        digest(listing)
    )
}
