//! Bytes as text for people. Names, lines and files may hold any bytes.

use std::fmt::Write;
use std::str;

/// Bytes as text for people: a tab is `⇥`, what cannot be seen is written out, and so are bytes that are
/// no text.
///
/// ```
/// use configurator::text::shown;
///
/// assert_eq!(shown(b"caf\xc3\xa9\t'\xff'\r"), "café⇥'\\xff'\\r");
/// ```
#[must_use]
pub fn shown(mut bytes: &[u8]) -> String {
    let mut text = String::new();
    while !bytes.is_empty() {
        let (good, bad) = match str::from_utf8(bytes) {
            Ok(_) => (bytes.len(), 0),
            Err(error) => {
                let good = error.valid_up_to();
                (good, error.error_len().unwrap_or(bytes.len() - good))
            }
        };
        for c in str::from_utf8(&bytes[..good]).unwrap_or_default().chars() {
            match c {
                '\t' => text.push('⇥'),
                '"' | '\'' => text.push(c),
                _ => text.extend(c.escape_debug()),
            }
        }
        for byte in &bytes[good..good + bad] {
            let _ = write!(text, "\\x{byte:02x}");
        }
        bytes = &bytes[good + bad..];
    }
    text
}

/// A file that is called so in messages, as a word for a shell: `-` is standard input. Where its name
/// cannot be seen as it is, `FILE` stands for it.
///
/// ```
/// use configurator::text::shell_word;
///
/// assert_eq!(shell_word("examples/film-line.sheet"), "examples/film-line.sheet");
/// assert_eq!(shell_word("Jo's line.sheet"), "'Jo'\\''s line.sheet'");
/// assert_eq!(shell_word("-x"), "./-x");
/// assert_eq!(shell_word("standard input"), "-");
/// assert_eq!(shell_word("line-\\xff.sheet"), "FILE");
/// ```
#[must_use]
pub fn shell_word(file: &str) -> String {
    let plain = |c: char| c.is_ascii_alphanumeric() || "-_./,:=@%+".contains(c);
    let unseen = |c: char| matches!(c, '\\' | '⇥' | '`');
    if file == STANDARD {
        "-".to_owned()
    } else if file.contains(unseen) {
        "FILE".to_owned()
    } else {
        let here = if file.starts_with('-') { "./" } else { "" };
        if file.chars().all(plain) {
            format!("{here}{file}")
        } else {
            format!("'{here}{}'", file.replace('\'', "'\\''"))
        }
    }
}

/// How standard input is called in messages.
pub const STANDARD: &str = "standard input";
