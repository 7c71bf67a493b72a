//! Plays a script of edits over a sheet with the oracle: what the program `crates/desk` must write.
//!
//! `cargo run --release -p plain --example play -- SHEET < SCRIPT`

use plain::desk::play;
use plain::verdict::Way;
use std::io::{self, Read, Write};
use std::process::ExitCode;

fn main() -> ExitCode {
    match std::env::args_os().nth(1) {
        Some(sheet) => match answers(&sheet) {
            Ok(()) => ExitCode::SUCCESS,
            Err(error) => {
                eprintln!("{}: {error}", sheet.to_string_lossy());
                ExitCode::from(3)
            }
        },
        None => {
            eprintln!("usage: play SHEET < SCRIPT");
            ExitCode::from(2)
        }
    }
}

/// Writes the answers to the script on standard input.
fn answers(sheet: &std::ffi::OsStr) -> io::Result<()> {
    let sheet = std::fs::read(sheet)?;
    let mut script = Vec::new();
    io::stdin().read_to_end(&mut script)?;
    io::stdout().write_all(&play(&sheet, &script, Way::EveryLength))
}
