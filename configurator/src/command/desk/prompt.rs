//! Edits typed at a prompt, with the keys of readline and the history of this run.

use crate::command::{files, Failure};
use rustyline::error::ReadlineError;
use rustyline::{Cmd, Config, Editor, KeyCode, KeyEvent, Modifiers, OutputStreamType};
use std::env;
use std::io;
use std::path::Path;

/// What stands before the cursor.
const PROMPT: &str = "desk> ";

/// What `help` prints.
pub const HELP: &str = "\
edits, one a line, fields parted by spaces or tabs:
  list                                the plan as it is now
  add       NAME  C  D  T  J  P  M    one task more, behind the others
  retime    NAME  C  D  T  J  P  M    other times for a task
  withdraw  NAME                      one task less
C is the work, D the deadline, T the period, J the jitter, P and M the cache
charges of a preemption and a migration, all in ticks. The answer is ok, the
listing, or refusal with its number and what it carries.
The sheet itself is not changed, and nothing is kept when the desk ends.
The arrow keys bring back what was typed before, Ctrl-C drops a line;
`quit`, `exit` or Ctrl-D ends.";

/// What to do about a line that has the form of no edit.
pub const TO_DO: &str = "type help to see the forms of edits";

/// The first words, over the plan of a sheet that is called so in messages.
#[must_use]
pub fn welcome(sheet: &str) -> String {
    format!(
        "edits on the plan of {sheet}\n\
         the sheet itself is not changed, and nothing is kept when the desk ends\n\
         `help` has the forms of edits; `quit`, `exit` or Ctrl-D ends"
    )
}

/// What was typed.
#[derive(Clone, Debug, PartialEq, Eq)]
pub enum Typed {
    /// A text, of several lines if it was pasted.
    Text(String),
    /// A line that is dropped, with the reason if it needs one.
    Dropped(Option<&'static str>),
    /// That is all.
    Ended,
}

/// Whether somebody is there to be asked: a terminal on which a line can be edited. `TERM` names those
/// on which none can be.
#[must_use]
pub fn is_possible() -> bool {
    let term = env::var("TERM").unwrap_or_default().to_ascii_lowercase();
    !["dumb", "cons25", "emacs"].contains(&term.as_str())
}

/// A terminal's keys, as lines that are typed. The prompt goes to standard error, since standard output
/// has the answers.
///
/// # Errors
///
/// The terminal cannot be read.
pub fn keys() -> impl FnMut() -> Result<Typed, Failure> {
    let config = Config::builder()
        .output_stream(OutputStreamType::Stderr)
        .auto_add_history(true)
        .build();
    let mut editor = Editor::<()>::with_config(config);
    // a tab parts fields here too, and there is nothing to complete
    let tab = KeyEvent(KeyCode::Tab, Modifiers::NONE);
    editor.bind_sequence(tab, Cmd::Insert(1, "\t".to_owned()));
    move || match editor.readline(PROMPT) {
        Ok(text) => Ok(Typed::Text(text)),
        Err(ReadlineError::Eof) => Ok(Typed::Ended),
        Err(ReadlineError::Interrupted) => Ok(Typed::Dropped(None)),
        Err(ReadlineError::Utf8Error) => Ok(Typed::Dropped(Some("what was typed is no text"))),
        Err(ReadlineError::Io(error)) => Err(Failure::of(Path::new("-"), &error)),
        Err(ReadlineError::Errno(error)) => {
            Err(Failure::of(Path::new("-"), &io::Error::from(error)))
        }
        Err(error) => Err(Failure::new(format!(
            "{}: {error}",
            files::shown(Path::new("-"))
        ))),
    }
}

/// A typed line as an edit: runs of blanks become single tabs, since no field has a blank in it. Nothing
/// where there are blanks alone.
#[must_use]
pub fn edit(typed: &str) -> Option<String> {
    let fields: Vec<&str> = typed.split_whitespace().collect();
    (!fields.is_empty()).then(|| fields.join("\t"))
}

/// Whether an edit is none, but `help` or `?`, alone or before other words.
#[must_use]
pub fn asks_help(edit: &str) -> bool {
    let word = edit.split('\t').next().unwrap_or_default();
    ["help", "?"].iter().any(|w| word.eq_ignore_ascii_case(w))
}

/// Whether an edit is none, but the word `quit` or `exit` alone.
#[must_use]
pub fn asks_end(edit: &str) -> bool {
    ["quit", "exit"]
        .iter()
        .any(|w| edit.eq_ignore_ascii_case(w))
}

#[cfg(test)]
mod tests {
    use super::*;

    #[test]
    fn blanks_part_fields() {
        for (typed, sent) in [
            ("list", Some("list")),
            (" withdraw   panel ", Some("withdraw\tpanel")),
            ("add x\t1 \t 2\u{a0}3", Some("add\tx\t1\t2\t3")),
            ("", None),
            (" \t ", None),
        ] {
            assert_eq!(edit(typed).as_deref(), sent);
        }
    }

    #[test]
    fn words_of_the_prompt() {
        for (edit, help, end) in [
            ("help", true, false),
            ("Help\tadd", true, false),
            ("?", true, false),
            ("quit", false, true),
            ("EXIT", false, true),
            ("quit\tnow", false, false),
            ("list", false, false),
        ] {
            assert_eq!((asks_help(edit), asks_end(edit)), (help, end), "{edit}");
        }
    }

    #[test]
    fn lines_fit_a_terminal() {
        let told = [HELP, &welcome("s.sheet")].join("\n");
        for line in told.lines() {
            assert!(line.chars().count() <= 80, "{line}");
        }
    }
}
