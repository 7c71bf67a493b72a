//! `desk`: edits on a sheet's plan, played by the proved program of that name. The program alone
//! answers, and its words are printed as they are. What stands here passes the edits on to it, and says
//! on standard error why an edit was refused.

mod answers;
mod form;
mod held;
mod program;
mod prompt;
mod reason;
mod script;

use super::{cli, files, planned, quoted, Failure, Planned, Status, Streams};
use crate::ffi::is_terminal;
use answers::Answer;
use clap::ArgMatches;
use held::Held;
use program::Program;
use prompt::Typed;
use script::{Line, Lines};
use std::io::{self, Read, Write};
use std::path::Path;
use std::process::ChildStdin;
use std::sync::mpsc::{self, Sender};
use std::thread;

/// Plays the edits of standard input.
///
/// # Errors
///
/// The sheet or the edits cannot be read, an answer not be printed, or the program is missing or ends by
/// itself.
pub fn run(given: &ArgMatches, streams: &mut Streams) -> Result<Status, Failure> {
    let sheet = cli::needed(given, "SHEET");
    if files::is_standard(&sheet) {
        streams.say("desk reads edits from standard input, so the sheet has to be a file");
        return Ok(Status::WrongUse);
    }
    let bytes = files::sheet(&sheet)?;
    if let Planned::Refused(why) = planned(&bytes)? {
        let mut program = Program::start(&bytes)?;
        drop(program.edits());
        if program.answer(streams)?.is_none() {
            return Err(program.early());
        }
        streams.say(&why.message(&files::shown(&sheet)));
        return Ok(Status::Refused);
    }
    let mut desk = Desk {
        program: Program::start(&bytes)?,
        held: Held::of(&quoted(&bytes)?),
        typed: is_terminal(0) && streams.progress && prompt::is_possible(),
        played: 0,
        refused: false,
    };
    if desk.typed {
        streams.say(&prompt::welcome(&files::shown(&sheet)));
        desk.converse(&mut prompt::keys(), streams)?;
    } else {
        desk.play(streams)?;
    }
    let refused = desk.refused && given.get_flag("exit-status");
    desk.program.end()?;
    Ok(if refused {
        Status::Refused
    } else {
        Status::Accepted
    })
}

/// The desk at work.
struct Desk {
    program: Program,
    held: Held,
    /// Whether edits are typed at a prompt.
    typed: bool,
    /// How many edits have been answered.
    played: usize,
    /// Whether one of them was refused.
    refused: bool,
}

/// What comes of standard input.
enum Fed {
    /// A line, which the program is given next.
    Line(Line),
    /// There are no more.
    Ended(io::Result<()>),
}

impl Desk {
    /// Plays what comes by a pipe or from a file. One thread passes it on while another prints the
    /// answers, so neither waits for the other, and the thread is left alone when answers are lost: it
    /// may wait for edits for ever.
    fn play(&mut self, streams: &mut Streams) -> Result<(), Failure> {
        let failed = |error| Failure::of(Path::new("-"), &error);
        let input = files::input().map_err(failed)?;
        let edits = self.program.edits();
        let (sender, receiver) = mpsc::channel();
        thread::Builder::new()
            .spawn(move || feed(input, edits, &sender))
            .map_err(failed)?;
        let mut fed = receiver.try_iter();
        while let Some(answer) = self.program.answer(streams)? {
            if let Some(Fed::Line(edit)) = fed.next() {
                self.answered(&edit, answer, streams);
            }
        }
        // every line is answered, and then there is the end
        match fed.next() {
            Some(Fed::Ended(ended)) => ended.map_err(failed),
            _ => Err(self.program.early()),
        }
    }

    /// Plays what is typed, each line answered before the next is asked for.
    fn converse(
        &mut self,
        keys: &mut dyn FnMut() -> Result<Typed, Failure>,
        streams: &mut Streams,
    ) -> Result<(), Failure> {
        let mut edits = self.program.edits();
        loop {
            let text = match keys()? {
                Typed::Text(text) => text,
                Typed::Dropped(why) => {
                    if let Some(why) = why {
                        streams.say(why);
                    }
                    continue;
                }
                Typed::Ended => return Ok(()),
            };
            for edit in text.lines().filter_map(prompt::edit) {
                if prompt::asks_end(&edit) {
                    return Ok(());
                }
                if prompt::asks_help(&edit) {
                    streams.say(prompt::HELP);
                    continue;
                }
                let line = Line {
                    bytes: edit.into_bytes(),
                    ended: true,
                };
                if let Some(edits) = &mut edits {
                    let sent = [&line.bytes[..], b"\n"].concat();
                    // a program that is gone gives no answer
                    let _ = edits.write_all(&sent);
                }
                match self.program.answer(streams)? {
                    Some(answer) => self.answered(&line, answer, streams),
                    None => return Err(self.program.early()),
                }
            }
        }
    }

    /// Takes note of an answer, and says the reason of a refusal.
    fn answered(&mut self, edit: &Line, answer: Answer, streams: &mut Streams) {
        self.played += 1;
        match answer {
            Answer::Accepted => self.held = self.held.after(edit),
            Answer::Refused(refusal) => {
                self.refused = true;
                let mut reason = reason::of(refusal, self.played, edit, &self.held);
                if self.typed && refusal.number() == 8 {
                    reason.to_do = Some(prompt::TO_DO);
                }
                streams.say(&reason.message("edit"));
            }
            Answer::Listing | Answer::Other => {}
        }
    }
}

/// Passes standard input on to the program. Each line is told of before the program has the whole of it,
/// and so is the end: whoever reads an answer knows of its line.
fn feed(mut input: impl Read, mut edits: Option<ChildStdin>, fed: &Sender<Fed>) {
    let mut lines = Lines::default();
    let mut buffer = [0; 8_192];
    let tell = |line| {
        let _ = fed.send(Fed::Line(line));
    };
    let ended = loop {
        let read = match input.read(&mut buffer) {
            Ok(0) => break Ok(()),
            Ok(read) => read,
            Err(error) if error.kind() == io::ErrorKind::Interrupted => continue,
            Err(error) => break Err(error),
        };
        lines.take(&buffer[..read], tell);
        let passed = edits.as_mut().map(|edits| edits.write_all(&buffer[..read]));
        if !matches!(passed, Some(Ok(()))) {
            return;
        }
    };
    lines.end().into_iter().for_each(tell);
    let _ = fed.send(Fed::Ended(ended));
}
