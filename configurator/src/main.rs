//! The command for people: `spardimple --help` says what it does. Everything is in the library's
//! `command`; here it gets its words and its streams.

use configurator::command::output::Standard;
use configurator::command::{run, Streams};
use configurator::ffi::is_terminal;
use std::env;
use std::io;
use std::process::ExitCode;

fn main() -> ExitCode {
    let no_colour = env::var_os("NO_COLOR").map_or(false, |set| !set.is_empty());
    let mut err = io::stderr();
    let done = Standard::new().and_then(|mut out| {
        let mut streams = Streams {
            out: &mut out,
            err: &mut err,
            colour: is_terminal(1) && !no_colour,
            progress: is_terminal(2),
        };
        let status = run(env::args_os().skip(1), &mut streams);
        out.close().map(|()| status)
    });
    ExitCode::from(done.unwrap_or_else(|failure| failure.tell(&mut err)) as u8)
}
