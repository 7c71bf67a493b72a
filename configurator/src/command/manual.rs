//! The manual page, in the form that `man` reads, from the description of the arguments, the
//! table of a sheet's fields and the table of refusals. The build writes it.

use super::{cli, fields, refusals};
use clap::{Arg, Command};
use std::fmt::Write;

/// The whole page.
#[must_use]
pub fn page() -> String {
    let command = cli::command();
    let version = command.get_version().unwrap_or_default();
    let about = plain(command.get_about().map(ToString::to_string));
    let mut page = format!(
        ".TH SPARDIMPLE 1 \"\" \"spardimple {version}\" \"User Commands\"\n\
         .SH NAME\nspardimple \\- plans the tasks of a multicore controller\n\
         .SH SYNOPSIS\n.B spardimple\n.I COMMAND\n[\\fIARGUMENTS\\fR]\n\
         .SH DESCRIPTION\n{about}\n.SH COMMANDS\n"
    );
    for sub in command.get_subcommands() {
        subcommand(&mut page, sub);
    }
    sheets(&mut page);
    page.push_str(".SH REFUSALS\nThe numbers of refusals, what they mean and what to do.\n");
    for entry in refusals::TABLE {
        let meaning = escaped(&entry.meaning.replace("{}", "N"));
        let remedy = escaped(entry.remedy);
        let _ = writeln!(page, ".TP\n.B {}\n{meaning}.\n{remedy}.", entry.number);
    }
    let below = plain(command.get_after_help().map(ToString::to_string));
    let (notes, statuses) = below
        .split_once("\n\nExit status:\n")
        .unwrap_or((&below, ""));
    let _ = write!(page, ".SH EXIT STATUS\n.nf\n{statuses}\n.fi\n");
    let _ = write!(page, ".SH NOTES\n.nf\n{notes}\n.fi\n");
    page
}

/// The lines of a sheet, and each field.
fn sheets(page: &mut String) {
    let lines = |sentences: &[&str]| escaped(&sentences.join("\n"));
    let _ = writeln!(page, ".SH SHEETS\n{}", lines(&fields::SHEET));
    for line in &fields::LINES {
        let _ = writeln!(page, ".SS {}\n{}", line.word, lines(line.about));
        for field in line.fields {
            let words = lines(&field.sentences());
            let _ = writeln!(page, ".TP\n.B {}\n{words}", field.name);
        }
    }
}

/// A subcommand, its arguments and its example.
fn subcommand(page: &mut String, sub: &Command) {
    let _ = write!(page, ".SS {}", sub.get_name());
    let arguments: Vec<&Arg> = sub.get_arguments().filter(|arg| !standard(arg)).collect();
    for argument in &arguments {
        let name = escaped(&called(argument));
        let _ = if argument.is_positional() && argument.is_required_set() {
            write!(page, " {name}")
        } else {
            write!(page, " [{name}]")
        };
    }
    let about = plain(sub.get_about().map(ToString::to_string));
    let _ = writeln!(page, "\n{about}.");
    for argument in arguments {
        let help = plain(argument.get_help().map(ToString::to_string));
        let name = escaped(&called(argument));
        let _ = writeln!(page, ".TP\n.B {name}\n{help}.");
    }
    let below = plain(sub.get_after_help().map(ToString::to_string));
    let _ = writeln!(page, ".PP\n.nf\n{below}\n.fi");
}

/// Whether an argument is one that every command has.
fn standard(argument: &Arg) -> bool {
    ["help", "version"].contains(&argument.get_id().as_str())
}

/// An argument as it is written.
fn called(argument: &Arg) -> String {
    let values = argument.get_value_names().map(|names| {
        let names: Vec<&str> = names.iter().map(AsRef::as_ref).collect();
        names.join(" ")
    });
    match (argument.get_short(), argument.get_long(), values) {
        (Some(short), _, Some(value)) => format!("-{short} {value}"),
        (None, Some(long), Some(value)) => format!("--{long} {value}"),
        (Some(short), Some(long), None) => format!("-{short}, --{long}"),
        (None, Some(long), None) => format!("--{long}"),
        _ => argument.get_id().to_string(),
    }
}

/// A text of the description, if there is one.
fn plain(text: Option<String>) -> String {
    escaped(&text.unwrap_or_default())
}

/// A text with what `man` would take for its own escaped.
fn escaped(text: &str) -> String {
    let text = text.replace('\\', "\\e").replace('-', "\\-");
    text.replace("\n.", "\n\\&.").replace("\n'", "\n\\&'")
}
