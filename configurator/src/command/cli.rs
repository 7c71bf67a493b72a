//! The command's arguments, described once: `--help`, the completions and, at build, the manual page
//! are made from this description.

use super::fields;
use clap::{value_parser, Arg, ArgAction, ArgMatches, Command};
use std::path::PathBuf;

/// The shells that have completions.
pub const SHELLS: [&str; 5] = ["bash", "elvish", "fish", "powershell", "zsh"];

/// What times are in where nothing else is said.
const TICKS: &str = "ticks";

/// What stands below the command's own help; `{LINES}` stands for the lines of a sheet.
const BELOW: &str = "\
Examples:
  spardimple new line.sheet
  spardimple plan examples/film-line.sheet
  spardimple check examples/film-line-mistyped.sheet
  spardimple fmt line.sheet -o mended.sheet
  spardimple verdict --table examples/film-core.table
  spardimple why examples/film-line.sheet 2
  spardimple show examples/film-line.sheet
  spardimple report examples/film-line.sheet -o film-line.html
  spardimple diff examples/film-line.sheet examples/film-line-new-dosing.sheet
  spardimple desk examples/film-line.sheet < examples/film-line.edits
  spardimple batch examples
  spardimple completions bash > ~/.local/share/bash-completion/completions/spardimple
  spardimple man | man -l -

A sheet has lines of fields parted by one tab, in this order:
{LINES}

`spardimple new FILE` explains each field. Where a file is read, - stands for standard input, but
not for the sheet of desk; behind -o and --page it stands for standard output.

A file is written whole or not at all. A file that is read is never overwritten, whichever name -o
or --page has for it: that is wrong use. A read-only file is left as it is.

In a checkout of the project, `./spardimple --setup` before a command installs the packages that
are missing, and `./spardimple package -o DIR` writes packages for machines without the kit.

Exit status:
  0  accepted: planned, or judged, whatever the verdict
  1  refused: the message has the number, the line and what to do
  2  wrong use
  3  a file could not be read or written, or standard output could not; the message has the cause.
     There is no message if the reader of a pipe has gone, as in `spardimple man | head -1`
  4  overloaded, and 5  undecided: only by `verdict` and `why` with --exit-status
  6  a sheet is refused: only by `diff`, where 0 is that nothing moved and 1 that something did";

/// The description of the arguments.
#[must_use]
pub fn command() -> Command {
    Command::new("spardimple")
        .version(env!("CARGO_PKG_VERSION"))
        .about("Plans the tasks of a multicore controller. Every plan and verdict is given by a proved library.")
        .after_help(BELOW.replace("{LINES}", &fields::short()))
        .subcommand_required(true)
        .arg_required_else_help(true)
        .subcommands([new(), plan(), check(), fmt(), verdict(), why(), show(), report(), diff(), desk(), batch(), completions(), man()])
}

fn new() -> Command {
    Command::new("new")
        .about("Writes a small sheet that plans, and a text that explains it line by line")
        .after_help(
            "Example: spardimple new line.sheet\n\n\
             The text stands beside the sheet, its name with .txt behind, since a sheet has no comments.\n\
             Nothing is overwritten: if one of the two is there already, none is written, and the exit\n\
             status is 3.",
        )
        .arg(file("FILE", "The new sheet, such as line.sheet"))
}

fn plan() -> Command {
    Command::new("plan")
        .about("Prints the listing of a sheet: which core runs which task, whole or in two pieces")
        .after_help(
            "Example: spardimple plan examples/film-line.sheet -o film-line.listing --origin\n\n\
             A refused sheet has no listing, and FILE is left as it was. Where no core has room for a\n\
             task, the message ends with why: the core, the length, by how much, and the pieces that\n\
             ask most. With --json a refusal, or a file that is missing, is told as JSON on standard\n\
             output too. FILE.origin names the program's commit and the SHA-256 of the library, of the\n\
             sheet and of the listing.",
        )
        .arg(sheet())
        .arg(out("FILE", "Writes the listing to FILE, whole or not at all"))
        .arg(origin())
        .arg(json())
}

fn check() -> Command {
    Command::new("check")
        .about("Tells all that is refused in a sheet, and not only the first")
        .after_help(
            "Example: spardimple check examples/film-line-mistyped.sheet\n\n\
             The first message is the library's answer to the sheet, the one that plan has. Each other\n\
             is its answer to the sheet with all above mended: a bad part or fit line keeps its name,\n\
             another bad line is left out. That no core has room (7) is told only if nothing else is\n\
             refused. The sheet itself is not touched.",
        )
        .arg(sheet())
}

fn fmt() -> Command {
    Command::new("fmt")
        .about("Mends the form of a sheet or a table, and touches no name and no number")
        .after_help(
            "Example: spardimple fmt line.sheet -o mended.sheet\n\n\
             It takes off a byte-order mark, carriage returns and blanks at the ends of lines, leaves\n\
             out empty lines, makes UTF-16 bytes of one letter each, puts one tab between fields, writes\n\
             the first word of a line in lower case and adds the last newline. A line that has another\n\
             number of fields than its word asks for keeps what stands between its ends, and one that has\n\
             tabs is not parted at spaces; check tells what is wrong with it. What was mended, and whether\n\
             the mended text is still refused, is told on standard error.",
        )
        .arg(file("SHEET", "A timing sheet or a table; - reads standard input"))
        .arg(out("NEW", "Writes the mended text to NEW, whole or not at all"))
}

fn verdict() -> Command {
    let bytes = |name, help| file(name, help).required_unless_present("table");
    Command::new("verdict")
        .about("Judges one core by the demand rule: whether more work is ever due than fits")
        .after_help(
            "Examples: spardimple verdict --table examples/film-core.table\n          \
             spardimple verdict examples/film-core.rec examples/film-core.cost\n\n\
             A table has a line `cost` with the nine constants, then a line for each piece: whole,\n\
             first or last, then x, D, T, J, P, M; fields parted by one tab.\n\
             RECORDS has 28 bytes for each piece: seven numbers of four bytes, lowest first (kind 0\n\
             whole, 1 first, 2 last; then x, D, T, J, P, M). COSTS has the nine constants, 36 bytes.\n\n\
             passes: in no length of time is more work due than fits. overloaded at N: within N ticks\n\
             more work is due than fits. undecided: in every length up to 100,000,000 ticks more work\n\
             comes than it has ticks; such a core does not pass, and no plan has one. The exit status is\n\
             0 for all three; with --exit-status it is 0 passes, 4 overloaded, 5 undecided.",
        )
        .override_usage(
            "spardimple verdict [OPTIONS] RECORDS COSTS\n       \
             spardimple verdict [OPTIONS] --table FILE",
        )
        .arg(bytes("RECORDS", "Piece records as bytes"))
        .arg(bytes("COSTS", "The nine cost constants as bytes"))
        .arg(table().conflicts_with_all(["RECORDS", "COSTS"]))
        .arg(told_verdict())
        .arg(json())
}

fn why() -> Command {
    Command::new("why")
        .about("Tells why a core passes or does not: what each piece asks for, and what is left")
        .after_help(
            "Examples: spardimple why --unit us examples/film-line.sheet 2\n          \
             spardimple why examples/film-line-checkweigher.sheet\n          \
             spardimple why --table examples/film-core.table\n\n\
             For each core one length of time is named, and what is asked for within it: blocking, each\n\
             piece's jobs due and what they ask for, its interrupts, the total, and the slack, which is\n\
             the length minus the total. If the core passes, it is the length where least is left; if it\n\
             is overloaded, the verdict's own; if it is undecided, 100,000,000 ticks.\n\n\
             If no core has room for a task, the last core is shown with the whole task added, whichever\n\
             CORE of the machine was asked for. The message begins as that of plan does, and the exit\n\
             status is 1. A CORE that the machine has not is refused with 1. Else the status is 0.\n\n\
             RECORDS, COSTS and a table are as for verdict, and so is --exit-status. --listing prints the\n\
             library's own lines, those of all cores one after the other; docs/LISTINGS.md has their form.",
        )
        .override_usage(
            "spardimple why [OPTIONS] SHEET [CORE]\n       \
             spardimple why [OPTIONS] --records RECORDS COSTS\n       \
             spardimple why [OPTIONS] --table FILE",
        )
        .arg(sheet().required_unless_present_any(["records", "table"]))
        .arg(
            Arg::new("CORE")
                .value_parser(value_parser!(u64))
                .help("A core of the sheet's machine, from 1; without it, all of them"),
        )
        .arg(
            Arg::new("records")
                .long("records")
                .value_names(["RECORDS", "COSTS"])
                .value_parser(value_parser!(PathBuf))
                .conflicts_with_all(["SHEET", "CORE", "table"])
                .help("Reads one core's pieces and costs as bytes"),
        )
        .arg(table().conflicts_with_all(["SHEET", "CORE"]))
        .arg(listing())
        .arg(unit_of_ticks())
        .arg(told_verdict())
        .arg(json())
}

fn show() -> Command {
    Command::new("show")
        .about("Shows a sheet's plan as a table: each core with its pieces, and the split tasks")
        .after_help(
            "Example: spardimple show --unit us examples/film-line.sheet\n\n\
             No line is longer than 80 columns, unless the file's name is. There is colour on\n\
             a terminal only, and none where NO_COLOR is set.",
        )
        .arg(sheet())
        .arg(unit_of_ticks())
        .arg(json())
}

fn report() -> Command {
    Command::new("report")
        .about("Writes a sheet's plan, or its refusal, as one page for a browser")
        .after_help(
            "Example: spardimple report --unit us examples/film-line.sheet -o film-line.html\n\n\
             The page needs no network and no script; it can be printed, and read on a phone. For each\n\
             core it draws what is asked for against the length of time, with the length marked that\n\
             why names. A refused sheet has a page too, with what was refused, where and what to do;\n\
             the exit status is 1 then.",
        )
        .arg(sheet())
        .arg(unit_of_ticks())
        .arg(out("FILE", "Writes the page to FILE, whole or not at all"))
}

fn diff() -> Command {
    Command::new("diff")
        .about("Tells what moved between the plans of two sheets, task by task")
        .after_help(
            "Examples: spardimple diff examples/film-line.sheet examples/film-line-new-dosing.sheet\n          \
             spardimple diff --unit us examples/film-line.sheet line.sheet --page moved.html\n\n\
             A task is told of if only one of the plans has it, or if it has other pieces or other cores\n\
             in each. Pieces are equal in kind, budget, window, period, jitter, P, M and core; the charged\n\
             time and the order on a core do not count. In the table * is before what changed. There is\n\
             colour on a terminal only, and none where NO_COLOR is set.\n\n\
             --listing prints the library's own lines; docs/LISTINGS.md has their form. --page writes both\n\
             plans side by side, as a page that needs no network and no script.\n\n\
             The exit status is 0 if nothing moved, 1 if something did, and 6 if a sheet is refused: the\n\
             message is that of plan, for each refused sheet, and no page is written. As everywhere 2 is\n\
             wrong use, and 3 a file that could not be read or written.",
        )
        .arg(file("SHEET1", "The first sheet: what was; - reads standard input"))
        .arg(file("SHEET2", "The second sheet: what is now; - reads standard input, for one of the two"))
        .arg(unit_of_ticks())
        .arg(listing())
        .arg(json())
        .arg(
            Arg::new("page")
                .long("page")
                .value_name("FILE")
                .value_parser(value_parser!(PathBuf))
                .conflicts_with_all(["listing", "json"])
                .help("Writes a page for a browser to FILE, whole or not at all"),
        )
}

fn desk() -> Command {
    Command::new("desk")
        .about("Plays edits on a sheet's plan, by the proved desk program")
        .after_help(
            "Examples: spardimple desk examples/film-line.sheet\n          \
             spardimple desk --exit-status examples/film-line.sheet < examples/film-line.edits\n\n\
             On a terminal there is a prompt with a history, where `help` has the forms of edits,\n\
             spaces part fields too, and `quit` ends. From a file or a pipe edits come one a line,\n\
             fields parted by one tab:\n  \
             add NAME C D T J P M, withdraw NAME, retime NAME C D T J P M, list\n\
             The answer is ok, the listing, or refusal with its number and what it carries; standard error\n\
             has the reason of each refusal. A refused edit changes nothing, and the exit status is 0\n\
             without --exit-status; a refused sheet is 1.\n\n\
             SPARDIMPLE_DESK names the desk program; without it, it is lib/spardimple/desk beside bin.",
        )
        .arg(file("SHEET", "A timing sheet"))
        .arg(
            Arg::new("exit-status")
                .long("exit-status")
                .action(ArgAction::SetTrue)
                .help("Ends with exit status 1 if an edit was refused"),
        )
}

fn batch() -> Command {
    Command::new("batch")
        .about("Plans every *.sheet of a folder and prints a summary")
        .after_help(
            "Example: spardimple batch examples -o listings\n\n\
             A refused sheet stops nothing. The exit status is that of the worst sheet. If OUT has an\n\
             older listing of a sheet that is not planned now, the summary names it, and it stays.\n\
             Hidden files are left out. FIFOs, devices and folders that are named like sheets are not\n\
             opened, and the summary names them. With -r links to folders are not followed, and the\n\
             listings stand in folders below OUT as their sheets do below DIR.",
        )
        .arg(file("DIR", "The folder"))
        .arg(out("OUT", "Writes each listing into the folder OUT"))
        .arg(
            Arg::new("recursive")
                .short('r')
                .long("recursive")
                .action(ArgAction::SetTrue)
                .help("Goes into the folders below DIR too"),
        )
        .arg(
            Arg::new("quiet")
                .short('q')
                .long("quiet")
                .action(ArgAction::SetTrue)
                .help("Prints what is not planned and the sum, and no messages"),
        )
        .arg(origin())
        .arg(json())
}

fn completions() -> Command {
    Command::new("completions")
        .about("Prints the completions for a shell")
        .after_help(
            "Example: spardimple completions bash > ~/.local/share/bash-completion/completions/spardimple",
        )
        .arg(
            Arg::new("SHELL")
                .required(true)
                .value_parser(SHELLS)
                .help("The shell"),
        )
}

fn man() -> Command {
    Command::new("man")
        .about("Prints the manual page")
        .after_help("Example: spardimple man | man -l -")
}

/// A core as a table of text.
fn table() -> Arg {
    Arg::new("table")
        .long("table")
        .value_name("FILE")
        .value_parser(value_parser!(PathBuf))
        .help("Reads costs and pieces as a table of text")
}

/// Whether the exit status tells the verdict on a core.
fn told_verdict() -> Arg {
    Arg::new("exit-status")
        .long("exit-status")
        .action(ArgAction::SetTrue)
        .help("Exit status 0 if the core passes, 4 overloaded, 5 undecided")
}

fn sheet() -> Arg {
    file("SHEET", "A timing sheet; - reads standard input")
}

/// What a tick is, for people: the planner knows only ticks.
fn unit_of_ticks() -> Arg {
    Arg::new("unit")
        .long("unit")
        .value_name("UNIT")
        .default_value(TICKS)
        .hide_default_value(true)
        .value_parser(short_word)
        .help("What a tick is, as us or ms; no number is changed by it")
}

/// A word that can stand behind any number: 1 to 8 letters and digits, not digits alone.
fn short_word(word: &str) -> Result<String, String> {
    let formed = word.chars().count() <= 8 && word.chars().all(char::is_alphanumeric);
    if formed && word.chars().any(char::is_alphabetic) {
        Ok(word.to_owned())
    } else {
        Err(
            "a unit is a word of at most 8 letters and digits, with a letter in it, as us"
                .to_owned(),
        )
    }
}

/// Where the answer goes.
fn out(value: &'static str, help: &'static str) -> Arg {
    Arg::new("out")
        .short('o')
        .long("out")
        .value_name(value)
        .value_parser(value_parser!(PathBuf))
        .help(help)
}

/// Whether the answer is the library's own text.
fn listing() -> Arg {
    Arg::new("listing")
        .long("listing")
        .action(ArgAction::SetTrue)
        .conflicts_with("json")
        .help("Prints the library's own lines")
}

/// Whether the answer is JSON.
fn json() -> Arg {
    Arg::new("json")
        .long("json")
        .action(ArgAction::SetTrue)
        .help("Answers as JSON, in the form of docs/json.schema.json")
}

/// Whether a file beside the listing says what it came from.
fn origin() -> Arg {
    Arg::new("origin")
        .long("origin")
        .action(ArgAction::SetTrue)
        .requires("out")
        .help("Says beside each listing, in FILE.origin, what it came from")
}

/// A file or folder that stands by its place.
fn file(name: &'static str, help: &'static str) -> Arg {
    Arg::new(name)
        .required(true)
        .value_parser(value_parser!(PathBuf))
        .help(help)
}

/// What a tick is called.
#[must_use]
pub fn unit(given: &ArgMatches) -> &str {
    given.get_one::<String>("unit").map_or(TICKS, |unit| unit)
}

/// The file that an argument names.
#[must_use]
pub fn path(given: &ArgMatches, id: &str) -> Option<PathBuf> {
    given.get_one::<PathBuf>(id).cloned()
}

/// The file that a required argument names.
#[must_use]
pub fn needed(given: &ArgMatches, id: &str) -> PathBuf {
    path(given, id).unwrap_or_default()
}
