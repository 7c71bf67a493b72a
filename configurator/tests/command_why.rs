//! `why`, end to end: its tables, the library's own lines, exit statuses, and what a refusal 7 says.

#![warn(clippy::all, clippy::pedantic)]

mod common;

use common::command::{
    desk, file, folder, on_a_terminal, program, spardimple, spardimple_fed, text,
};
use configurator::command::columns::width;
use configurator::why::Why;
use configurator::why_core;
use inputs::cores::lent;
use std::fs;
use std::process::Output;

const FILM: &str = "examples/film-line.sheet";

/// The film line with one task more than it has room for.
const STUCK: &str = "examples/film-line-checkweigher.sheet";

/// What its refusal says, without why.
const NO_ROOM: &str = "examples/film-line-checkweigher.sheet:23: refused (7): no core has room for task 12, `checkweigher`
  fit⇥checkweigher⇥checkweigher
      ^^^^^^^^^^^^
  to do: add a core, or give some task less work (C) or more time (D, T); a smaller grain can help too
";

/// And why.
const BECAUSE: &str = "  why: core 3 with the whole of `checkweigher` is overloaded: within 52829 ticks 52830 are asked for, 1 too many; a shorter length may lack more
  most is asked by `jaw-cross` (14045 in 53 jobs, 1590 in interrupts), `heater-upper` (9925 in 5 jobs, 90 in interrupts) and `heater-lower` (9925 in 5 jobs, 90 in interrupts)
";

fn status(ended: &Output) -> i32 {
    ended.status.code().unwrap()
}

#[test]
fn the_film_line() {
    let why = spardimple(&["why", "--unit", "us", FILM]);
    assert_eq!(status(&why), 0);
    assert!(why.stderr.is_empty());
    let all = text(&why.stdout);
    assert_eq!(
        all,
        "examples/film-line.sheet: what is asked of its cores; times in us

core 1 passes
  nearest to its limit within 2001 us: 1985 asked for, 16 to spare
  task         kind   jobs due  demand  interrupts
  cutter       whole         1     485          30
  film-unwind  whole         1     705          30
  jaw-fin      whole         1     705          30
  with blocking 0: total 1985, slack 16

core 2 passes
  nearest to its limit within 315 us: 315 asked for, 0 to spare
  task       kind   jobs due  demand  interrupts
  dosing     whole         0       0          15
  film-feed  whole         0       0          15
  jaw-cross  first         1     245          15
  with blocking 25: total 315, slack 0

core 3 passes
  nearest to its limit within 659 us: 600 asked for, 59 to spare
  task           kind   jobs due  demand  interrupts
  jaw-cross      last          1     265          30
  mark-register  whole         1     205          15
  heater-upper   whole         0       0          15
  heater-lower   whole         0       0          15
  panel          whole         0       0          15
  reject         whole         0       0          15
  with blocking 25: total 600, slack 59
"
    );
    let parts: Vec<&str> = all.split("\n\n").collect();
    for core in 1..=3 {
        let one = spardimple(&["why", "--unit", "us", FILM, &core.to_string()]);
        let expected = format!("{}\n\n{}\n", parts[0], parts[core].trim_end());
        assert_eq!((status(&one), text(&one.stdout)), (0, expected));
    }
}

/// A sheet with no room has the last core with the task added, whichever core is asked for. The message
/// is that of `plan` but for the figures, which stand in the table; the exit status is that of a refusal.
#[test]
fn no_room() {
    let table = "examples/film-line-checkweigher.sheet:
  no room for task 12, `checkweigher`; times in ticks

core 3 with the whole of `checkweigher` is overloaded
  within 52829 ticks 52830 are asked for, 1 too many;
  a shorter length may lack more
  task           kind   jobs due  demand  interrupts
  jaw-cross      last         53   14045        1590
  mark-register  whole        14    2870         210
  heater-upper   whole         5    9925          90
  heater-lower   whole         5    9925          90
  panel          whole         1    9645          15
  reject         whole         3    1065          45
  checkweigher   whole        10    3150         165
  with blocking 0: total 52830, slack -1
";
    for words in [
        &["why", STUCK][..],
        &["why", STUCK, "1"],
        &["why", "--exit-status", STUCK, "3"],
    ] {
        let why = spardimple(words);
        assert_eq!(status(&why), 1, "{words:?}");
        assert_eq!(text(&why.stdout), table, "{words:?}");
        assert_eq!(text(&why.stderr), NO_ROOM, "{words:?}");
    }
    let listing = spardimple(&["why", "--listing", STUCK]);
    assert_eq!(status(&listing), 1);
    assert_eq!(
        text(&listing.stdout),
        file("examples/film-line-checkweigher.why")
    );
}

/// Every command that tells of a refused sheet ends with why there is no room, and so does the desk, of
/// a sheet and of an edit.
#[test]
fn a_refusal_says_why() {
    let said = format!("{NO_ROOM}{BECAUSE}");
    for command in ["plan", "check", "show", "report"] {
        let refused = spardimple(&[command, STUCK]);
        assert_eq!(status(&refused), 1, "{command}");
        assert_eq!(text(&refused.stderr), said, "{command}");
    }
    let sheets = folder("why-batch");
    fs::write(sheets.join("a.sheet"), file(STUCK)).unwrap();
    let batch = spardimple(&["batch".as_ref(), sheets.as_os_str()]);
    assert!(text(&batch.stderr).ends_with(BECAUSE));
    let page = text(&spardimple(&["report", "--unit", "us", STUCK]).stdout);
    assert!(page.contains("within 52829 us 52830 are asked for, 1 too many"));
    if !desk().is_file() {
        println!("no desk program here: left out");
        return;
    }
    let refused = spardimple_fed(&["desk", STUCK], b"list\n");
    assert_eq!(text(&refused.stderr), said);
    let edit = b"add\tcheckweigher\t250\t5000\t5000\t0\t20\t40\n";
    let refused = spardimple_fed(&["desk", FILM], edit);
    let refused = text(&refused.stderr);
    assert!(
        refused.contains("the plan stays as it was") && refused.ends_with(BECAUSE),
        "{refused}"
    );
}

/// The library's own lines: of one core, or of all in their order.
#[test]
fn listings() {
    for name in ["film-line", "case-packer", "labeller"] {
        let path = format!("examples/{name}.sheet");
        let sheet = file(&path);
        let mut all = Vec::new();
        for core in 1..=4 {
            let one = spardimple(&["why", "--listing", &path, &core.to_string()]);
            match why_core(sheet.as_bytes(), core).unwrap() {
                Ok(listing) => {
                    assert_eq!((status(&one), &one.stdout), (0, &listing));
                    all.extend(listing);
                }
                Err(_) => assert_eq!((status(&one), one.stdout.len()), (1, 0)),
            }
        }
        let why = spardimple(&["why", "--listing", &path]);
        assert_eq!((status(&why), why.stdout), (0, all), "{name}");
    }
    let none = b"machine\t3\t1\ncost\t0\t0\t0\t0\t0\t0\t0\t0\t0\n";
    let why = spardimple_fed(&["why", "--listing", "-"], none);
    assert_eq!(text(&why.stdout), "why\tpasses\t0\t0\n".repeat(3));
    let why = text(&spardimple_fed(&["why", "-", "2"], none).stdout);
    assert!(why.ends_with("\n\ncore 2 passes\n  it has no pieces\n"));
}

/// Every stated why listing is one that people can be told of.
#[test]
fn stated_listings_are_parsed() {
    let (mut parsed, mut refused) = (0, 0);
    for folder in ["why", "why-records"] {
        for name in inputs::cases(folder, ".out") {
            let listing = inputs::bytes(folder, &format!("{name}.out"));
            let why = Why::parse(&listing);
            let is_refusal = listing.starts_with(b"refusal\t");
            assert_eq!(why.is_none(), is_refusal, "{folder}/{name}");
            parsed += u32::from(!is_refusal);
            refused += u32::from(is_refusal);
        }
    }
    assert!(parsed > 80 && refused > 5, "{parsed} {refused}");
}

/// One core, as records and as a table: K7 is overloaded, K4 undecided, K8 passes, and no record passes.
/// The exit status tells the verdict only if it is asked to.
#[test]
fn one_core() {
    let folder = folder("why-core");
    let zeros = [0; 9];
    let k7_costs = [0, 0, 0, 4, 0, 0, 0, 0, 0];
    let k7 = "the core is overloaded
  within 11 ticks 12 are asked for, 1 too many; a shorter length may lack more
  record  kind   jobs due  demand  interrupts
       1  whole         1       8           0
       2  whole         0       0           0
  with blocking 4: total 12, slack -1
";
    let k4 = "the core is undecided
  more work than time in every length up to 100000000 ticks;
  within that 120000000 are asked for, 20000000 too many
  record  kind   jobs due    demand  interrupts
       1  whole  10000000  60000000           0
       2  whole  10000000  60000000           0
  with blocking 0: total 120000000, slack -20000000
";
    let k8 = "the core passes
  nearest to its limit within 101 ticks: 18 asked for, 83 to spare
  record  kind   jobs due  demand  interrupts
       1  whole         1      12           6
  with blocking 0: total 18, slack 83
";
    let k1 = "the core passes\n  it has no pieces\n";
    for (pieces, costs, told, said) in [
        (&[[8, 10, 50], [1, 12, 50]][..], k7_costs, 4, k7),
        (&[[6, 10, 10], [6, 10, 10]], zeros, 5, k4),
        (&[[5, 100, 100]], [2, 3, 1, 4, 0, 0, 0, 0, 0], 0, k8),
        (&[], zeros, 0, k1),
    ] {
        let record = |[x, d, t]: &[u64; 3]| lent(&[0, *x, *d, *t, 0, 0, 0]);
        let records: Vec<u8> = pieces.iter().flat_map(record).collect();
        let line = |[x, d, t]: &[u64; 3]| format!("whole\t{x}\t{d}\t{t}\t0\t0\t0\n");
        let costs_line = costs.map(|cost| cost.to_string()).join("\t");
        let table = format!("cost\t{costs_line}\n") + &pieces.iter().map(line).collect::<String>();
        fs::write(folder.join("r"), &records).unwrap();
        fs::write(folder.join("c"), lent(&costs)).unwrap();
        fs::write(folder.join("t"), table).unwrap();
        let ended = |given: &[&str]| {
            let ended = program().args(given).current_dir(&folder).output();
            let ended = ended.unwrap();
            assert!(ended.stderr.is_empty());
            (status(&ended), text(&ended.stdout))
        };
        let head = "what is asked of the core; times in ticks";
        let of = |name: &str| format!("{name}: {head}\n\n{said}");
        assert_eq!(ended(&["why", "--records", "r", "c"]), (0, of("r")));
        assert_eq!(ended(&["why", "--table", "t"]), (0, of("t")));
        let status = ["why", "--exit-status", "--table", "t"];
        assert_eq!(ended(&status), (told, of("t")));
        let listing = configurator::why_records(&records, &lent(&costs));
        let listing = text(&listing.unwrap().unwrap());
        for words in [&["--records", "r", "c"][..], &["--table", "t"]] {
            let words = [&["why", "--listing", "--exit-status"], words].concat();
            assert_eq!(ended(&words), (told, listing.clone()));
        }
    }
}

/// What `verdict` refuses, `why` refuses with the same words.
#[test]
fn refused_cores() {
    let (rec, cost) = ("examples/film-core.rec", "examples/film-core.cost");
    for (files, option) in [
        (&[cost, rec][..], "--records"),
        (&[rec, rec], "--records"),
        (&["/dev/zero", cost], "--records"),
        (&[FILM], "--table"),
        (&["/dev/null"], "--table"),
    ] {
        let why = spardimple(&[&["why", option], files].concat());
        let verdict = match files {
            [table] => spardimple(&["verdict", "--table", table]),
            files => spardimple(&[&["verdict"], files].concat()),
        };
        assert_eq!(status(&why), 1, "{files:?}");
        assert_eq!((why.stdout, why.stderr), (vec![], verdict.stderr));
    }
}

/// A refused sheet has the message of `plan`; a core that the machine does not have is refused too.
#[test]
fn refused_sheets() {
    for path in [
        "examples/film-line-mistyped.sheet",
        "/dev/zero",
        "/dev/null",
    ] {
        let plan = spardimple(&["plan", path]);
        for words in [
            &["why", path][..],
            &["why", path, "2"],
            &["why", path, "99"],
        ] {
            let why = spardimple(words);
            assert_eq!(status(&why), 1, "{words:?}");
            assert_eq!((&why.stdout, &why.stderr), (&vec![], &plan.stderr));
        }
    }
    for (path, core) in [(FILM, "4"), (FILM, "0"), (STUCK, "18446744073709551615")] {
        let why = spardimple(&["why", path, core]);
        assert_eq!((status(&why), why.stdout.len()), (1, 0));
        assert_eq!(
            text(&why.stderr),
            format!(
                "{path}: refused (1): there is no core {core}\n  the machine has 3 cores\n  \
                 to do: ask for a core that the machine has, or leave CORE out for all of them\n"
            )
        );
    }
}

#[test]
fn wrong_use() {
    let wrong: [&[&str]; 10] = [
        &["why"],
        &["why", FILM, "x"],
        &["why", FILM, "-1"],
        &["why", FILM, "1", "2"],
        &["why", "--records", "one"],
        &["why", "--records", "-", "-"],
        &["why", FILM, "--records", "one", "two"],
        &["why", FILM, "--table", "one"],
        &["why", "--table", "one", "--records", "two", "three"],
        &["why", FILM, "--listing", "--json"],
    ];
    for words in wrong {
        let wrong = spardimple(words);
        assert_eq!(status(&wrong), 2, "{words:?}");
        assert!(wrong.stdout.is_empty() && !wrong.stderr.is_empty());
    }
    let missing = spardimple(&["why", "examples/none.sheet"]);
    assert_eq!(status(&missing), 3);
    assert!(text(&missing.stderr).starts_with("examples/none.sheet: "));
}

/// No line has more than 80 columns, but a message.
#[test]
fn tables_fit_a_terminal() {
    let narrow = "machine\t1\t1\ncost\t100000\t100000\t100000\t100000\t0\t0\t0\t0\t0\n\
                  part\tp\t1\t1\t1\t1000000\t100000\t100000\n\
                  fit\tabcdefghijklmnopqrstuvwx\tp\nfit\tabcdefghijklmnopqrstuvwX\tp\n";
    let wide = "machine\t1\t1\ncost\t0\t0\t0\t0\t0\t0\t0\t0\t0\n\
                part\tp\t499999\t1000000\t1000000\t0\t0\t0\n\
                fit\tabcdefghijklmnopqrstuvwx\tp\nfit\tabcdefghijklmnopqrstuvwX\tp\n";
    for (sheet, ends) in [(wide, 0), (narrow, 1)] {
        let unit = "刻刻刻刻刻刻刻刻"; // two columns each
        let why = spardimple_fed(&["why", "--unit", unit, "-"], sheet.as_bytes());
        assert_eq!(status(&why), ends);
        for line in text(&why.stdout).lines() {
            assert!(width(line) <= 80, "{} columns: {line}", width(line));
        }
    }
}

#[test]
fn colours_on_a_terminal() {
    let words = format!("why {FILM} 2");
    let coloured = on_a_terminal(&words, "");
    assert!(coloured.contains("\u{1b}[1mcore 2\u{1b}[0m passes"));
    assert!(!on_a_terminal(&words, "1").contains('\u{1b}'));
}
