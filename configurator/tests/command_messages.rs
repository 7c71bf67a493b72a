//! The messages of `verdict`: which file is wrong and how, what an undecided core is, and the exit status
//! that tells the verdict. No file is read past the sizes.

#![warn(clippy::all, clippy::pedantic)]

mod common;

use common::command::{file, folder, program, spardimple, spardimple_fed, text};
use inputs::cores::lent;
use std::fs;
use std::path::Path;

/// Judges two files of a folder, written anew, and gives the status and what is said.
fn judged(folder: &Path, records: &[u8], costs: &[u8]) -> (Option<i32>, String) {
    fs::write(folder.join("film.rec"), records).unwrap();
    fs::write(folder.join("film.cost"), costs).unwrap();
    let words = ["verdict", "film.rec", "film.cost"];
    let ended = program().args(words).current_dir(folder).output().unwrap();
    assert_eq!(ended.stdout.is_empty(), ended.status.code() == Some(1));
    (
        ended.status.code(),
        text(&ended.stdout) + &text(&ended.stderr),
    )
}

/// Records of whole pieces with no jitter and no charges.
fn records(times: &[[u64; 4]]) -> Vec<u8> {
    let record = |[kind, x, d, t]: &[u64; 4]| lent(&[*kind, *x, *d, *t, 0, 0, 0]);
    times.iter().flat_map(record).collect()
}

#[test]
fn the_file_that_is_wrong_is_named() {
    let folder = folder("wrong-bytes");
    let (good, costs) = (records(&[[0, 5, 10, 10]; 5]), vec![0; 36]);
    let form = "refused (8): not formed as it should be, or cut short";
    let sizes =
        "a time must be at most 1,000,000, a cache charge at most 100,000, and 1 ≤ C ≤ D ≤ T";
    let times =
        "correct the times; where they are too long, take a longer tick for the whole sheet";
    let of_records = "RECORDS has seven numbers of four bytes for each piece";
    let of_costs = "COSTS has nine numbers of four bytes";
    let too_great = lent(&[0, 0, 0, 0, 0, 0, 0, 0, 100_001]);
    let record = |at: usize, how: &str, remedy: &str| {
        format!("film.rec: refused (3) at record {at}: {sizes}\n  record {at}: {how}\n  to do: {remedy}\n")
    };
    let kind = "kind 7, where 0 (whole), 1 (first) or 2 (last) should stand";
    let changed = "RECORDS stands first, then COSTS; the two files seem to have changed places";
    for (records, costs, message) in [
        (
            good.clone(),
            vec![0; 35],
            format!("film.cost: {form}\n  35 bytes, 36 needed\n  to do: {of_costs}\n"),
        ),
        (
            good.clone(),
            vec![0; 1_000],
            format!("film.cost: {form}\n  1000 bytes, 36 needed\n  to do: {of_costs}\n"),
        ),
        (
            good[..139].to_vec(),
            costs.clone(),
            format!("film.rec: {form}\n  139 bytes is no multiple of 28\n  to do: {of_records}\n"),
        ),
        (
            vec![0],
            vec![],
            format!(
                "film.rec: {form}\n  1 byte is no multiple of 28\n  to do: {of_records}\n\
                 film.cost: {form}\n  0 bytes, 36 needed\n  to do: {of_costs}\n"
            ),
        ),
        (
            costs.clone(),
            good.clone(),
            format!(
                "film.rec: {form}\n  36 bytes is no multiple of 28\n  to do: {changed}\n\
                 film.cost: {form}\n  140 bytes, 36 needed\n  to do: {changed}\n"
            ),
        ),
        (
            records(&[[0, 5, 10, 10], [1, 5, 10, 10], [7, 5, 10, 10]]),
            costs.clone(),
            record(3, kind, "correct the kind, the record's first number"),
        ),
        (
            records(&[[0, 5, 10, 10], [2, 5, 12, 10]]),
            costs.clone(),
            record(2, "D is 12 here and T is 10", times),
        ),
        (
            records(&[[0, 0, 10, 10]]),
            costs.clone(),
            record(1, "x is 0 here", times),
        ),
        (
            lent(&[0, 1, 1, 1, 0, 0, 100_001]),
            costs.clone(),
            record(1, "M is 100001 here", times),
        ),
        (
            good.clone(),
            too_great,
            "film.cost: refused (2): a cost must be at most 100,000\n  π is 100001 here\n  \
             to do: correct that constant; it counts ticks, as all times do\n"
                .to_owned(),
        ),
        (
            records(&[[0, 5, 10, 10]; 81]),
            costs.clone(),
            "film.rec: refused (6): one too many; at most 64 parts, 64 tasks, 79 records\n  \
             81 records, 79 at most\n  \
             to do: share the pieces out over two cores\n"
                .to_owned(),
        ),
    ] {
        assert_eq!(judged(&folder, &records, &costs), (Some(1), message));
    }
    assert_eq!(judged(&folder, &good[..28], &costs).0, Some(0));
}

/// What has no end is refused at once, whatever it is read for. Of a stream 80 records are looked at.
#[test]
fn endless_files() {
    let (rec, cost) = ("examples/film-core.rec", "examples/film-core.cost");
    for (words, begin) in [
        (&["verdict", "/dev/zero", cost][..], "/dev/zero: refused (6): one too many; at most 64 parts, 64 tasks, 79 records\n  more than 80 records, 79 at most\n"),
        (&["verdict", rec, "/dev/zero"], "/dev/zero: refused (8): not formed as it should be, or cut short\n  more than 36 bytes, 36 needed\n"),
        (&["verdict", "--table", "/dev/zero"], "/dev/zero: refused (9)"),
        (&["plan", "/dev/zero"], "/dev/zero: refused (9)"),
        (&["check", "/dev/zero"], "/dev/zero: refused (9)"),
        (&["fmt", "/dev/zero"], "/dev/zero: refused (9)"),
    ] {
        let ended = spardimple(words);
        assert_eq!(ended.status.code(), Some(1), "{words:?}");
        let said = text(&ended.stderr);
        assert!(said.starts_with(begin), "{said}");
    }
    let piped = |records: &[u8]| {
        let ended = spardimple_fed(&["verdict", "-", cost], records);
        text(&ended.stdout) + &text(&ended.stderr)
    };
    let eighty = records(&[[0, 1, 1_000, 1_000]; 80]);
    assert!(piped(&eighty[..79 * 28]).starts_with("undecided"));
    assert!(piped(&eighty[..2_213]).contains("\n  2213 bytes is no multiple of 28\n"));
    assert!(piped(&eighty).contains("\n  80 records, 79 at most\n"));
    assert!(piped(&[eighty, vec![0]].concat()).contains("\n  more than 80 records, 79 at most\n"));
}

/// A table's 80th record has its line.
#[test]
fn the_line_of_the_80th_record() {
    let table =
        "cost\t0\t0\t0\t0\t0\t0\t0\t0\t0\n".to_owned() + &"whole\t1\t99\t99\t0\t0\t0\n".repeat(81);
    let refused = spardimple_fed(&["verdict", "--table", "-"], table.as_bytes());
    assert_eq!(
        text(&refused.stderr),
        "standard input:81: refused (6): one too many; at most 64 parts, 64 tasks, 79 records
  whole⇥1⇥99⇥99⇥0⇥0⇥0
  to do: take away what is not used, or share the tasks out over two controllers\n"
    );
}

/// The verdicts in words, and by the exit status where it is asked for. K1 passes, K3 is overloaded, K4
/// undecided.
#[test]
fn verdicts_and_their_status() {
    let folder = folder("verdicts");
    fs::write(folder.join("c"), [0; 36]).unwrap();
    let passes = "passes: in no length of time is more work due than fits\n";
    let overloaded = "overloaded at 9: within 9 ticks more work is due than fits\n";
    let undecided = "undecided: more work than time in every length up to 100,000,000 ticks; \
                     such a core does not pass, and no plan has one\n";
    let table = |times: &str| format!("cost\t0\t0\t0\t0\t0\t0\t0\t0\t0\n{}", times.repeat(2));
    for (times, line, status, words) in [
        (vec![], "", 0, passes),
        (
            vec![[0, 5, 5, 10]; 2],
            "whole\t5\t5\t10\t0\t0\t0\n",
            4,
            overloaded,
        ),
        (
            vec![[0, 6, 10, 10]; 2],
            "whole\t6\t10\t10\t0\t0\t0\n",
            5,
            undecided,
        ),
    ] {
        fs::write(folder.join("r"), records(&times)).unwrap();
        fs::write(folder.join("t"), table(line)).unwrap();
        let ended = |given: &[&str]| {
            let ended = program().args(given).current_dir(&folder).output().unwrap();
            assert!(ended.stderr.is_empty());
            (ended.status.code(), text(&ended.stdout))
        };
        let plain = (Some(0), words.to_owned());
        assert_eq!(ended(&["verdict", "r", "c"]), plain);
        assert_eq!(ended(&["verdict", "--table", "t"]), plain);
        let told = (Some(status), words.to_owned());
        assert_eq!(ended(&["verdict", "--exit-status", "r", "c"]), told);
        assert_eq!(ended(&["verdict", "r", "c", "--exit-status"]), told);
        assert_eq!(ended(&["verdict", "--exit-status", "--table", "t"]), told);
    }
    let status = |given: &[&str]| spardimple(given).status.code();
    let cost = "examples/film-core.cost";
    assert_eq!(status(&["verdict", "--exit-status", cost, cost]), Some(1));
    assert_eq!(status(&["verdict", "--exit-status", cost]), Some(2));
    assert_eq!(status(&["verdict", "--exit-status", "none", cost]), Some(3));
}

/// One name for the clock's precision, and help of at most 100 columns.
#[test]
fn help() {
    for sub in ["", "plan", "check", "fmt", "verdict", "why"] {
        let words: Vec<&str> = [sub, "--help"]
            .into_iter()
            .filter(|word| !word.is_empty())
            .collect();
        let help = text(&spardimple(&words).stdout);
        assert!(!help.contains("precision"), "{help}");
        let wide = help.lines().find(|line| line.chars().count() > 100);
        assert_eq!(wide, None);
    }
    let help = text(&spardimple(&["--help"]).stdout);
    assert!(help.contains("IpiO, IpiJ, π\n"));
    assert!(help.contains("4  overloaded, and 5  undecided"));
    assert!(file("include/spardimple.h").contains("IpiO, IpiJ, π."));
}
