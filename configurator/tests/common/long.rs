//! Sheets in which all is as long as it may be, to look at what people read.

use std::fmt::Write;

/// The beginning of a sheet without costs.
fn machine(cores: usize) -> String {
    format!("machine\t{cores}\t1\ncost\t0\t0\t0\t0\t0\t0\t0\t0\t0\n")
}

/// The lines of parts of these times and of a task for each. Names begin with a word and a number.
fn lines(times: &[String], name: impl Fn(&str, usize) -> String) -> String {
    let mut sheet = String::new();
    for (at, times) in times.iter().enumerate() {
        let _ = writeln!(sheet, "part\t{}\t{times}", name("part", at));
    }
    for at in 0..times.len() {
        let _ = writeln!(sheet, "fit\t{}\t{}", name("task", at), name("part", at));
    }
    sheet
}

/// 64 tasks in 78 pieces on 16 cores: names of 24 letters, and in each column a figure with as many
/// digits as there can be.
pub fn widest() -> String {
    let times = |at: u32| match at {
        0 => "1000000\t1000000\t1000000\t0\t0\t100000".to_owned(),
        63 => "1\t1000000\t1000000\t100000\t0\t100000".to_owned(),
        _ => format!("{}\t1000000\t1000000\t0\t0\t0", 240_000 - at),
    };
    let times: Vec<String> = (0..64).map(times).collect();
    machine(16)
        + &lines(&times, |word, at| {
            format!("{word}-{at:02}-sealing-jaw-cros")
        })
}

/// 64 tasks on one core, which is more than a printed page has room for.
pub fn tallest() -> String {
    let times = |at: u32| format!("{}\t{}\t100000\t0\t0\t0", 10 + at, 20_000 + 1_000 * at);
    let times: Vec<String> = (0..64).map(times).collect();
    machine(1) + &lines(&times, |word, at| format!("{word}-{at}"))
}
