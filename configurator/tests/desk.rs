//! The proved program `desk` against stated answers and the oracle, which plans afresh at each edit.
//! The program is `target/bin/desk`, which `bash .ci/prove desk` writes; `SPARDIMPLE_EMULATOR` names what
//! runs it on a machine that is not x86-64.

#![warn(clippy::all, clippy::pedantic)]

use inputs::sheets::{full_load, SMALL};
use inputs::{bytes, cases, rounds, Random};
use plain::desk::play;
use plain::verdict::Way;
use std::collections::BTreeMap;
use std::io::Write;
use std::path::PathBuf;
use std::process::{Command, Stdio};
use tempfile::NamedTempFile;

/// What the program writes for a sheet, which is put into the file, and a script.
fn answers(file: &NamedTempFile, sheet: &[u8], script: &[u8]) -> Vec<u8> {
    std::fs::write(file, sheet).unwrap();
    let desk = PathBuf::from(env!("CARGO_MANIFEST_DIR")).join("../target/bin/desk");
    assert!(desk.exists(), "no program: run `bash .ci/prove desk` first");
    let mut command = match std::env::var_os("SPARDIMPLE_EMULATOR") {
        Some(emulator) => {
            let mut command = Command::new(emulator);
            command.arg(desk);
            command
        }
        None => Command::new(desk),
    };
    let mut child = command
        .arg(file.path())
        .stdin(Stdio::piped())
        .stdout(Stdio::piped())
        .spawn()
        .expect("the program runs");
    // a refused sheet is answered before the script is read, so the pipe may be closed
    let _ = child.stdin.take().unwrap().write_all(script);
    child.wait_with_output().unwrap().stdout
}

/// Answers by their first words: `ok`, `plan`, `refusal` with its number.
fn count(answers: &[u8], counts: &mut BTreeMap<String, u64>) {
    for line in String::from_utf8_lossy(answers).lines() {
        let words: Vec<&str> = line.split('\t').collect();
        let kind = match words[..] {
            ["refusal", number, _] => format!("refusal {number}"),
            ["piece", ..] => continue,
            _ => words[0].to_owned(),
        };
        *counts.entry(kind).or_default() += 1;
    }
}

#[test]
fn stated_scripts() {
    let file = NamedTempFile::new().unwrap();
    let mut compared = 0;
    for folder in ["desk", "special"] {
        for name in cases(folder, ".script") {
            let part = |ending: &str| bytes(folder, &format!("{name}{ending}"));
            let answers = answers(&file, &part(".sheet"), &part(".script"));
            assert_eq!(answers, part(".out"), "{folder}/{name}");
            compared += 1;
        }
    }
    println!("{compared} compared");
    assert_eq!(compared, 68);
}

/// Scripts of 1 to 60 edits over light, heavy and nearly full sheets.
#[test]
fn random_scripts() {
    let mut random = Random::for_test();
    let file = NamedTempFile::new().unwrap();
    let mut counts = BTreeMap::new();
    let mut compared = 0;
    for round in 0..rounds(100) {
        for draw in &SMALL {
            let sheet = if round % 4 == 0 && draw.cost == 0 {
                full_load(0, &mut random)
            } else {
                draw.sheet(&mut random)
            };
            let lines = random.between(1, 60);
            let script = draw.script(lines, &mut random);
            let way = if draw.period > 100 {
                Way::Stretches
            } else {
                Way::EveryLength
            };
            let expected = play(&sheet, &script, way);
            let answers = answers(&file, &sheet, &script);
            assert!(
                answers == expected,
                "{}\n{}\nthe program:\n{}\nthe oracle:\n{}",
                String::from_utf8_lossy(&sheet),
                String::from_utf8_lossy(&script),
                String::from_utf8_lossy(&answers),
                String::from_utf8_lossy(&expected)
            );
            count(&answers, &mut counts);
            compared += 1;
        }
    }
    println!("{compared} scripts compared, answers: {counts:?}");
    for kind in [
        "ok",
        "plan",
        "refusal 3",
        "refusal 4",
        "refusal 5",
        "refusal 7",
        "refusal 8",
    ] {
        assert!(counts.get(kind).copied() > Some(50), "{kind} comes up");
    }
}
