//! Random files through the command: no crash, and the library's answers.

#![warn(clippy::all, clippy::pedantic)]

mod common;

use common::command::{folder, spardimple};
use configurator::command::{run, Status, Streams};
use configurator::explain::refused;
use configurator::plan;
use inputs::sheets::{damaged, SheetDraw, SHEET};
use inputs::{rounds, Random};
use std::ffi::OsString;
use std::fs;
use std::path::Path;

/// A file: bytes of any kind, bytes that sheets are made of, a damaged sheet, or a good one.
fn random_file(random: &mut Random) -> Vec<u8> {
    let draw = SheetDraw::new(4, 100, 2, 5);
    let length = match random.between(0, 9) {
        0 => random.place(20_000),
        _ => random.place(300),
    };
    match random.between(0, 4) {
        0 => (0..length).map(|_| random.byte()).collect(),
        1 => (0..length)
            .map(|_| random.pick(b"part\tfi\n01 9\r-.\xff"))
            .collect(),
        2 => damaged(SHEET.as_bytes(), random),
        3 => damaged(&draw.sheet(random), random),
        _ => draw.sheet(random),
    }
}

/// Writes a new file. (One that is only emptied first would wait for the disk.)
fn put(path: &Path, bytes: &[u8]) {
    let _ = fs::remove_file(path);
    fs::write(path, bytes).unwrap();
}

/// What the command says in this process.
fn said(words: &[&str]) -> (Status, Vec<u8>, String) {
    let (mut out, mut err) = (Vec::new(), Vec::new());
    let mut streams = Streams {
        out: &mut out,
        err: &mut err,
        colour: true,
        progress: true,
    };
    let status = run(words.iter().map(OsString::from), &mut streams);
    (
        status,
        out,
        String::from_utf8(err).expect("messages are text"),
    )
}

/// Many files through `plan`, and each also through another command. Where a line or its words are
/// refused, what is wrong with them is found.
#[test]
fn many_files() {
    let mut random = Random::for_test();
    let folder = folder("random");
    let sheet = folder.join("s.sheet");
    let path = sheet.to_str().unwrap();
    let dir = folder.to_str().unwrap();
    let of_a_sheet: [&[&str]; 5] = [
        &["show", path],
        &["report", path],
        &["batch", dir],
        &["why", path],
        &["why", "--json", path],
    ];
    let of_a_core: [&[&str]; 4] = [
        &["verdict", "--table", path],
        &["verdict", path, path],
        &["why", "--table", path],
        &["why", "--records", path, path],
    ];
    let others = of_a_sheet.iter().chain(&of_a_core).cycle();
    let mut planned = 0;
    let files = rounds(3_000);
    for (_, other) in (0..files).zip(others) {
        let bytes = random_file(&mut random);
        put(&sheet, &bytes);
        let (status, out, err) = said(&["plan", path]);
        let (second, ..) = said(other);
        let of_core = of_a_core.contains(other);
        assert!(second == status || of_core && second <= Status::Refused);
        match plan(&bytes).unwrap() {
            Ok(listing) => {
                assert_eq!((status, out, err.as_str()), (Status::Accepted, listing, ""));
                planned += 1;
            }
            Err(refusal) => {
                assert_eq!((status, out.len()), (Status::Refused, 0));
                let found = refused(refusal, &bytes).why.is_some();
                assert_eq!(found, matches!(refusal.number(), 1..=5 | 8), "{err}");
                let line = match refusal.number() {
                    1..=6 | 8 => format!(":{}: ", refusal.carries()),
                    7 => ":".to_owned(),
                    _ => ": ".to_owned(),
                };
                assert!(err.starts_with(&format!("{path}{line}")), "{err}");
                assert!(
                    err.contains(&format!(": refused ({}): ", refusal.number())),
                    "{err}"
                );
                let says_why = err.contains("\n  why: core ");
                assert_eq!(says_why, refusal.number() == 7, "{err}");
            }
        }
    }
    println!("{planned} of {files} planned");
    assert!(planned > files / 10);
}

/// Some of them as processes.
#[test]
fn as_processes() {
    let mut random = Random::for_test();
    let path = folder("random-processes").join("s.sheet");
    for _ in 0..rounds(60) {
        let bytes = random_file(&mut random);
        put(&path, &bytes);
        let ended = spardimple(&["plan".as_ref(), path.as_os_str()]);
        match plan(&bytes).unwrap() {
            Ok(listing) => assert_eq!((ended.status.code(), ended.stdout), (Some(0), listing)),
            Err(_) => assert_eq!((ended.status.code(), ended.stdout.len()), (Some(1), 0)),
        }
    }
}
