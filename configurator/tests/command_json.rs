//! Answers as JSON, end to end: what they hold, and that `docs/json.schema.json` describes them.

#![warn(clippy::all, clippy::pedantic)]

mod common;

use common::command::{file, folder, root, spardimple, spardimple_fed, text};
use serde_json::{json, Value};
use std::ffi::OsStr;
use std::fs;
use std::os::unix::ffi::{OsStrExt, OsStringExt};
use std::os::unix::fs::symlink;
use std::process::{Command, Output};
use std::str;
use tempfile::NamedTempFile;

/// The JSON that the command prints, in ASCII, as the schema describes it.
fn json(output: &Output) -> Value {
    assert!(output.stdout.is_ascii());
    let answer = NamedTempFile::new().unwrap();
    fs::write(&answer, &output.stdout).unwrap();
    let checked = Command::new("python3")
        .arg("-c")
        .arg(
            "import json, sys, jsonschema
schema, answer = (json.load(open(name)) for name in sys.argv[1:])
jsonschema.Draft202012Validator.check_schema(schema)
jsonschema.Draft202012Validator(schema).validate(answer)",
        )
        .arg(root("docs/json.schema.json"))
        .arg(answer.path())
        .output()
        .expect("python3 runs");
    let said = String::from_utf8_lossy(&checked.stderr);
    assert!(checked.status.success(), "{said}\n{}", text(&output.stdout));
    serde_json::from_slice(&output.stdout).expect("the command prints JSON")
}

/// The file that an answer names, opened by that name.
fn reopened(file: &Value) -> Vec<u8> {
    let mut name = Vec::new();
    let mut letters = file["path"].as_str().unwrap().bytes();
    while let Some(letter) = letters.next() {
        name.push(if letter == b'%' {
            let digits = [letters.next().unwrap(), letters.next().unwrap()];
            u8::from_str_radix(str::from_utf8(&digits).unwrap(), 16).unwrap()
        } else {
            letter
        });
    }
    fs::read(root("").join(OsStr::from_bytes(&name))).unwrap()
}

/// A listing as JSON has the listing's fields in their order, each piece on a line.
#[test]
fn plans() {
    let planned = spardimple(&["plan", "--json", "examples/film-line.sheet"]);
    assert_eq!(planned.status.code(), Some(0));
    let lines = text(&planned.stdout);
    let parsed = json(&planned);
    assert_eq!(parsed["version"], 1);
    assert_eq!(parsed["command"], "plan");
    assert_eq!(parsed["answer"], "planned");
    assert_eq!(parsed["tasks"], 11);
    let pieces = parsed["pieces"].as_array().unwrap();
    let rows = file("examples/film-line.listing");
    assert_eq!(rows.lines().count(), 1 + pieces.len());
    for (row, piece) in rows.lines().skip(1).zip(pieces) {
        let fields: Vec<&str> = row.split('\t').collect();
        if let [_, core, task, kind, budget, window, jitter, charged] = fields[..] {
            let line = format!(
                "{{\"core\": {core}, \"task\": \"{task}\", \"kind\": \"{kind}\", \"budget\": {budget}, \
                 \"window\": {window}, \"jitter\": {jitter}, \"charged\": {charged}}}"
            );
            assert!(lines.contains(&format!("\n    {line}")), "{line}");
            assert_eq!(&serde_json::from_str::<Value>(&line).unwrap(), piece);
        }
    }
    let none = spardimple_fed(
        &["plan", "--json", "-"],
        b"machine\t1\t1\ncost\t0\t0\t0\t0\t0\t0\t0\t0\t0\n",
    );
    let parsed = json(&none);
    assert_eq!(parsed["pieces"], Value::Array(Vec::new()));
    assert_eq!(parsed["files"][0]["path"], Value::Null);
}

/// What an answer came from: the files that it names can be opened again, whatever bytes their names
/// have, and have the digests that it names.
#[test]
fn files() {
    let name = OsStr::from_bytes(b"caf\xc3\xa9 100%\xff\n.sheet").to_owned();
    let path = folder("json-names").join(name);
    fs::copy(root("examples/film-line.sheet"), &path).unwrap();
    let planned = spardimple(&["plan".as_ref(), "--json".as_ref(), path.as_os_str()]);
    let parsed = json(&planned);
    let sheet = &parsed["files"][0];
    assert_eq!(sheet["what"], "sheet");
    assert!(path
        .as_os_str()
        .to_owned()
        .into_vec()
        .ends_with(b"\xff\n.sheet"));
    assert_eq!(reopened(sheet), fs::read(&path).unwrap());
    let digest = Command::new("sha256sum")
        .arg(root("examples/film-line.sheet"))
        .output()
        .unwrap();
    let digest = text(&digest.stdout);
    assert!(digest.starts_with(sheet["sha256"].as_str().unwrap()));
}

/// A refusal as JSON has the message's sentences.
#[test]
fn refusals() {
    let path = "examples/film-line-mistyped.sheet";
    let refused = spardimple(&["plan", "--json", path]);
    assert_eq!(refused.status.code(), Some(1));
    let parsed = json(&refused);
    assert_eq!(parsed["answer"], "refused");
    assert_eq!(parsed["files"][0]["name"], path);
    for (name, value) in [("number", 5), ("carries", 14), ("line", 14)] {
        assert_eq!(parsed["refused"][name], value, "{name}");
    }
    for name in ["meaning", "why", "remedy"] {
        let sentence = parsed["refused"][name].as_str().unwrap();
        assert!(text(&refused.stderr).contains(sentence), "{sentence}");
    }
    let long = spardimple_fed(&["plan", "--json", "-"], &vec![b'x'; 16_385]);
    let parsed = json(&long);
    for name in ["line", "why"] {
        assert_eq!(parsed["refused"][name], Value::Null, "{name}");
    }
    assert_eq!(parsed["files"][0]["sha256"], Value::Null);
    let sheet = "machine\t1\t1\ncost\t0\t0\t0\t0\t0\t0\t0\t0\t100001\n";
    let refused = spardimple_fed(&["plan", "--json", "-"], sheet.as_bytes());
    assert_eq!(json(&refused)["refused"]["why"], "π is 100001 here");
}

/// A file that is not there is told as JSON too, and in words on standard error.
#[test]
fn failures() {
    for words in [
        &["plan", "--json", "examples/none.sheet"][..],
        &["show", "--json", "examples/none.sheet"],
        &["verdict", "--json", "--table", "examples/none.table"],
        &[
            "verdict",
            "--json",
            "examples/none.rec",
            "examples/film-core.cost",
        ],
        &["why", "--json", "examples/none.sheet"],
        &["why", "--json", "--table", "examples/none.table"],
        &[
            "diff",
            "--json",
            "examples/film-line.sheet",
            "examples/none.sheet",
        ],
        &["batch", "--json", "examples/none"],
    ] {
        let missing = spardimple(words);
        assert_eq!(missing.status.code(), Some(3), "{words:?}");
        let parsed = json(&missing);
        assert_eq!(parsed["command"], words[0]);
        assert_eq!(parsed["answer"], "failed");
        assert_eq!(parsed["failed"]["status"], 3);
        let why = parsed["failed"]["why"].as_str().unwrap();
        assert_eq!(text(&missing.stderr), format!("{why}\n"));
    }
}

/// What `show` tells has the plan's pieces, and the sheet's own lines.
#[test]
fn shown() {
    let sheet = "examples/film-line.sheet";
    let plan = json(&spardimple(&["plan", "--json", sheet]));
    let parsed = json(&spardimple(&["show", "--json", "--unit", "us", sheet]));
    assert_eq!(parsed["pieces"], plan["pieces"]);
    assert_eq!(parsed["unit"], "us");
    let mut lines = vec![
        fields("machine", &parsed["machine"]),
        fields("cost", &parsed["costs"]),
    ];
    for (word, list) in [("part", &parsed["parts"]), ("fit", &parsed["fits"])] {
        lines.extend(
            list.as_array()
                .unwrap()
                .iter()
                .map(|line| fields(word, line)),
        );
    }
    assert_eq!(lines.concat(), file(sheet));
    let refused = json(&spardimple(&[
        "show",
        "--json",
        "examples/film-line-mistyped.sheet",
    ]));
    assert_eq!(refused["refused"]["number"], 5);
}

/// A line of a sheet, from its fields.
fn fields(word: &str, line: &Value) -> String {
    let fields = line.as_object().unwrap().values();
    let text = |field: &Value| match field {
        Value::String(name) => format!("\t{name}"),
        number => format!("\t{number}"),
    };
    format!("{word}{}\n", fields.map(text).collect::<String>())
}

/// Verdicts, and refusals of what is judged.
#[test]
fn verdicts() {
    let judged = |words: &[&str], status: i32| {
        let judged = spardimple(&[&["verdict", "--json"], words].concat());
        assert_eq!(judged.status.code(), Some(status), "{words:?}");
        json(&judged)
    };
    let (records, costs) = ("examples/film-core.rec", "examples/film-core.cost");
    let passes = judged(&[records, costs], 0);
    assert_eq!(passes["answer"], "passes");
    for (at, (what, name)) in [("records", records), ("costs", costs)]
        .into_iter()
        .enumerate()
    {
        assert_eq!(passes["files"][at]["what"], what);
        assert_eq!(
            reopened(&passes["files"][at]),
            fs::read(root(name)).unwrap()
        );
    }
    let late = ["examples/film-core-late.rec", costs];
    let plain = text(&spardimple(&[&["verdict"], &late[..]].concat()).stdout);
    let late = judged(&late, 0);
    assert_eq!(late["answer"], "overloaded");
    assert!(
        plain.starts_with(&format!("overloaded at {}:", late["length"])),
        "{plain}"
    );
    let table = folder("json-table").join("k4.table");
    let piece = "whole\t6\t10\t10\t0\t0\t0\n";
    let zeros = "cost\t0\t0\t0\t0\t0\t0\t0\t0\t0\n";
    fs::write(&table, format!("{zeros}{piece}{piece}")).unwrap();
    let words = ["--table", table.to_str().unwrap()];
    let undecided = judged(&[&words[..], &["--exit-status"]].concat(), 5);
    assert_eq!(undecided["answer"], "undecided");
    fs::write(&table, format!("{zeros}{piece}whole\t6\t5\t10\t0\t0\t0\n")).unwrap();
    let refused = judged(&words, 1);
    assert_eq!(refused["refused"]["number"], 3);
    assert_eq!(refused["refused"]["line"], 3);
    let refused = judged(&[costs, records], 1);
    assert_eq!(refused["refused"]["number"], 8);
    let why = refused["refused"]["why"].as_str().unwrap();
    for cause in ["36 bytes is no multiple of 28", "140 bytes, 36 needed"] {
        assert!(why.contains(cause), "{why}");
    }
}

/// What cores are asked for has the figures of the library's lines.
#[test]
fn reasons() {
    let why = |words: &[&str], status: i32| {
        let why = spardimple(&[&["why", "--json"], words].concat());
        assert_eq!(why.status.code(), Some(status), "{words:?}");
        json(&why)
    };
    let all = why(&["--unit", "us", "examples/film-line.sheet"], 0);
    assert_eq!(
        (&all["answer"], &all["unit"]),
        (&json!("passes"), &json!("us"))
    );
    assert_eq!(all["no_room"], Value::Null);
    let cores = all["cores"].as_array().unwrap();
    assert_eq!(cores.len(), 3);
    assert_eq!(
        cores[1],
        json!({
            "core": 2, "answer": "passes", "length": 315, "blocking": 25,
            "pieces": [
                { "task": "dosing", "kind": "whole", "jobs": 0, "demand": 0, "interrupts": 15 },
                { "task": "film-feed", "kind": "whole", "jobs": 0, "demand": 0, "interrupts": 15 },
                { "task": "jaw-cross", "kind": "first", "jobs": 1, "demand": 245, "interrupts": 15 },
            ],
            "total": 315, "slack": 0,
        })
    );
    let one = why(&["examples/film-line.sheet", "2"], 0);
    assert_eq!(one["cores"], json!([cores[1]]));
    let stuck = why(&["examples/film-line-checkweigher.sheet", "1"], 1);
    assert_eq!(
        (&stuck["answer"], &stuck["refused"]["number"]),
        (&json!("refused"), &json!(7))
    );
    let no_room = json!({ "place": 12, "task": "checkweigher", "core": 3 });
    assert_eq!(stuck["no_room"], no_room);
    assert_eq!(
        (&stuck["cores"][0]["core"], &stuck["cores"][0]["slack"]),
        (&json!(3), &json!(-1))
    );
    let plan = json(&spardimple(&[
        "plan",
        "--json",
        "examples/film-line-checkweigher.sheet",
    ]));
    assert_eq!(stuck["refused"], plan["refused"]);
    let late = [
        "--records",
        "examples/film-core-late.rec",
        "examples/film-core.cost",
    ];
    let late = why(&[&late[..], &["--exit-status"]].concat(), 4);
    assert_eq!(
        (&late["answer"], &late["length"]),
        (&json!("overloaded"), &json!(378))
    );
    assert_eq!(late["cores"][0]["core"], Value::Null);
    assert_eq!(late["cores"][0]["pieces"][2]["record"], 3);
    let none = spardimple_fed(
        &["why", "--json", "-"],
        b"machine\t1\t1\ncost\t0\t0\t0\t0\t0\t0\t0\t0\t0\n",
    );
    assert_eq!(json(&none)["cores"][0]["total"], Value::Null);
    let mistyped = why(&["examples/film-line-mistyped.sheet"], 1);
    assert_eq!(mistyped["refused"]["line"], 14);
    let other = why(&["examples/film-line.sheet", "9"], 1);
    assert_eq!(other["refused"]["meaning"], "there is no core 9");
    let swapped = why(
        &[
            "--records",
            "examples/film-core.cost",
            "examples/film-core.rec",
        ],
        1,
    );
    assert_eq!(swapped["refused"]["number"], 8);
}

/// What moved has the library's lines, and a refusal the sheet that it is about.
#[test]
fn differences() {
    let [film, new, packer] = ["film-line", "film-line-new-dosing", "case-packer"]
        .map(|name| format!("examples/{name}.sheet"));
    let [mistyped, stuck] = ["film-line-mistyped", "film-line-checkweigher"]
        .map(|name| format!("examples/{name}.sheet"));
    let diff = |first: &str, second: &str, status: i32| {
        let words = ["diff", "--json", "--unit", "us", first, second];
        let diff = spardimple(&words);
        assert_eq!(diff.status.code(), Some(status), "{words:?}");
        let parsed = json(&diff);
        assert_eq!(
            (&parsed["command"], &parsed["unit"]),
            (&json!("diff"), &json!("us"))
        );
        for (at, name) in [first, second].into_iter().enumerate() {
            assert_eq!(parsed["files"][at]["what"], "sheet");
            assert_eq!(parsed["files"][at]["name"], name);
            assert_eq!(
                reopened(&parsed["files"][at]),
                fs::read(root(name)).unwrap()
            );
        }
        (parsed, text(&diff.stderr))
    };
    for (first, second) in [(&film, &new), (&new, &film), (&film, &packer)] {
        let (parsed, said) = diff(first, second, 1);
        assert_eq!((&parsed["answer"], said), (&json!("moved"), String::new()));
        let listing = spardimple(&["diff", "--listing", first, second]);
        let listing = text(&listing.stdout);
        let counts = &parsed["counts"];
        let mut lines = format!("diff\t{}\t{}\n", counts["first"], counts["second"]);
        for task in parsed["differences"].as_array().unwrap() {
            let sets = [&task["was"], &task["now"]].map(|set| set.as_array().unwrap());
            let words = match sets.map(Vec::is_empty) {
                [false, true] => ["only1", ""],
                [true, false] => ["", "only2"],
                _ => ["was", "now"],
            };
            for (word, set) in words.into_iter().zip(sets) {
                for piece in set {
                    let name = task["task"].as_str().unwrap();
                    lines += &fields(&format!("{word}\t{name}"), piece);
                }
            }
        }
        assert_eq!(lines, listing);
    }
    let counts =
        json!({ "first": 11, "second": 11, "moved": 3, "came": 0, "went": 0, "stayed": 8 });
    assert_eq!(diff(&film, &new, 1).0["counts"], counts);
    let (same, _) = diff(&film, &film, 0);
    assert_eq!(same["answer"], "same");
    assert_eq!(same["differences"], json!([]));
    assert_eq!(same["counts"]["stayed"], 11);

    let plan = |sheet: &str| json(&spardimple(&["plan", "--json", sheet]))["refused"].clone();
    let of = |mut refused: Value, sheet: usize| {
        refused["sheet"] = json!(sheet);
        refused
    };
    for (first, second, refused) in [
        (&mistyped, &film, [Some((&mistyped, 1)), None]),
        (&film, &stuck, [Some((&stuck, 2)), None]),
        (&stuck, &mistyped, [Some((&stuck, 1)), Some((&mistyped, 2))]),
    ] {
        let (parsed, said) = diff(first, second, 6);
        assert_eq!(parsed["answer"], "refused");
        for (name, refused) in ["refused", "also_refused"].into_iter().zip(refused) {
            let expected = refused.map_or(Value::Null, |(sheet, at)| of(plan(sheet), at));
            assert_eq!(parsed[name], expected);
            assert!(refused.map_or(true, |(sheet, _)| said.contains(&format!("{sheet}:"))));
        }
    }
    let both = spardimple(&["diff", "--json", "-", "-"]);
    assert_eq!(both.status.code(), Some(2));
    assert_eq!(json(&both)["failed"]["status"], 2);
}

/// A batch has an answer for each sheet, and names what it left out.
#[test]
fn batches() {
    let sheets = folder("json-batch");
    for name in ["film-line", "film-line-mistyped"] {
        let name = format!("{name}.sheet");
        fs::copy(root("examples").join(&name), sheets.join(&name)).unwrap();
    }
    symlink("nowhere", sheets.join("lost.sheet")).unwrap();
    fs::write(sheets.join("other.SHEET"), "").unwrap();
    fs::create_dir(sheets.join("folder.sheet")).unwrap();
    let out = folder("json-batch-out");
    fs::write(out.join("film-line-mistyped.listing"), "older").unwrap();
    let words = [
        "batch",
        "--json",
        sheets.to_str().unwrap(),
        "-o",
        out.to_str().unwrap(),
    ];
    let done = spardimple(&words);
    assert_eq!(done.status.code(), Some(3));
    let parsed = json(&done);
    assert_eq!(parsed["answer"], "failed");
    let answers = parsed["sheets"].as_array().unwrap();
    let answer = |at: usize| answers[at]["answer"].as_str().unwrap();
    assert_eq!([0, 1, 2].map(answer), ["refused", "planned", "failed"]);
    assert_eq!(answers[0]["refused"]["number"], 5);
    assert_eq!(answers[1]["pieces"], 12);
    assert_eq!(reopened(&answers[0]["older"]), b"older");
    assert_eq!(
        reopened(&answers[1]),
        fs::read(root("examples/film-line.sheet")).unwrap()
    );
    assert_eq!(answers[2]["sha256"], Value::Null);
    assert_eq!(parsed["skipped"][0]["is"], "a folder");
    assert!(parsed["other_case"][0]["path"]
        .as_str()
        .unwrap()
        .ends_with("/other.SHEET"));
    assert_eq!(parsed["unread"], Value::Array(Vec::new()));
}
