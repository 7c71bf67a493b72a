//! `fmt`, and the causes that messages name: what an editor or a spreadsheet has done to a file is told
//! and mended, and no name and no number is touched.

#![warn(clippy::all, clippy::pedantic)]

mod common;

use common::command::{file, folder, program, spardimple, spardimple_fed, text};
use configurator::mend::{decoded, mended};
use inputs::sheets::{damaged, SheetDraw, LISTING, SHEET};
use inputs::Random;
use std::fs;
use std::path::Path;

/// Runs the command in a folder.
fn within(folder: &Path, words: &[&str]) -> (Option<i32>, String, String) {
    let ended = program().args(words).current_dir(folder).output().unwrap();
    (
        ended.status.code(),
        text(&ended.stdout),
        text(&ended.stderr),
    )
}

/// UTF-16 with its low or its high bytes first.
fn wide(text: &str, low_first: bool) -> Vec<u8> {
    let units = text.encode_utf16().map(|unit| {
        if low_first {
            unit.to_le_bytes()
        } else {
            unit.to_be_bytes()
        }
    });
    units.flatten().collect()
}

/// A sheet with one cause, the line, the cause as it is told, what `fmt` does about it, and what it
/// tells.
type Cause = (
    Vec<u8>,
    &'static str,
    &'static str,
    &'static str,
    &'static str,
);

fn causes() -> Vec<Cause> {
    let marked = |mark: &[u8], bytes: Vec<u8>| [mark, &bytes].concat();
    let bytes = |text: String| text.into_bytes();
    let every = "fields not parted by one tab: 6 lines, first line 1";
    vec![
        (
            marked(b"\xef\xbb\xbf", bytes(SHEET.to_owned())),
            "1",
            "a byte-order mark, which some editors put before the first word",
            "takes it off",
            "byte-order mark: line 1",
        ),
        (
            marked(b"\xff\xfe", wide(SHEET, true)),
            "1",
            "the file is UTF-16, two bytes a letter where one should be",
            "writes one byte a letter",
            "UTF-16: 6 lines, first line 1",
        ),
        (
            wide(SHEET, false),
            "1",
            "the file is UTF-16, two bytes a letter where one should be",
            "writes one byte a letter",
            "UTF-16: 6 lines, first line 1",
        ),
        (
            bytes(SHEET.replace('\n', "\r\n")),
            "1",
            "a carriage return ends the line, as in every line below",
            "ends lines by newlines alone",
            "carriage returns: 6 lines, first line 1",
        ),
        (
            bytes(SHEET.replace('\n', "\r")),
            "1",
            "a carriage return; no newline ends a line of this file",
            "ends lines by newlines alone",
            "carriage returns: 6 lines, first line 1",
        ),
        (
            bytes(SHEET.replace('\t', " ")),
            "1",
            "a space where one tab should be, as in every line below",
            "puts one tab between fields",
            every,
        ),
        (
            bytes(SHEET.replace('\t', "\t  ")),
            "1",
            "blanks where one tab should be, as in every line below",
            "puts one tab between fields",
            every,
        ),
        (
            bytes(SHEET.replace("press\tdrv-a", "press\tdrv-a ")),
            "4",
            "a space at the line's end",
            "takes it off",
            "blanks at the ends of lines: line 4",
        ),
        (
            bytes(SHEET.replace("part", "Part")),
            "3",
            "the word is `part`, in lower case",
            "writes the word so",
            "words in the wrong case: line 3",
        ),
        (
            bytes(SHEET.replace("fit\tfeed", "\nfit\tfeed")),
            "5",
            "the line is empty",
            "leaves the line out",
            "empty lines: line 5",
        ),
        (
            bytes(SHEET.trim_end().to_owned()),
            "6",
            "the file ends here without a newline",
            "adds it",
            "no newline at the end: line 6",
        ),
    ]
}

/// Each cause by itself: `plan` names it with its one remedy, `fmt` mends it and tells it, and the
/// mended sheet is the good one.
#[test]
fn each_cause_is_told_and_mended() {
    let folder = folder("causes");
    for (sheet, place, why, mending, told) in causes() {
        fs::write(folder.join("s.sheet"), &sheet).unwrap();
        let (status, out, said) = within(&folder, &["plan", "s.sheet"]);
        assert_eq!((status, out.as_str()), (Some(1), ""), "{why}");
        assert!(
            said.starts_with(&format!("s.sheet:{place}: refused (8): ")),
            "{said}"
        );
        let end = format!("\n  {why}\n  to do: `spardimple fmt s.sheet -o NEW` {mending}\n");
        assert!(said.ends_with(&end), "{said}");
        let mended = within(&folder, &["fmt", "s.sheet", "-o", "NEW"]);
        assert_eq!(
            mended,
            (Some(0), String::new(), format!("s.sheet: {told}\n"))
        );
        assert_eq!(fs::read_to_string(folder.join("NEW")).unwrap(), SHEET);
        assert_eq!(
            fs::read(folder.join("s.sheet")).unwrap(),
            sheet,
            "the sheet stays"
        );
        let printed = within(&folder, &["fmt", "s.sheet"]);
        assert_eq!(
            printed,
            (Some(0), SHEET.to_owned(), format!("s.sheet: {told}\n"))
        );
    }
    assert_eq!(within(&folder, &["plan", "NEW"]).1, LISTING);
}

/// Several at once, each kind on a line of its own; names that a shell would take apart are quoted.
#[test]
fn several_at_once() {
    let folder = folder("several-causes");
    let name = "Jo's line.sheet";
    let sheet = "\u{feff}Machine 2  1\r\ncost\t0\t0\t0\t0\t0\t0\t0\t0\t0\t\t\r\n\r\n  part drv-a 6 10 10 0 0 1\r\nFIT\tpress\tdrv-a";
    fs::write(folder.join(name), sheet).unwrap();
    let (_, _, said) = within(&folder, &["plan", name]);
    let todo = "to do: `spardimple fmt 'Jo'\\''s line.sheet' -o NEW` takes it off";
    assert!(said.contains(todo), "{said}");
    let (status, out, said) = within(&folder, &["fmt", name]);
    assert_eq!(status, Some(0));
    assert_eq!(
        out,
        "machine\t2\t1\ncost\t0\t0\t0\t0\t0\t0\t0\t0\t0\npart\tdrv-a\t6\t10\t10\t0\t0\t1\nfit\tpress\tdrv-a\n"
    );
    let told = "byte-order mark: line 1
carriage returns: 4 lines, first line 1
blanks at the ends of lines: 2 lines, first line 2
fields not parted by one tab: 2 lines, first line 1
words in the wrong case: 2 lines, first line 1
empty lines: line 3
no newline at the end: line 5
";
    assert_eq!(said.replace(&format!("{name}: "), ""), told);
    for (name, word) in [
        ("-x.sheet", "./-x.sheet"),
        ("a\tb", "FILE"),
        ("standard input", "'./standard input'"),
    ] {
        fs::write(folder.join(name), "Machine\t2\t1\n").unwrap();
        let (_, _, said) = within(&folder, &["plan", "--", name]);
        assert!(
            said.contains(&format!("`spardimple fmt {word} -o NEW`")),
            "{said}"
        );
    }
    let piped = spardimple_fed(&["plan", "-"], b"Machine\t2\t1\n");
    assert!(text(&piped.stderr).ends_with("to do: `spardimple fmt - -o NEW` writes the word so\n"));
}

/// What is left to a person is told before what `fmt` mends, and `fmt` leaves it alone.
#[test]
fn what_no_rule_fits_stays() {
    let sheet = "machine\t2\t1\r\nfit\tpress\tdrv a \r\nfit\tpress drv a\nfrob \t x\n";
    let ended = spardimple_fed(&["fmt", "-"], sheet.as_bytes());
    assert_eq!(ended.status.code(), Some(0));
    assert_eq!(
        text(&ended.stdout),
        "machine\t2\t1\nfit\tpress\tdrv a\nfit\tpress drv a\nfrob \t x\n"
    );
    let both = SHEET.replace("fit\tweld\tdrv-a\n", "FIT weld drv_a \r\n");
    let refused = spardimple_fed(&["plan", "-"], both.as_bytes());
    assert_eq!(
        text(&refused.stderr),
        "standard input:6: refused (8): not formed as it should be, or cut short
  FIT weld drv_a \\r
           ^^^^^
  a name has ASCII letters, digits, hyphens and full stops only
  to do: choose a name of these, the same wherever it stands\n"
    );
    let foreign = wide("machine\u{e9}\n", true);
    let refused = spardimple_fed(&["plan", "-"], &[b"\xff\xfe", &foreign[..]].concat());
    let said = text(&refused.stderr);
    assert!(
        said.contains("\n  the file is UTF-16, and not all of its letters are ASCII\n"),
        "{said}"
    );
    assert!(!said.contains("fmt"), "{said}");
}

/// A line that has tabs is not parted at its spaces: they may belong to a name or a number. The message
/// then names no `fmt`, which would not help. Doubled tabs and blanks around tabs are mended as ever.
#[test]
fn spaces_beside_tabs_part_nothing() {
    for (good, bad, place, why) in [
        (
            "part\tdrv-a\t6\t10\t10\t0\t0\t1\n",
            "part\tdrv-a\t3 10\t1000\t1000\t0\t20\n",
            3,
            "fields behind `part`: 6, where 7 should stand; there are spaces, and only tabs part fields",
        ),
        (
            "fit\tweld\tdrv-a\n",
            "fit\tfilm feed\n",
            6,
            "fields behind `fit`: 1, where 2 should stand; there are spaces, and only tabs part fields",
        ),
        (
            "machine\t2\t1\n",
            "machine\t3 0\n",
            1,
            "fields behind `machine`: 1, where 2 should stand; there are spaces, and only tabs part fields",
        ),
        (
            "fit\tweld\tdrv-a\n",
            "fit weld\tdrv-a\n",
            6,
            "the line should begin with `part` or `fit` and a tab",
        ),
    ] {
        let sheet = SHEET.replace(good, bad);
        let refused = text(&spardimple_fed(&["plan", "-"], sheet.as_bytes()).stderr);
        let begin = format!("standard input:{place}: refused (8): ");
        assert!(refused.starts_with(&begin), "{refused}");
        assert!(refused.contains(&format!("\n  {why}\n")), "{refused}");
        assert!(!refused.contains("spardimple fmt"), "{refused}");
        let ended = spardimple_fed(&["fmt", "-"], sheet.as_bytes());
        assert_eq!(text(&ended.stdout), sheet);
        let still = format!(
            "the mended text is still refused (8) at line {place}; `spardimple check -` says why\n"
        );
        assert_eq!((ended.status.code(), text(&ended.stderr)), (Some(0), still));
    }
    for parting in ["\t\t", " \t ", "\t ", "  "] {
        let ended = spardimple_fed(&["fmt", "-"], SHEET.replace('\t', parting).as_bytes());
        assert_eq!(text(&ended.stdout), SHEET, "{parting:?}");
    }
}

/// A carriage return inside a line is pointed at, and left to a person.
#[test]
fn a_carriage_return_inside_a_line() {
    let sheet = SHEET.replacen("drv-a\nfit", "drv-a\rfit", 1);
    let refused = spardimple_fed(&["plan", "-"], sheet.as_bytes());
    assert_eq!(
        text(&refused.stderr),
        "standard input:4: refused (8): not formed as it should be, or cut short
  fit⇥press⇥drv-a\\rfit⇥feed⇥drv-a
                 ^^
  a carriage return inside the line, where a newline or nothing should be
  to do: end the line there, or take the carriage return out\n"
    );
    let ended = spardimple_fed(&["fmt", "-"], sheet.as_bytes());
    assert_eq!(text(&ended.stdout), sheet);
}

/// What `fmt` cannot mend is told when it has written: why nothing was mended, and that the text is
/// refused still, with the command that says why.
#[test]
fn what_is_still_refused() {
    let folder = folder("still-refused");
    let still = |number: u8, line: usize| {
        format!("NEW: still refused ({number}) at line {line}; `spardimple check NEW` says why\n")
    };
    let marked = |text: &str| wide(&format!("\u{feff}{text}"), true);
    let cut = marked(SHEET)[..101].to_vec();
    let table = "cost\t0\t0\t0\t0\t0\t0\t0\t0\t0\nwhole\t6\t5\t10\t0\t0\t0\n";
    for (file, said) in [
        (
            SHEET.replace("feed", "fe\0d").into_bytes(),
            format!("s: nothing mended: there is a NUL byte in line 5\n{}", still(8, 5)),
        ),
        (
            format!("\u{feff}{}", SHEET.replace("2\t1", "2\0\t1")).into_bytes(),
            format!(
                "s: byte-order mark: line 1\ns: nothing else mended: there is a NUL byte in line 1\n{}",
                still(8, 1)
            ),
        ),
        (
            marked(&SHEET.replace("feed", "f\u{fc}d")),
            format!(
                "s: nothing mended: the file is UTF-16, and not all of its letters are ASCII\n{}",
                still(8, 1)
            ),
        ),
        (
            cut.clone(),
            format!(
                "s: nothing mended: the file is UTF-16 and ends in the middle of a letter\n{}",
                still(8, 1)
            ),
        ),
        (format!("{SHEET}# note\n").into_bytes(), still(8, 7)),
        (SHEET.replace("6\t10", "6,5\t10").into_bytes(), still(8, 3)),
        (SHEET.replace("feed", "f\u{fc}d").into_bytes(), still(8, 5)),
        (SHEET.replace("weld", "press").into_bytes(), still(4, 6)),
        (Vec::new(), still(8, 1)),
        (SHEET.replace("machine\t2", "machine\t1").into_bytes(), String::new()),
        (
            table.as_bytes().to_vec(),
            "NEW: still refused (3) at line 2; `spardimple verdict --table NEW` says why\n".to_owned(),
        ),
        (table.replace("6\t5", "5\t5").into_bytes(), String::new()),
    ] {
        fs::write(folder.join("s"), &file).unwrap();
        let ended = within(&folder, &["fmt", "s", "-o", "NEW"]);
        assert_eq!(ended, (Some(0), String::new(), said));
    }
    let quoted = within(&folder, &["fmt", "/dev/null", "-o", "Jo's new"]).2;
    let word = "`spardimple check 'Jo'\\''s new'` says why\n";
    assert_eq!(
        quoted,
        format!("Jo's new: still refused (8) at line 1; {word}")
    );
    let table = text(&spardimple_fed(&["fmt", "-", "-o", "-"], table.as_bytes()).stderr);
    assert_eq!(
        table,
        "the mended text is still refused (3) at line 2; `spardimple verdict --table -` says why\n"
    );
    let form = "refused (8): not formed as it should be, or cut short";
    let empty = text(&spardimple_fed(&["plan", "-"], b"").stderr);
    let begin = format!("standard input:1: {form}\n  \n  the file is empty\n");
    assert!(empty.starts_with(&begin), "{empty}");
    let cut = text(&spardimple_fed(&["plan", "-"], &cut).stderr);
    let why = "\n  the file is UTF-16 and ends in the middle of a letter\n";
    assert!(cut.contains(why), "{cut}");
}

/// Letters that take two columns, or none, have the fault underlined where it stands.
#[test]
fn underlines_by_width() {
    let sheet = "machine\t2\t1\ncost\t0\t0\t0\t0\t0\t0\t0\t0\t0\nfit\t機械\t機\n".as_bytes();
    let refused = spardimple_fed(&["plan", "-"], sheet);
    let said = text(&refused.stderr);
    assert!(said.contains("\n  fit⇥機械⇥機\n      ^^^^\n"), "{said}");
}

/// Tables have the same causes, and `fmt` mends them by their own words.
#[test]
fn tables() {
    let table = file("examples/film-core.table");
    let bad = table.replace('\t', "  ").replace("whole", "Whole");
    let refused = spardimple_fed(&["verdict", "--table", "-"], bad.as_bytes());
    assert_eq!(refused.status.code(), Some(1));
    let said = text(&refused.stderr);
    assert!(said.starts_with("standard input:1: refused (8)"), "{said}");
    assert!(said.ends_with("puts one tab between fields\n"), "{said}");
    let ended = spardimple_fed(&["fmt", "-"], bad.as_bytes());
    assert_eq!(text(&ended.stdout), table);
}

/// A file is read to four times a sheet's length, and what is mended has to be a sheet's length.
#[test]
fn long_files() {
    let folder = folder("long-fmt");
    let times = "1000000\t1000000\t1000000\t1000000\t100000\t100000";
    let part = |at: usize| format!("part\tp{at:023}\t{times}\n");
    let fit = |at: usize| format!("fit\tt{at:023}\tp{at:023}\n");
    let lines: String = (0..64).map(part).chain((0..64).map(fit)).collect();
    let long = format!("machine\t16\t1\ncost\t0\t0\t0\t0\t0\t0\t0\t0\t0\n{lines}");
    let doubled = wide(&long.replace('\t', " "), true);
    assert!(doubled.len() > 16_384, "{}", doubled.len());
    fs::write(folder.join("wide"), &doubled).unwrap();
    assert_eq!(within(&folder, &["fmt", "wide"]).1, long);
    let blanks = |count: usize| [vec![b' '; count], SHEET.as_bytes().to_vec()].concat();
    fs::write(folder.join("most"), blanks(65_536 - SHEET.len())).unwrap();
    assert_eq!(within(&folder, &["fmt", "most"]).1, SHEET);
    fs::write(folder.join("more"), blanks(65_537 - SHEET.len())).unwrap();
    let begin = "refused (9): the sheet is longer than 16,384 bytes\n";
    let (status, out, said) = within(&folder, &["fmt", "more", "-o", "NEW"]);
    assert_eq!((status, out.as_str()), (Some(1), ""));
    assert!(said.starts_with(&format!(
        "more: {begin}  fmt reads 65,536 bytes, and the file goes on\n"
    )));
    assert!(!folder.join("NEW").exists());
    fs::write(folder.join("words"), "x\n".repeat(8_193)).unwrap();
    let (status, _, said) = within(&folder, &["fmt", "words"]);
    assert_eq!(status, Some(1));
    assert!(said.starts_with(&format!(
        "words: {begin}  to do: see that it is the right file"
    )));
    let endless = spardimple(&["fmt", "/dev/zero"]);
    assert_eq!(endless.status.code(), Some(1));
    assert!(text(&endless.stderr).starts_with(&format!("/dev/zero: {begin}")));
    assert_eq!(
        within(&folder, &["plan", "wide"]).2,
        format!(
            "wide: {begin}  the file is UTF-16, two bytes a letter\n  \
             to do: `spardimple fmt wide -o NEW` writes one byte a letter\n"
        )
    );
}

/// The file that is mended is never the output, and a missing one is told.
#[test]
fn its_files() {
    let folder = folder("fmt-files");
    fs::write(folder.join("s.sheet"), "Machine\n").unwrap();
    let (status, out, said) = within(&folder, &["fmt", "s.sheet", "-o", "./s.sheet"]);
    assert_eq!((status, out.as_str()), (Some(2), ""));
    assert!(said.starts_with("./s.sheet: this would overwrite the input s.sheet"));
    assert_eq!(
        fs::read_to_string(folder.join("s.sheet")).unwrap(),
        "Machine\n"
    );
    assert_eq!(within(&folder, &["fmt", "none"]).0, Some(3));
}

/// A run of blanks.
fn blanks(random: &mut Random) -> String {
    let length = random.between(1, 3);
    (0..length).map(|_| random.pick(&[' ', '\t'])).collect()
}

/// What stands between the fields of a line: spaces alone, or else a tab at least. The two are not mixed
/// in a line.
fn between(spaces: bool, random: &mut Random) -> String {
    let some = blanks(random);
    if spaces {
        some.replace('\t', " ")
    } else if some.contains('\t') {
        some
    } else {
        format!("{some}\t")
    }
}

/// A good sheet with all the damage that `fmt` mends, each by chance.
fn ruined(sheet: &str, random: &mut Random) -> Vec<u8> {
    let mut text = String::new();
    let often = random.between(1, 6);
    for line in sheet.lines() {
        if random.once_in(6 * often) {
            text.push_str(random.pick(&["\n", " \t\n", "\r\n"]));
        }
        if random.once_in(often) {
            text.push_str(&blanks(random));
        }
        let spaces = random.once_in(3 * often);
        for (at, field) in line.split('\t').enumerate() {
            if at > 0 && (spaces || random.once_in(often)) {
                text.push_str(&between(spaces, random));
            } else if at > 0 {
                text.push('\t');
            }
            if at == 0 && random.once_in(often) {
                let cased = |c: char| random.pick(&[c, c.to_ascii_uppercase()]);
                text.extend(field.chars().map(cased));
            } else {
                text.push_str(field);
            }
        }
        if random.once_in(often) {
            text.push_str(&blanks(random));
        }
        if random.once_in(often) {
            text.push_str(random.pick(&["\r", "\r\r", "\r "]));
        }
        text.push('\n');
    }
    if random.once_in(3) {
        text.pop();
    }
    match random.between(0, 9) {
        0 => wide(&text, true),
        1 => wide(&format!("\u{feff}{text}"), true),
        2 => wide(&text, false),
        3 => wide(&format!("\u{feff}{text}"), false),
        4 | 5 => format!("\u{feff}{text}").into_bytes(),
        _ => text.into_bytes(),
    }
}

/// The words of each line that has any; the first in lower case, since that may be mended.
fn words(bytes: &[u8]) -> Vec<Vec<Vec<u8>>> {
    let blank = |byte: &u8| matches!(byte, b' ' | b'\t' | b'\r');
    let line = |line: &[u8]| {
        let words = line.split(blank).filter(|word| !word.is_empty());
        let mut words: Vec<Vec<u8>> = words.map(<[u8]>::to_vec).collect();
        if let Some(first) = words.first_mut() {
            first.make_ascii_lowercase();
        }
        words
    };
    let lines = bytes.split(|&byte| byte == b'\n').map(line);
    lines.filter(|words| !words.is_empty()).collect()
}

/// A good sheet stays byte for byte. Whatever damage of these kinds is done to it, it is mended to the
/// same bytes. With one space for a tab in a line that has other tabs it stays as it is. Of any bytes the
/// words stay, and what is mended stays as it is.
#[test]
fn nothing_but_the_form_is_touched() {
    let mut random = Random::for_test();
    let draw = SheetDraw::new(16, 100_000, 9, 50);
    for count in 0..3_000 {
        let good = String::from_utf8(draw.sheet(&mut random)).unwrap();
        let same = mended(good.as_bytes());
        assert!(
            same.flaws.is_empty() && same.bytes == good.as_bytes(),
            "{good}"
        );
        let ruin = ruined(&good, &mut random);
        let shown = String::from_utf8_lossy(&ruin);
        let whole = mended(&ruin);
        assert_eq!(String::from_utf8_lossy(&whole.bytes), good, "{shown:?}");
        assert_eq!(whole.flaws.is_empty(), ruin == good.as_bytes(), "{shown:?}");
        let tabs: Vec<usize> = good.match_indices('\t').map(|(at, _)| at).collect();
        let mut mixed = good.into_bytes();
        mixed[random.pick(&tabs)] = b' ';
        let left = mended(&mixed);
        let shown = String::from_utf8_lossy(&mixed);
        assert!(left.bytes == mixed && left.flaws.is_empty(), "{shown:?}");
        let other = match count % 3 {
            0 => damaged(&ruin, &mut random),
            1 => (0..random.place(300))
                .map(|_| random.pick(b"part\tfiFIT\n01 9\r-. \xff\0"))
                .collect(),
            _ => (0..random.place(100)).map(|_| random.byte()).collect(),
        };
        let once = mended(&other);
        let lossy = String::from_utf8_lossy(&other);
        assert!(words(&decoded(&other).0) == words(&once.bytes), "{lossy:?}");
        let twice = mended(&once.bytes);
        assert!(twice.bytes == once.bytes, "{lossy:?}");
        assert!(twice.flaws.is_empty(), "{lossy:?}: {:?}", twice.flaws);
    }
}

/// Some of them as processes.
#[test]
fn as_processes() {
    let mut random = Random::for_test();
    let draw = SheetDraw::new(4, 1_000, 3, 5);
    for _ in 0..40 {
        let good = String::from_utf8(draw.sheet(&mut random)).unwrap();
        let ended = spardimple_fed(&["fmt", "-"], &ruined(&good, &mut random));
        assert_eq!((ended.status.code(), text(&ended.stdout)), (Some(0), good));
    }
}
