//! Sheets by hand, for the library and the oracle alike: document 01's whole listing, 001's table
//! II, and each refusal of a sheet with its line and its order.

#![warn(clippy::all, clippy::pedantic)]

mod common;

use common::refusal;
use configurator::Refusal;
use inputs::sheets::{LISTING, SHEET};
use plain::verdict::Way;
use plain::{listing, sheet};

/// The first two lines of a sheet that is good so far.
const HEAD: &str = "machine\t2\t1\ncost\t0\t0\t0\t0\t0\t0\t0\t0\t0\n";

/// The listing of a sheet as text, by the library and the same by the oracle.
fn listed(sheet: &str) -> Result<String, Refusal> {
    let listing = listing::of_sheet(sheet.as_bytes(), Way::EveryLength).map_err(refusal);
    let by_library = configurator::plan(sheet.as_bytes());
    assert_eq!(by_library, Ok(listing.clone()), "{sheet:?}");
    Ok(String::from_utf8(listing?).unwrap())
}

#[test]
fn whole_listing() {
    assert_eq!(listed(SHEET).as_deref(), Ok(LISTING));
}

#[test]
fn no_tasks() {
    assert_eq!(listed(HEAD).as_deref(), Ok("plan\t0\t0\n"));
    let parts_alone = format!("{HEAD}part\ta\t1\t1\t1\t0\t0\t0\n");
    assert_eq!(listed(&parts_alone).as_deref(), Ok("plan\t0\t0\n"));
}

/// 001's table II: three tasks of 66 in 100 on two processors, where a migration costs 1.
#[test]
fn table_ii() {
    let sheet = "machine\t2\t1
cost\t0\t0\t0\t0\t0\t0\t0\t0\t0
part\ttau\t66\t100\t100\t0\t0\t1
fit\ttau1\ttau
fit\ttau2\ttau
fit\ttau3\ttau
";
    let listing = "plan\t3\t4
piece\t1\ttau1\twhole\t66\t100\t0\t66
piece\t1\ttau2\tfirst\t34\t34\t0\t34
piece\t2\ttau2\tlast\t32\t66\t0\t33
piece\t2\ttau3\twhole\t66\t100\t0\t66
";
    assert_eq!(listed(sheet).as_deref(), Ok(listing));
}

/// Each sheet is document 01's head and these lines; each refusal has a number and a line.
#[test]
fn refused_lines() {
    let part = "part\ta\t1\t2\t3\t0\t0\t0\n";
    let cases: [(&str, (u8, u32)); 49] = [
        // 8: form of the line
        ("\n", (8, 3)),
        ("part\n", (8, 3)),
        ("Part\ta\t1\t2\t3\t0\t0\t0\n", (8, 3)),
        ("machine\t2\t1\n", (8, 3)),
        ("cost\t0\t0\t0\t0\t0\t0\t0\t0\t0\n", (8, 3)),
        ("part\ta\t1\t2\t3\t0\t0\n", (8, 3)),
        ("part\ta\t1\t2\t3\t0\t0\t0\t0\n", (8, 3)),
        ("part\ta\t1\t2\t3\t0\t0\t0\t\n", (8, 3)),
        ("part\ta\t1\t2\t3\t0\t0\t0", (8, 3)),
        ("part\ta\t1\t2\t3\t0\t0\t0\r\n", (8, 3)),
        ("part\t\ta\t1\t2\t3\t0\t0\t0\n", (8, 3)),
        ("part a\t1\t2\t3\t0\t0\t0\n", (8, 3)),
        ("fit\ta\n", (8, 3)),
        ("fit\ta\tb\tc\n", (8, 3)),
        ("part\ta\t1\t2\t3\t0\t0\t0\n\n", (8, 4)),
        (
            "part\ta\t1\t2\t3\t0\t0\t0\nfit\tt\ta\npart\tb\t1\t2\t3\t0\t0\t0\n",
            (8, 5),
        ),
        // 8: form of a name
        ("part\t\t1\t2\t3\t0\t0\t0\n", (8, 3)),
        ("part\ta_b\t1\t2\t3\t0\t0\t0\n", (8, 3)),
        ("part\ta b\t1\t2\t3\t0\t0\t0\n", (8, 3)),
        (
            "part\tabcdefghijklmnopqrstuvwxy\t1\t2\t3\t0\t0\t0\n",
            (8, 3),
        ),
        ("part\té\t1\t2\t3\t0\t0\t0\n", (8, 3)),
        ("fit\ta/b\ta\n", (8, 3)),
        ("fit\ta\ta:b\n", (8, 3)),
        // 8: form of a number, also where it would be 3 or 4
        ("part\ta\t01\t2\t3\t0\t0\t0\n", (8, 3)),
        ("part\ta\t1\t2\t3\t00\t0\t0\n", (8, 3)),
        ("part\ta\t1\t2\t3\t-0\t0\t0\n", (8, 3)),
        ("part\ta\t+1\t2\t3\t0\t0\t0\n", (8, 3)),
        ("part\ta\t1\t2\t3\t0\t0\t\n", (8, 3)),
        ("part\ta\t1\t2\t3\t0\t0\t0x0\n", (8, 3)),
        ("part\ta\t1\t2\t10000000\t0\t0\t0\n", (8, 3)),
        ("part\ta\t0\t2\t3\t0\t0\t10000000\n", (8, 3)),
        (
            "part\ta\t1\t2\t3\t0\t0\t0\npart\ta\t1\t2\t3\t0\t0\tx\n",
            (8, 4),
        ),
        ("part\ta\t9\t2\t3\t0\t0\t0", (8, 3)),
        // 3: sizes, also where it would be 4
        ("part\ta\t0\t2\t3\t0\t0\t0\n", (3, 3)),
        ("part\ta\t3\t2\t3\t0\t0\t0\n", (3, 3)),
        ("part\ta\t1\t4\t3\t0\t0\t0\n", (3, 3)),
        ("part\ta\t1\t2\t1000001\t0\t0\t0\n", (3, 3)),
        ("part\ta\t1\t2\t9999999\t0\t0\t0\n", (3, 3)),
        ("part\ta\t1\t2\t3\t1000001\t0\t0\n", (3, 3)),
        ("part\ta\t1\t2\t3\t0\t100001\t0\n", (3, 3)),
        ("part\ta\t1\t2\t3\t0\t0\t100001\n", (3, 3)),
        (
            "part\ta\t1\t2\t3\t0\t0\t0\npart\ta\t0\t2\t3\t0\t0\t0\n",
            (3, 4),
        ),
        // 4: names taken
        (
            "part\ta\t1\t2\t3\t0\t0\t0\npart\ta\t1\t2\t3\t0\t0\t0\n",
            (4, 4),
        ),
        ("part\ta\t1\t2\t3\t0\t0\t0\nfit\tt\ta\nfit\tt\ta\n", (4, 5)),
        ("part\ta\t1\t2\t3\t0\t0\t0\nfit\tt\ta\nfit\tt\tb\n", (4, 5)),
        // 5: no such part; names are compared in full and case counts
        ("fit\tt\ta\n", (5, 3)),
        (
            "part\tdrv-a\t6\t10\t10\t0\t0\t1\nfit\tpress\tdrv-a2\n",
            (5, 4),
        ),
        (
            "part\tdrv-a2\t6\t10\t10\t0\t0\t1\nfit\tpress\tdrv-a\n",
            (5, 4),
        ),
        ("part\tA\t1\t2\t3\t0\t0\t0\nfit\tt\ta\n", (5, 4)),
    ];
    let mut compared = 0;
    for (lines, (number, line)) in cases {
        let sheet = format!("{HEAD}{lines}");
        let refusal = Refusal::new(number, line);
        assert_eq!(listed(&sheet), Err(refusal), "{lines:?}");
        // a bad line further down changes nothing
        if lines.ends_with('\n') {
            assert_eq!(listed(&format!("{sheet}\n")), Err(refusal), "{lines:?}");
        }
        compared += 1;
    }
    assert!(
        listed(&format!("{HEAD}{part}fit\ta\ta\n")).is_ok(),
        "two spaces of names"
    );
    println!("{compared} compared");
}

/// The first two lines: missing, of another form, or outside the sizes.
#[test]
fn refused_heads() {
    let cost = "cost\t0\t0\t0\t0\t0\t0\t0\t0\t0\n";
    let cases: [(String, (u8, u32)); 20] = [
        (String::new(), (8, 1)),
        ("\n".into(), (8, 1)),
        ("machine".into(), (8, 1)),
        ("machine\t2\t1".into(), (8, 1)),
        ("machine\t17\t1".into(), (8, 1)),
        ("machine\t2\n".into(), (8, 1)),
        ("machine\t2\t1\t1\n".into(), (8, 1)),
        ("machine\t017\t1\n".into(), (8, 1)),
        (cost.into(), (8, 1)),
        (format!("{cost}machine\t2\t1\n"), (8, 1)),
        ("machine\t0\t1\n".into(), (1, 1)),
        ("machine\t17\t1\n".into(), (1, 1)),
        ("machine\t2\t0\n".into(), (1, 1)),
        ("machine\t2\t1000001\n".into(), (1, 1)),
        ("machine\t2\t1\n".into(), (8, 2)),
        ("machine\t2\t1\npart\ta\t1\t2\t3\t0\t0\t0\n".into(), (8, 2)),
        (
            "machine\t2\t1\ncost\t0\t0\t0\t0\t0\t0\t0\t0\n".into(),
            (8, 2),
        ),
        (
            "machine\t2\t1\ncost\t0\t0\t0\t0\t0\t0\t0\t0\t0".into(),
            (8, 2),
        ),
        (
            "machine\t2\t1\ncost\t0\t0\t0\t0\t0\t0\t0\t0\t100001\n".into(),
            (2, 2),
        ),
        (
            "machine\t2\t1\ncost\t100001\t0\t0\t0\t0\t0\t0\t0\tx\n".into(),
            (8, 2),
        ),
    ];
    let compared = cases.len();
    for (text, (number, line)) in cases {
        assert_eq!(listed(&text), Err(Refusal::new(number, line)), "{text:?}");
    }
    let greatest = "machine\t16\t1000000\n".to_owned() + &cost.replace("0\n", "100000\n");
    assert_eq!(listed(&greatest).as_deref(), Ok("plan\t0\t0\n"));
    println!("{compared} compared");
}

/// 64 parts and 64 tasks are read, a 65th is 6, and 8, 3, 4 and 5 come before it.
#[test]
fn too_many() {
    let part = |n: usize| format!("part\tp{n}\t1\t64\t64\t0\t0\t0\n");
    let fit = |n: usize| format!("fit\tt{n}\tp{n}\n");
    let parts: String = (1..=64).map(part).collect();
    let fits: String = (1..=64).map(fit).collect();
    let full = format!("{HEAD}{parts}{fits}");
    let read = sheet::read(full.as_bytes()).unwrap();
    assert_eq!(read.tasks.len(), 64);
    let refused = |text: String, number| {
        let line = u32::try_from(text.lines().count()).unwrap();
        assert_eq!(listed(&text), Err(Refusal::new(number, line)));
    };
    refused(format!("{HEAD}{parts}{}", part(65)), 6);
    refused(format!("{HEAD}{parts}{}", part(64)), 4);
    refused(format!("{HEAD}{parts}part\tp\t1\t1\t1\t0\t0\t100001\n"), 3);
    refused(format!("{HEAD}{parts}part\tp\t1\t1\t1\t0\t0\n"), 8);
    refused(format!("{full}fit\tt65\tp1\n"), 6);
    refused(format!("{full}fit\tt65\tp65\n"), 5);
    refused(format!("{full}fit\tt64\tp65\n"), 4);
    refused(format!("{full}fit\tt65\tp65"), 8);
    refused(format!("{full}{}", part(65)), 8);
    println!("10 compared");
}

/// 16,384 bytes are read, one more is 9 whatever else is wrong.
#[test]
fn too_long() {
    for (length, refusal) in [(16_384, Refusal::new(8, 1)), (16_385, Refusal::new(9, 0))] {
        assert_eq!(listed(&",".repeat(length)), Err(refusal));
    }
}
