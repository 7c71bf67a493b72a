//! The oracle's edits and scripts, by hand: each refusal of an edit and its order, states made by
//! hand, and a script.

#![warn(clippy::all, clippy::pedantic)]

use inputs::sheets::{LISTING, SHEET};
use plain::desk::{self, Desk, Edit};
use plain::refusal::Refusal;
use plain::sheet::{self, Sheet};
use plain::task::{Machine, Times};
use plain::verdict::Way;

/// The held plan of document 01's sheet.
fn held() -> Desk {
    let sheet = sheet::read(SHEET.as_bytes()).unwrap();
    Desk::begin(sheet, Way::EveryLength).unwrap()
}

/// Times with no jitter and no cache charges.
fn times(budget: u64, deadline: u64, period: u64) -> Times {
    Times::from_numbers([budget, deadline, period, 0, 0, 0])
}

#[test]
fn refused_edits() {
    let good = times(1, 10, 10);
    let bad = times(0, 10, 10);
    let heavy = times(10, 10, 10);
    let cases: [(Edit, Refusal); 16] = [
        (Edit::Add(b"", good), Refusal::new(8, 0)),
        (Edit::Add(b"a b", bad), Refusal::new(8, 0)),
        (Edit::Add(b"press", bad), Refusal::new(3, 0)),
        (Edit::Add(b"pack", bad), Refusal::new(3, 0)),
        (Edit::Add(b"press", good), Refusal::new(4, 0)),
        (Edit::Add(b"press", heavy), Refusal::new(4, 0)),
        (Edit::Add(b"pack", heavy), Refusal::new(7, 2)),
        (Edit::Withdraw(b"a b"), Refusal::new(8, 0)),
        (Edit::Withdraw(b"pack"), Refusal::new(5, 0)),
        (Edit::Withdraw(b"Press"), Refusal::new(5, 0)),
        (Edit::Retime(b"a b", bad), Refusal::new(8, 0)),
        (Edit::Retime(b"pack", bad), Refusal::new(3, 0)),
        (Edit::Retime(b"press", bad), Refusal::new(3, 0)),
        (Edit::Retime(b"pack", good), Refusal::new(5, 0)),
        (Edit::Retime(b"pres", good), Refusal::new(5, 0)),
        (Edit::Retime(b"weld", heavy), Refusal::new(7, 2)),
    ];
    for (edit, refusal) in cases {
        let mut desk = held();
        assert_eq!(desk.edit(edit, Way::EveryLength), Err(refusal), "{edit:?}");
        assert_eq!(desk, held(), "a refusal leaves the held state equal");
    }
    println!("16 compared");
}

/// A 65th task is 6, after 4.
#[test]
fn full_desk() {
    let mut desk = held();
    let light = times(1, 1_000, 1_000);
    desk.sheet.tasks.clear();
    for n in 0..64 {
        let name = format!("t{n}");
        assert_eq!(
            desk.edit(Edit::Add(name.as_bytes(), light), Way::Stretches),
            Ok(())
        );
    }
    let refused = |edit, number| {
        let answer = desk.clone().edit(edit, Way::Stretches);
        assert_eq!(answer, Err(Refusal::new(number, 0)));
    };
    refused(Edit::Add(b"t64", light), 6);
    refused(Edit::Add(b"t63", light), 4);
    refused(Edit::Add(b"t64", times(2, 1, 1)), 3);
}

/// A state made by hand that breaks a rule: 1, 2, 6, then at its first bad task 8, 3 or 4, before
/// the edit's own refusals.
#[test]
fn states_made_by_hand() {
    let good = held().sheet;
    let edit = Edit::Withdraw(b"a b");
    let refused = |spoil: &[fn(&mut Sheet)], number| {
        let mut desk = held();
        for spoil in spoil {
            spoil(&mut desk.sheet);
        }
        let before = desk.clone();
        assert_eq!(
            desk.edit(edit, Way::EveryLength),
            Err(Refusal::new(number, 0))
        );
        assert_eq!(desk, before);
    };
    let machine: fn(&mut Sheet) = |s| {
        s.machine = Machine {
            cores: 17,
            grain: 1,
        }
    };
    let costs: fn(&mut Sheet) = |s| s.costs.pi = 100_001;
    let count: fn(&mut Sheet) = |s| s.tasks = vec![s.tasks[0].clone(); 65];
    let name: fn(&mut Sheet) = |s| s.tasks[1].name = b"a_b".to_vec();
    let sizes: fn(&mut Sheet) = |s| s.tasks[1].times.budget = 11;
    let twice: fn(&mut Sheet) = |s| s.tasks[1].name = b"press".to_vec();
    let later_name: fn(&mut Sheet) = |s| s.tasks[2].name.clear();
    assert_eq!(desk::fault(&good), None);
    refused(&[], 8);
    refused(&[twice, sizes, name, count, costs, machine], 1);
    refused(&[twice, sizes, count, costs], 2);
    refused(&[twice, sizes, count], 6);
    refused(&[twice, sizes, name], 8);
    refused(&[twice, sizes, later_name], 3);
    refused(&[twice, later_name], 4);
    println!("7 compared");
}

/// An accepted edit gives a held plan whatever the rows were.
#[test]
fn rows_made_by_hand() {
    let mut desk = held();
    desk.plan.rows.clear();
    desk.edit(Edit::Withdraw(b"feed"), Way::EveryLength)
        .unwrap();
    let mut other = held();
    other
        .edit(Edit::Withdraw(b"feed"), Way::EveryLength)
        .unwrap();
    assert_eq!(desk, other);
    assert_eq!(desk, Desk::begin(other.sheet, Way::EveryLength).unwrap());
}

#[test]
fn script() {
    let script = "list
withdraw\tfeed
list
add\tpack\t2\t8\t8\t1\t0\t0
retime\tpress\t1\t10\t10\t0\t0\t0
list
lists

add\tpack\t2\t8\t8\t1\t0
add\tpacks\t2\t8\t8\t1\t0\t00
withdraw\tpack\tpack
withdraw\tpack";
    let expected = format!(
        "{LISTING}ok
plan\t2\t3
piece\t1\tpress\twhole\t6\t10\t0\t6
piece\t1\tweld\tfirst\t4\t4\t0\t4
piece\t2\tweld\tlast\t2\t6\t0\t3
ok
ok
plan\t3\t3
piece\t1\tweld\twhole\t6\t10\t0\t6
piece\t1\tpack\twhole\t2\t8\t1\t2
piece\t1\tpress\twhole\t1\t10\t0\t1
refusal\t8\t0
refusal\t8\t0
refusal\t8\t0
refusal\t8\t0
refusal\t8\t0
refusal\t8\t0
"
    );
    let answer = desk::play(SHEET.as_bytes(), script.as_bytes(), Way::EveryLength);
    assert_eq!(String::from_utf8(answer).unwrap(), expected);
    let refused = desk::play(b"machine\t0\t1\n", script.as_bytes(), Way::EveryLength);
    assert_eq!(refused, b"refusal\t1\t1\n");
}
