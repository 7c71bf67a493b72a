//! What drawings show of a core is its demand: staircases on random sheets, against the oracle's.

#![warn(clippy::all, clippy::pedantic)]

use configurator::demand::Core;
use configurator::listing::Listing;
use configurator::quoted::Sheet;
use configurator::why::Why;
use configurator::{plan, why_core};
use inputs::sheets::{SheetDraw, SMALL};
use inputs::{rounds, Random};
use plain::demand;
use plain::sheet;
use plain::verdict::Way;
use plain::walk::{walk_through, Placed};

/// A core of the oracle's.
fn oracle(sheet: &sheet::Sheet, row: &[Placed]) -> demand::Core {
    demand::Core {
        costs: sheet.costs,
        pieces: row.iter().map(|placed| placed.piece).collect(),
    }
}

/// The why listing of a sheet's core.
fn why(bytes: &[u8], core: usize) -> Vec<u8> {
    let core = u64::try_from(core).unwrap();
    why_core(bytes, core).unwrap().unwrap()
}

/// Every length of a staircase that has all steps, and the lengths that another is drawn by.
fn compare(core: &Core, right: &demand::Core, end: u64) -> bool {
    let named = end / 3;
    let stairs = core.stairs(end, named);
    assert_eq!(stairs.steps[0].0, 0);
    for (at, (from, asked)) in stairs.steps.iter().enumerate() {
        assert_eq!(right.demand(*from), *asked, "at {from} of {right:?}");
        let next = stairs.steps.get(at + 1).map_or(end + 1, |next| next.0);
        if stairs.whole {
            let level = (*from..next).all(|length| right.demand(length) == *asked);
            assert!(level, "from {from} to {next} of {right:?}");
        } else {
            assert!(next - from <= end / 400 + 1, "{from} {next}");
        }
    }
    let at_named = stairs.steps.iter().any(|step| step.0 == named);
    assert!(stairs.whole || at_named);
    stairs.whole
}

/// A sheet with another grain, which leaves the oracle few splits to try.
fn coarse(sheet: &[u8]) -> Vec<u8> {
    let text = String::from_utf8(sheet.to_vec()).unwrap();
    let (machine, rest) = text.split_once('\n').unwrap();
    let (machine, _) = machine.rsplit_once('\t').unwrap();
    format!("{machine}\t50\n{rest}").into_bytes()
}

/// What was compared.
#[derive(Debug, Default)]
struct Tally {
    planned: u32,
    stuck: u32,
    /// Staircases with too many steps.
    cut: u32,
}

impl Tally {
    /// A core from the listing and the sheet's words.
    fn core(&mut self, core: Option<Core>, right: &demand::Core) {
        let core = core.expect("the figures are those of the records");
        assert_eq!(core.largest_window, right.largest_window());
        assert_eq!(core.first_due, right.least_live());
        for end in [right.least_live() + 1, right.largest_window() * 3 / 2] {
            self.cut += u32::from(!compare(&core, right, end));
        }
        if (self.planned + self.stuck) % 10 == 0 {
            let periods = right.pieces.iter().map(|piece| piece.period);
            let many_jobs = right.largest_window() + 250 * periods.min().unwrap();
            assert!(!compare(&core, right, many_jobs), "too many steps");
            self.cut += 1;
        }
    }

    /// Each core of a sheet's plan, or the one that has no room.
    fn sheet(&mut self, bytes: &[u8]) {
        let words = Sheet::parse(bytes).unwrap();
        let read = sheet::read(bytes).unwrap();
        match walk_through(&read, Way::Stretches) {
            Ok(walked) => {
                let listing = plan(bytes).unwrap().unwrap();
                let listing = Listing::parse(&listing).unwrap();
                for (at, row) in (1..).zip(walked.rows).filter(|(_, row)| !row.is_empty()) {
                    let text = why(bytes, at);
                    let why = Why::parse(&text).unwrap();
                    let core = Core::planned(at, &listing, &words, &why);
                    self.core(core.unwrap(), &oracle(&read, &row));
                    self.planned += 1;
                }
            }
            Err(walk) => {
                let text = why(bytes, 1);
                let why = Why::parse(&text).unwrap();
                let added = read.tasks[walk.task].times.whole_piece();
                let right = oracle(&read, &walk.row).with(added);
                self.core(Core::stuck(&words, &why).unwrap(), &right);
                self.stuck += 1;
            }
        }
    }
}

#[test]
fn stairs_are_the_demand() {
    let mut random = Random::for_test();
    let mut tally = Tally::default();
    for draw in SMALL {
        for _ in 0..rounds(60) {
            tally.sheet(&draw.sheet(&mut random));
        }
    }
    for _ in 0..rounds(12) {
        let long = SheetDraw::new(4, 4_000, 20, 50).sheet(&mut random);
        tally.sheet(&coarse(&long));
    }
    println!("{tally:?}");
    assert!(tally.planned > 50 && tally.stuck > 20 && tally.cut > 20);
}

/// Figures of another core are told apart: then nothing is drawn.
#[test]
fn other_figures_are_not_drawn() {
    let bytes = inputs::sheets::SHEET.as_bytes();
    let listing = plan(bytes).unwrap().unwrap();
    let (listing, words) = (
        Listing::parse(&listing).unwrap(),
        Sheet::parse(bytes).unwrap(),
    );
    let text = String::from_utf8(why(bytes, 1)).unwrap();
    let planned = |core, text: &str| {
        let why = Why::parse(text.as_bytes()).unwrap();
        Core::planned(core, &listing, &words, &why).unwrap()
    };
    assert!(planned(1, &text).is_some());
    assert_eq!(planned(2, &text), None);
    let fields = text.lines().next().unwrap();
    let other = text.replace(fields, "why\tpasses\t5\t0");
    let slack = text.lines().last().unwrap();
    let other = other.replace(slack, "slack\t1");
    let why = Why::parse(other.as_bytes()).expect("other figures, in the same form");
    assert_eq!(Core::planned(1, &listing, &words, &why).unwrap(), None);
    let no_room = Why::parse(text.as_bytes()).unwrap();
    assert_eq!(Core::stuck(&words, &no_room).unwrap(), None);
}
