//! The comparison of the library's verdict with the oracle, and the count of what was compared.

use std::fmt;

use configurator::Answer;
use inputs::cores::{lent_costs, lent_records};
use inputs::Random;
use plain::demand::Core;
use plain::records;
use plain::verdict::by_every_length;

use super::refusal;

/// Where the judged span has at most this many lengths, counted once for each piece, the oracle
/// looks at all of them. A longer span is compared by certificates.
const LOOKED_AT: u64 = 400_000;

/// The most stretches of equal demand that a certificate looks at. Of a span with more, the rest is
/// looked at by chance.
const STRETCHES: usize = 20_000;

/// Lengths looked at by chance or in a row.
const LENGTHS: u64 = 24;

/// The answers compared, by what they were.
#[derive(Default)]
pub struct Tally {
    /// Passes.
    pub passes: u64,
    /// Overloaded at some length.
    pub overloaded: u64,
    /// Undecided.
    pub undecided: u64,
    /// Refused.
    pub refused: u64,
    /// Of all these, compared by certificates.
    pub certified: u64,
}

impl Tally {
    /// All of them.
    pub fn compared(&self) -> u64 {
        self.passes + self.overloaded + self.undecided + self.refused
    }

    /// Compares the library with the oracle on lent bytes.
    pub fn bytes(&mut self, records: &[u8], costs: &[u8], random: &mut Random) {
        let before = (records.to_vec(), costs.to_vec());
        let answer = configurator::verdict(records, costs)
            .unwrap_or_else(|unknown| panic!("{unknown}: {records:?} {costs:?}"));
        assert_eq!(
            (records, costs),
            (&before.0[..], &before.1[..]),
            "lent bytes are only read"
        );
        match records::read(records, costs) {
            Err(refused) => assert_eq!(
                answer,
                Answer::Refused(refusal(refused)),
                "records {records:?}, costs {costs:?}"
            ),
            Ok(core) => self.verdict(&core, answer, random),
        }
        match answer {
            Answer::Passes => self.passes += 1,
            Answer::Overloaded(_) => self.overloaded += 1,
            Answer::Undecided => self.undecided += 1,
            Answer::Refused(_) => self.refused += 1,
        }
    }

    /// Compares the library with the oracle on a core.
    pub fn core(&mut self, core: &Core, random: &mut Random) {
        self.bytes(&lent_records(core), &lent_costs(core), random);
    }

    /// Compares a verdict with the oracle: by every length, or by certificates where the span is
    /// long.
    fn verdict(&mut self, core: &Core, answer: Answer, random: &mut Random) {
        let busy = match core.busy_length() {
            Some(length) if !core.pieces.is_empty() => length,
            _ => {
                let expected = super::answer(by_every_length(core));
                assert_eq!(answer, expected, "{core:?}");
                return;
            }
        };
        if busy * core.pieces.len() as u64 <= LOOKED_AT {
            let expected = super::answer(by_every_length(core));
            assert_eq!(answer, expected, "busy length {busy}, {core:?}");
        } else {
            self.certified += 1;
            certify(core, busy, answer, random);
        }
        if answer == Answer::Passes {
            covers(core, busy, random);
        }
    }
}

impl fmt::Display for Tally {
    fn fmt(&self, f: &mut fmt::Formatter<'_>) -> fmt::Result {
        write!(
            f,
            "{} compared: {} passes, {} overloaded, {} undecided, {} refused; {} by certificates",
            self.compared(),
            self.passes,
            self.overloaded,
            self.undecided,
            self.refused,
            self.certified
        )
    }
}

/// Looks at a verdict on a core that has a busy length. An overloaded length must be one, within
/// the span, and none above it may be; for a pass none of the span may be.
fn certify(core: &Core, busy: u64, answer: Answer, random: &mut Random) {
    let first = core.least_live();
    let end = first + busy;
    let calm_from = match answer {
        Answer::Passes => first,
        Answer::Overloaded(t) => {
            assert!((first..end).contains(&t), "{t} is in the span of {core:?}");
            assert!(core.demand(t) > t, "overloaded at {t}: {core:?}");
            t + 1
        }
        other => panic!("{other:?}, but the busy length is {busy}: {core:?}"),
    };
    for t in calm_from..end.min(calm_from + LENGTHS) {
        assert_calm(core, t, answer);
    }
    let mut above = end;
    for _ in 0..STRETCHES {
        if above <= calm_from {
            return;
        }
        above = core.stretch_start(above - 1).max(calm_from);
        assert_calm(core, above, answer);
    }
    for _ in 0..LENGTHS {
        if calm_from < above {
            assert_calm(core, random.between(calm_from, above - 1), answer);
        }
    }
}

/// Looks at live lengths by chance after a pass, in the span and far beyond it.
fn covers(core: &Core, busy: u64, random: &mut Random) {
    let first = core.least_live();
    for reach in [busy, 2 * busy, 100 * busy] {
        for _ in 0..LENGTHS / 3 {
            assert_calm(core, random.between(first, first + reach), Answer::Passes);
        }
    }
}

/// A length at which the library says that the core is not overloaded.
fn assert_calm(core: &Core, t: u64, answer: Answer) {
    let demand = core.demand(t);
    assert!(
        demand <= t,
        "{answer:?}, but the demand at {t} is {demand}: {core:?}"
    );
}
