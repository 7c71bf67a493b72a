//! What a why listing says, in sentences: for the message of a refusal, for tables and for pages.
//! Every figure in them stands in the listing.

use super::{Share, Verdict, Why};

/// The most pieces that are named as those that ask most.
const NAMED: usize = 3;

/// What a core is asked for, as sentences: the verdict with its figures, and the pieces that ask most. A
/// core without a number, which is no sheet's, has records for pieces.
///
/// ```
/// use configurator::why::{words, Why};
///
/// let stuck = b"noroom\t2\tfeed\t1
/// why\toverloaded\t9\t0
/// piece\tpress\twhole\t1\t5\t0
/// piece\tfeed\twhole\t1\t5\t0
/// total\t10
/// slack\t-1
/// ";
/// assert_eq!(
///     words::sentences(&Why::parse(stuck).unwrap(), Some(1), "ticks"),
///     [
///         "core 1 with the whole of `feed` is overloaded: within 9 ticks 10 are asked for, 1 too many; \
///          a shorter length may lack more",
///         "most is asked by `press` (5 in 1 job) and `feed` (5 in 1 job)",
///     ]
/// );
/// ```
#[must_use]
pub fn sentences(why: &Why, core: Option<usize>, unit: &str) -> Vec<String> {
    let (subject, verdict) = (subject(why, core), verdict(why));
    let first = format!("{subject} {verdict}: {}", figures(why, unit));
    let named = if core.is_some() { task } else { record };
    [first].into_iter().chain(most(why, named)).collect()
}

/// Whose verdict it is: the core of that number with what was added to it, or the one core that records
/// are.
#[must_use]
pub fn subject(why: &Why, core: Option<usize>) -> String {
    match (&why.stuck, core) {
        (Some(stuck), _) => format!("core {} with the whole of `{}`", stuck.core, stuck.task),
        (None, Some(core)) => format!("core {core}"),
        (None, None) => "the core".to_owned(),
    }
}

/// The verdict, behind its subject.
#[must_use]
pub const fn verdict(why: &Why) -> &'static str {
    match why.verdict {
        Verdict::Passes => "passes",
        Verdict::Overloaded => "is overloaded",
        Verdict::Undecided => "is undecided",
    }
}

/// What decides it: the length, what is asked for within it, and how much is left or too many.
#[must_use]
pub fn figures(why: &Why, unit: &str) -> String {
    let sum = match why.sum {
        Some(sum) => sum,
        None => return "it has no pieces".to_owned(),
    };
    let (length, total, by) = (why.length, sum.total, sum.slack.unsigned_abs());
    match why.verdict {
        Verdict::Passes => format!(
            "nearest to its limit within {length} {unit}: {total} asked for, {by} to spare"
        ),
        // the verdict's own length is the longest that lacks time
        Verdict::Overloaded => format!(
            "within {length} {unit} {total} are asked for, {by} too many; a shorter length may lack more"
        ),
        Verdict::Undecided => format!(
            "more work than time in every length up to {length} {unit}; \
             within that {total} are asked for, {by} too many"
        ),
    }
}

/// The pieces that ask most, and the blocking beside them; nothing where no piece asks for anything.
fn most(why: &Why, named: fn(&Share) -> String) -> Option<String> {
    let greatest = why.greatest();
    let of = |share: &&Share| {
        let jobs = match share.jobs {
            0 => None,
            1 => Some(format!("{} in 1 job", share.demand)),
            jobs => Some(format!("{} in {jobs} jobs", share.demand)),
        };
        let interrupts = format!("{} in interrupts", share.interrupts);
        let interrupts = (share.interrupts > 0).then_some(interrupts);
        let parts: Vec<String> = jobs.into_iter().chain(interrupts).collect();
        format!("{} ({})", named(share), parts.join(", "))
    };
    let named: Vec<String> = greatest.iter().take(NAMED).map(of).collect();
    let named = match &named[..] {
        [] => return None,
        [one] => one.clone(),
        [first @ .., last] => format!("{} and {last}", first.join(", ")),
    };
    let blocking = match why.blocking {
        0 => String::new(),
        blocking => format!("; {blocking} is blocking"),
    };
    Some(format!("most is asked by {named}{blocking}"))
}

/// A task, as it is quoted.
fn task(share: &Share) -> String {
    format!("`{}`", share.name)
}

/// A lent record, by its place.
fn record(share: &Share) -> String {
    format!("record {}", share.name)
}

#[cfg(test)]
mod tests {
    use super::*;

    fn said(listing: &str) -> (String, Option<String>) {
        let why = Why::parse(listing.as_bytes()).unwrap();
        let mut said = sentences(&why, None, "us").into_iter();
        (said.next().unwrap(), said.next())
    }

    #[test]
    fn each_verdict_has_its_words() {
        let k7 = "why\toverloaded\t11\t4\npiece\t1\twhole\t1\t8\t0\npiece\t2\twhole\t0\t0\t0\ntotal\t12\nslack\t-1\n";
        assert_eq!(
            said(k7),
            (
                "the core is overloaded: within 11 us 12 are asked for, 1 too many; \
                 a shorter length may lack more"
                    .to_owned(),
                Some("most is asked by record 1 (8 in 1 job); 4 is blocking".to_owned())
            )
        );
        let k8 = "why\tpasses\t101\t0\npiece\t1\twhole\t1\t12\t6\ntotal\t18\nslack\t83\n";
        assert_eq!(
            said(k8),
            (
                "the core passes: nearest to its limit within 101 us: 18 asked for, 83 to spare"
                    .to_owned(),
                Some("most is asked by record 1 (12 in 1 job, 6 in interrupts)".to_owned())
            )
        );
        let k4 = "why\tundecided\t100000000\t0\npiece\t1\twhole\t10000000\t60000000\t0\n\
                  piece\t2\twhole\t10000000\t60000000\t0\ntotal\t120000000\nslack\t-20000000\n";
        assert_eq!(
            said(k4).0,
            "the core is undecided: more work than time in every length up to 100000000 us; \
             within that 120000000 are asked for, 20000000 too many"
        );
        let k1 = "why\tpasses\t0\t0\n";
        assert_eq!(
            said(k1),
            ("the core passes: it has no pieces".to_owned(), None)
        );
    }

    /// At most three pieces are named, and those that ask for nothing are not.
    #[test]
    fn few_are_named() {
        let listing = "why\tpasses\t100\t0\npiece\t1\twhole\t1\t1\t0\npiece\t2\twhole\t0\t0\t3\n\
                       piece\t3\twhole\t2\t20\t0\npiece\t4\twhole\t1\t3\t0\ntotal\t27\nslack\t73\n";
        assert_eq!(
            said(listing).1.unwrap(),
            "most is asked by record 3 (20 in 2 jobs), record 2 (3 in interrupts) and record 4 (3 in 1 job)"
        );
        let nothing = "why\tpasses\t1\t0\npiece\t1\twhole\t0\t0\t0\ntotal\t0\nslack\t1\n";
        assert_eq!(said(nothing).1, None);
    }
}
