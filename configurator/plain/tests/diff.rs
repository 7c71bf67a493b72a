//! The oracle's two plans side by side: it gives the stated answers of `tests/data/diff`, and what it says
//! is read back and looked up in both plans, another way than it was written.

#![warn(clippy::all, clippy::pedantic)]

use std::cell::RefCell;

use inputs::pairs::{pairs, Pair, ROOMY};
use inputs::sheets::SHEET;
use inputs::strategies::smallest_failure;
use inputs::{bytes, cases, Random};
use plain::diff::{self, Refused};
use plain::listing::kind_word;
use plain::piece::Piece;
use plain::refusal::Refusal;
use plain::sheet::{self, Sheet};
use plain::verdict::Way;
use plain::walk::{walk, Plan};

/// Bytes as text, for a message that can be read.
fn shown(bytes: &[u8]) -> String {
    String::from_utf8_lossy(bytes).into_owned()
}

#[test]
fn cases_with_stated_answers() {
    let mut compared = 0;
    for case in cases("diff", ".out") {
        let file = |ending| bytes("diff", &format!("{case}.{ending}"));
        let answer = diff::of_sheets(&file("a"), &file("b"), Way::Stretches);
        assert_eq!(answer.map(|t| shown(&t)), Ok(shown(&file("out"))), "{case}");
        compared += 1;
    }
    println!("{compared} compared");
    assert_eq!(compared, 36);
}

/// A sheet and its plan.
type Planned = (Sheet, Plan);

/// The plan of a sheet's bytes.
fn planned(bytes: &[u8]) -> Result<Planned, Refusal> {
    let sheet = sheet::read(bytes)?;
    let plan = walk(&sheet, Way::Stretches)?;
    Ok((sheet, plan))
}

/// The pieces of the task of that name, with their cores from 1; none if there is no such task.
fn pieces_of((sheet, plan): &Planned, name: &[u8]) -> Vec<(usize, Piece)> {
    let mut pieces = Vec::new();
    for (row, core) in plan.rows.iter().zip(1..) {
        let of_task = row.iter().filter(|p| sheet.tasks[p.task].name == name);
        pieces.extend(of_task.map(|placed| (core, placed.piece)));
    }
    pieces
}

/// Whether a name comes before another: at the first byte in which they differ it has the lesser, or it
/// ends where the other goes on.
fn comes_before(name: &[u8], other: &[u8]) -> bool {
    for place in 0..name.len().min(other.len()) {
        if name[place] != other[place] {
            return name[place] < other[place];
        }
    }
    name.len() < other.len()
}

/// A line of the text but its header: the word, the name, and the fields behind it.
struct Line<'a> {
    word: &'a str,
    name: &'a str,
    core: usize,
    fields: Vec<&'a str>,
}

impl<'a> Line<'a> {
    fn of(line: &'a str) -> Self {
        let fields: Vec<&str> = line.split('\t').collect();
        assert_eq!(fields.len(), 10, "{line:?}");
        Line {
            word: fields[0],
            name: fields[1],
            core: fields[2].parse().unwrap(),
            fields: fields[3..].to_vec(),
        }
    }

    /// Whether the line tells of that piece on that core.
    fn tells(&self, (core, p): &(usize, Piece)) -> bool {
        let numbers = [p.budget, p.window, p.period, p.jitter];
        let charges = [p.preemption, p.migration];
        let told = numbers.into_iter().chain(charges).map(|n| n.to_string());
        self.core == *core
            && self.fields[0] == kind_word(p.kind)
            && told.eq(self.fields[1..].iter().copied())
    }
}

/// The lines of a text but its header, those of one name together.
fn by_name<'a>(lines: impl Iterator<Item = &'a str>) -> Vec<Vec<Line<'a>>> {
    let mut tasks: Vec<Vec<Line>> = Vec::new();
    for line in lines.map(Line::of) {
        match tasks.last_mut() {
            Some(above) if above[0].name == line.name => above.push(line),
            _ => tasks.push(vec![line]),
        }
    }
    tasks
}

/// What the text says of two plans is so, and it says no more and no less.
fn assert_right(text: &[u8], first: &Planned, second: &Planned) {
    let text = shown(text);
    let mut lines = text.strip_suffix('\n').unwrap().split('\n');
    let header = format!("diff\t{}\t{}", first.0.tasks.len(), second.0.tasks.len());
    assert_eq!(lines.next(), Some(&header[..]));
    let told = by_name(lines);
    for (above, below) in told.iter().zip(told.iter().skip(1)) {
        let in_order = comes_before(above[0].name.as_bytes(), below[0].name.as_bytes());
        assert!(in_order, "{text}");
    }
    for lines in &told {
        let name = lines[0].name.as_bytes();
        let (was, now) = (pieces_of(first, name), pieces_of(second, name));
        let words = match (was.is_empty(), now.is_empty()) {
            (false, false) => ["was", "now"],
            (false, true) => ["only1", ""],
            (true, false) => ["", "only2"],
            (true, true) => panic!("no task is called so: {text}"),
        };
        let (above, below) = lines.split_at(was.len());
        for ((lines, pieces), word) in [(above, was), (below, now)].into_iter().zip(words) {
            assert_eq!(lines.len(), pieces.len(), "{text}");
            assert!(lines.iter().all(|line| line.word == word), "{text}");
            let by_core = lines.iter().zip(lines.iter().skip(1));
            assert!(by_core.into_iter().all(|(a, b)| a.core < b.core), "{text}");
            let told = |piece| lines.iter().any(|line| line.tells(piece));
            assert!(pieces.iter().all(told), "{text}");
        }
    }
    for task in first.0.tasks.iter().chain(&second.0.tasks) {
        let (was, now) = (pieces_of(first, &task.name), pieces_of(second, &task.name));
        let equal = was.len() == now.len() && was.iter().all(|piece| now.contains(piece));
        let is_told = told
            .iter()
            .any(|lines| lines[0].name.as_bytes() == task.name);
        assert_ne!(equal, is_told, "{}: {text}", shown(&task.name));
    }
}

/// The text with the two sheets' words exchanged. Of a name that is in both, the lines that come last are
/// put first.
fn exchanged(text: &[u8]) -> String {
    let text = shown(text);
    let mut lines: Vec<Vec<&str>> = text
        .lines()
        .map(|line| line.split('\t').collect())
        .collect();
    lines[0].swap(1, 2);
    for line in &mut lines {
        line[0] = match line[0] {
            "only1" => "only2",
            "only2" => "only1",
            "was" => "now",
            "now" => "was",
            other => other,
        };
    }
    let was_first = |line: &Vec<&str>| u8::from(line[0] == "now");
    lines[1..]
        .sort_by(|a, b| (a[1].as_bytes(), was_first(a)).cmp(&(b[1].as_bytes(), was_first(b))));
    let lines = lines.into_iter().map(|line| line.join("\t") + "\n");
    lines.collect()
}

/// The same plan with the pieces of each row in an order by chance.
fn shuffled(planned: &Planned, random: &mut Random) -> Planned {
    let (sheet, mut plan) = planned.clone();
    for row in &mut plan.rows {
        for place in 1..row.len() {
            row.swap(place, random.place(place + 1));
        }
    }
    (sheet, plan)
}

/// What pairs were answered with.
#[derive(Debug, Default)]
struct Seen {
    texts: u64,
    equal: u64,
    /// Texts with a line or a piece of that kind: `only1`, `only2`, `was`, a first piece.
    with: [u64; 4],
    /// Refused for the first sheet, and for the second.
    refused: [u64; 2],
}

impl Seen {
    fn count(&mut self, text: &[u8]) {
        let text = shown(text);
        self.texts += 1;
        self.equal += u64::from(text.lines().count() == 1);
        let words = ["\nonly1\t", "\nonly2\t", "\nwas\t", "\tfirst\t"];
        for (times, word) in self.with.iter_mut().zip(words) {
            *times += u64::from(text.contains(word));
        }
    }

    /// Looks at a pair: what is told of it is read back; the plans the other way round, each with itself,
    /// and with the pieces of each core in another order are told as they should be.
    fn look_at(&mut self, pair: &Pair, random: &mut Random) {
        let [a, b] = pair.bytes();
        let answer = diff::of_sheets(&a, &b, Way::Stretches);
        let (first, second) = match (planned(&a), planned(&b)) {
            (Ok(first), Ok(second)) => (first, second),
            (Err(refusal), _) => {
                assert_eq!(answer, Err(Refused::First(refusal)));
                self.refused[0] += 1;
                return;
            }
            (_, Err(refusal)) => {
                assert_eq!(answer, Err(Refused::Second(refusal)));
                self.refused[1] += 1;
                return;
            }
        };
        let text = answer.unwrap();
        assert_right(&text, &first, &second);
        let of =
            |(a, was): &Planned, (b, now): &Planned| shown(&diff::of_plans((a, was), (b, now)));
        assert_eq!(of(&second, &first), exchanged(&text));
        for one in [&first, &second] {
            assert_eq!(of(one, one), format!("diff\t{0}\t{0}\n", one.0.tasks.len()));
        }
        let again = of(&shuffled(&first, random), &shuffled(&second, random));
        assert_eq!(again, shown(&text));
        self.count(&text);
    }
}

/// Random pairs, whole and damaged; where one is told wrong, a small one is shown.
#[test]
fn random_pairs() {
    let random = &mut Random::for_test();
    let seen = RefCell::new(Seen::default());
    for draw in ROOMY {
        let by_chance = RefCell::new(Random::new(random.any()));
        let failed = smallest_failure(&pairs(draw, None), 300, random, |pair| {
            let by_chance = &mut by_chance.borrow_mut();
            seen.borrow_mut().look_at(pair, by_chance);
            Ok(())
        });
        if let Some((why, pair)) = failed {
            panic!("the smallest pair found that is told wrong:\n{pair:?}\n{why}");
        }
    }
    let seen = seen.into_inner();
    println!("{seen:?}");
    assert!(seen.equal > 100 && seen.with.iter().all(|&times| times > 100));
    assert!(seen.refused.iter().all(|&times| times > 100));
}

/// A lent buffer holds the text and beyond it what it held; one byte less is refused. Each answer has its
/// number.
#[test]
fn lent_buffers_and_numbers() {
    let (first, second) = (SHEET.as_bytes(), SHEET.replace("press", "lift"));
    let text = "diff\t3\t3\nonly2\tlift\t1\twhole\t6\t10\t10\t0\t0\t1\n\
        only1\tpress\t1\twhole\t6\t10\t10\t0\t0\t1\n";
    let length = text.len();
    for size in 0..2 * length {
        let mut buffer = vec![7; size];
        let answer = diff::write(first, second.as_bytes(), &mut buffer, Way::EveryLength);
        if size < length {
            let needed = u32::try_from(length).unwrap();
            assert_eq!(answer, Err(Refused::Short(needed)));
            assert_eq!(diff::number(answer), (110 << 32) + length as u64);
            assert_eq!(buffer, vec![7; size]);
        } else {
            assert_eq!((answer, diff::number(answer)), (Ok(length), length as u64));
            assert_eq!(shown(&buffer[..length]), text);
            assert_eq!(&buffer[length..], vec![7; size - length]);
        }
    }
    let stuck = SHEET.replace("machine\t2", "machine\t1");
    let number = |one: &[u8], other: &[u8]| {
        let mut buffer = [7; 200];
        let answer = diff::write(one, other, &mut buffer, Way::EveryLength);
        assert_eq!(buffer, [7; 200]);
        diff::number(answer)
    };
    assert_eq!(number(stuck.as_bytes(), b""), (107 << 32) + 2);
    assert_eq!(number(first, stuck.as_bytes()), (1_107 << 32) + 2);
    let long = vec![0; 16_385];
    assert_eq!(number(first, &long), 1_109 << 32);
    assert_eq!(number(&long, b""), 109 << 32);
    println!("{} compared", 2 * length + 4);
}
