//! What both programs of the benchmark share: a plain reader and writer, charged pieces, and the
//! C=D walk over any way to judge and to split.

use plain::piece::Costs;

/// A task: its name, and C, D, T, J, P, M.
#[derive(Clone, Copy)]
pub struct Task<'a> {
    /// What it is called.
    pub name: &'a [u8],
    /// Its part's times.
    pub times: [u64; 6],
}

/// What a sheet says.
pub struct Sheet<'a> {
    /// The cores m.
    pub cores: usize,
    /// What every split is a multiple of.
    pub grain: u64,
    /// The nine cost constants.
    pub costs: Costs,
    /// The task list.
    pub tasks: Vec<Task<'a>>,
}

/// A kind: whole, first, last are 0, 1, 2.
pub type Kind = u8;

/// A piece of a plan.
#[derive(Clone, Copy, Debug)]
pub struct Placed {
    /// Its core, from 0.
    pub core: usize,
    /// Its task's place, from 0.
    pub task: usize,
    /// Its kind.
    pub kind: Kind,
    /// x, D, T, J, P, M.
    pub fields: [u64; 6],
    /// The charged time.
    pub charge: u64,
}

/// A charged piece: all that demand and busy length look at.
#[derive(Clone, Copy)]
pub struct Lane {
    /// C'.
    pub charge: u64,
    /// D.
    pub window: u64,
    /// T.
    pub period: u64,
    /// J.
    pub jitter: u64,
    /// What a release takes.
    pub release: u64,
    /// What an inter-processor interrupt takes.
    pub ipi: u64,
    /// `IpiJ`.
    pub ipij: u64,
}

impl Lane {
    /// The piece of that kind with x, D, T, J, P, M, charged.
    pub fn of(costs: &Costs, kind: Kind, fields: &[u64; 6]) -> Self {
        let [budget, window, period, jitter, preempt, migrate] = *fields;
        let own = match kind {
            0 => 0,
            1 => costs.ipb + costs.beto + costs.migro,
            _ => migrate,
        };
        Lane {
            charge: budget + 2 * costs.schedo + costs.tseto + preempt + own,
            window,
            period,
            jitter,
            release: costs.relo + costs.tseto,
            ipi: if kind == 2 { costs.ipio } else { 0 },
            ipij: costs.ipij,
        }
    }

    /// What a job asks for in a busy stretch.
    pub fn job(&self) -> u64 {
        self.charge + self.release + self.ipi
    }
}

/// How a program judges a core and splits a task.
pub trait Way {
    /// Whether the core passes.
    fn passes(&mut self, core: &[Lane], stall: u64) -> bool;
    /// The greatest split of a task, by its times, beside the core: x and the first window. The
    /// core may be used as room, and is left as it was.
    fn split(
        &mut self,
        core: &mut Vec<Lane>,
        costs: &Costs,
        times: &[u64; 6],
        grain: u64,
    ) -> Option<(u64, u64)>;
}

/// The places of the tasks, greater C/D first.
fn packing_order(tasks: &[Task<'_>]) -> Vec<usize> {
    let mut places: Vec<usize> = (0..tasks.len()).collect();
    places.sort_by(|&a, &b| {
        let (a, b) = (&tasks[a].times, &tasks[b].times);
        (b[0] * a[1]).cmp(&(a[0] * b[1]))
    });
    places
}

/// The first piece's fields.
pub fn first_of(times: &[u64; 6], x: u64, window: u64) -> [u64; 6] {
    [x, window, times[2], times[3], times[4], times[5]]
}

/// The last piece's fields.
pub fn last_of(costs: &Costs, times: &[u64; 6], x: u64, window: u64) -> [u64; 6] {
    [
        times[0] - x,
        times[1] - window,
        times[2],
        costs.pi + costs.ipb + costs.relo + costs.tseto,
        times[4],
        times[5],
    ]
}

/// The C=D walk: the pieces in placement order, or the place, from 1, of the task it sticks at.
pub fn walk<W: Way>(sheet: &Sheet<'_>, way: &mut W) -> Result<Vec<Placed>, usize> {
    let costs = &sheet.costs;
    let stall = costs.blocking();
    let mut placed = Vec::with_capacity(80);
    let mut core: Vec<Lane> = Vec::with_capacity(80);
    let mut here = 0;
    for task in packing_order(&sheet.tasks) {
        let times = &sheet.tasks[task].times;
        let piece = |core, kind, fields| Placed {
            core,
            task,
            kind,
            fields,
            charge: Lane::of(costs, kind, &fields).charge,
        };
        loop {
            core.push(Lane::of(costs, 0, times));
            if way.passes(&core, stall) {
                placed.push(piece(here, 0, *times));
                break;
            }
            core.pop();
            if here + 1 == sheet.cores {
                return Err(task + 1);
            }
            let split = way.split(&mut core, costs, times, sheet.grain);
            core.clear();
            here += 1;
            if let Some((x, window)) = split {
                let last = last_of(costs, times, x, window);
                placed.push(piece(here - 1, 1, first_of(times, x, window)));
                placed.push(piece(here, 2, last));
                core.push(Lane::of(costs, 2, &last));
                break;
            }
        }
    }
    Ok(placed)
}

/// Reads a sheet that breaks no rule; one that does is `None`.
pub fn read(bytes: &[u8]) -> Option<Sheet<'_>> {
    if bytes.len() > 16_384 {
        return None;
    }
    let mut at = Cursor { bytes, at: 0 };
    at.word(b"machine")?;
    let [cores, grain] = at.numbers()?;
    at.word(b"cost")?;
    let costs = Costs::from_numbers(at.numbers()?);
    let sized = (1..=16).contains(&cores) && (1..=1_000_000).contains(&grain) && costs.sized();
    if !sized {
        return None;
    }
    let mut parts: Vec<Task<'_>> = Vec::with_capacity(64);
    while at.word(b"part").is_some() {
        let name = at.name(b'\t')?;
        let times: [u64; 6] = at.numbers()?;
        let [budget, deadline, period, jitter, preempt, migrate] = times;
        let sized = 1 <= budget
            && budget <= deadline
            && deadline <= period
            && period.max(jitter) <= 1_000_000
            && preempt.max(migrate) <= 100_000;
        let another = parts.iter().any(|part| part.name == name);
        if !sized || another || parts.len() == 64 {
            return None;
        }
        parts.push(Task { name, times });
    }
    let mut tasks: Vec<Task<'_>> = Vec::with_capacity(64);
    while at.at < bytes.len() {
        at.word(b"fit")?;
        let name = at.name(b'\t')?;
        let part = at.name(b'\n')?;
        let times = parts.iter().find(|above| above.name == part)?.times;
        let another = tasks.iter().any(|task| task.name == name);
        if another || tasks.len() == 64 {
            return None;
        }
        tasks.push(Task { name, times });
    }
    Some(Sheet {
        cores: usize::try_from(cores).ok()?,
        grain,
        costs,
        tasks,
    })
}

/// A place in a sheet.
struct Cursor<'a> {
    bytes: &'a [u8],
    at: usize,
}

impl<'a> Cursor<'a> {
    /// Steps over a word and the tab behind it, where they stand here.
    fn word(&mut self, word: &[u8]) -> Option<()> {
        let rest = self.bytes[self.at..].strip_prefix(word)?;
        if rest.first() != Some(&b'\t') {
            return None;
        }
        self.at += word.len() + 1;
        Some(())
    }

    /// The numbers of the rest of a line.
    fn numbers<const N: usize>(&mut self) -> Option<[u64; N]> {
        let mut numbers = [0; N];
        for (place, number) in numbers.iter_mut().enumerate() {
            let start = self.at;
            let end = if place + 1 == N { b'\n' } else { b'\t' };
            loop {
                let byte = *self.bytes.get(self.at)?;
                self.at += 1;
                if byte == end {
                    break;
                }
                if !byte.is_ascii_digit() {
                    return None;
                }
                *number = *number * 10 + u64::from(byte - b'0');
            }
            let length = self.at - 1 - start;
            let leading = self.bytes[start] == b'0' && length > 1;
            if !(1..=7).contains(&length) || leading {
                return None;
            }
        }
        Some(numbers)
    }

    /// A name that ends there.
    fn name(&mut self, end: u8) -> Option<&'a [u8]> {
        let rest = &self.bytes[self.at..];
        let length = rest.iter().position(|&byte| byte == end)?;
        let name = &rest[..length];
        let formed = |&byte: &u8| byte.is_ascii_alphanumeric() || byte == b'-' || byte == b'.';
        if !(1..=24).contains(&length) || !name.iter().all(formed) {
            return None;
        }
        self.at += length + 1;
        Some(name)
    }
}

/// The listing of a plan.
pub fn write(sheet: &Sheet<'_>, placed: &[Placed]) -> Vec<u8> {
    let mut text = Vec::with_capacity(6_000);
    text.extend_from_slice(b"plan\t");
    number(&mut text, sheet.tasks.len() as u64, b'\t');
    number(&mut text, placed.len() as u64, b'\n');
    for piece in placed {
        text.extend_from_slice(b"piece\t");
        number(&mut text, piece.core as u64 + 1, b'\t');
        text.extend_from_slice(sheet.tasks[piece.task].name);
        let kind: &[u8] = match piece.kind {
            0 => b"\twhole\t",
            1 => b"\tfirst\t",
            _ => b"\tlast\t",
        };
        text.extend_from_slice(kind);
        number(&mut text, piece.fields[0], b'\t');
        number(&mut text, piece.fields[1], b'\t');
        number(&mut text, piece.fields[3], b'\t');
        number(&mut text, piece.charge, b'\n');
    }
    text
}

/// A number, and a byte behind it.
fn number(text: &mut Vec<u8>, mut value: u64, end: u8) {
    let mut digits = [end; 21];
    let mut at = 20;
    loop {
        at -= 1;
        digits[at] = b'0' + u8::try_from(value % 10).unwrap_or(0);
        value /= 10;
        if value == 0 {
            break;
        }
    }
    text.extend_from_slice(&digits[at..]);
}

/// From the bytes of a sheet to those of its listing; the place of the task that sticks, or 0
/// where the sheet is refused.
pub fn plan<W: Way>(bytes: &[u8], way: &mut W) -> Result<Vec<u8>, usize> {
    let sheet = read(bytes).ok_or(0_usize)?;
    let placed = walk(&sheet, way)?;
    Ok(write(&sheet, &placed))
}

/// The lanes that the bytes of records spell, which break no rule, and the stall.
pub fn lanes(records: &[u8], costs: &[u8]) -> (Vec<Lane>, u64) {
    let number = |bytes: &[u8]| {
        let mut four = [0; 4];
        four.copy_from_slice(bytes);
        u64::from(u32::from_le_bytes(four))
    };
    let mut nine = [0; 9];
    for (cost, bytes) in nine.iter_mut().zip(costs.chunks_exact(4)) {
        *cost = number(bytes);
    }
    let costs = Costs::from_numbers(nine);
    let mut core = Vec::with_capacity(80);
    for record in records.chunks_exact(28) {
        let mut fields = [0; 6];
        for (field, bytes) in fields.iter_mut().zip(record[4..].chunks_exact(4)) {
            *field = number(bytes);
        }
        core.push(Lane::of(&costs, record[0], &fields));
    }
    (core, costs.blocking())
}
