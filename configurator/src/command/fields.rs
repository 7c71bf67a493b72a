//! The lines of a timing sheet and their fields, explained once: what each means, where a person gets
//! it, and what it does. The command's help, the manual page and the words beside a new sheet are
//! made from this table, and docs/SHEETS.md has the same words.

/// A field of a line. Each text is one sentence.
pub struct Field {
    /// What it is called.
    pub name: &'static str,
    /// What it means, and its size.
    pub means: &'static str,
    /// Where a person gets it.
    pub from: &'static str,
    /// What it does, and which way to err.
    pub effect: &'static str,
}

impl Field {
    const fn new(
        name: &'static str,
        means: &'static str,
        from: &'static str,
        effect: &'static str,
    ) -> Self {
        Field {
            name,
            means,
            from,
            effect,
        }
    }

    /// Its sentences.
    #[must_use]
    pub fn sentences(&self) -> [&'static str; 3] {
        [self.means, self.from, self.effect]
    }
}

/// A kind of line.
pub struct Line {
    /// The word that it begins with.
    pub word: &'static str,
    /// Whether a sheet may have up to 64 of them; of another kind it has one.
    pub many: bool,
    /// Sentences about the whole line.
    pub about: &'static [&'static str],
    /// What stands behind the word.
    pub fields: &'static [Field],
}

/// Sentences about the whole sheet.
pub const SHEET: [&str; 5] = [
    "A timing sheet is plain text with four kinds of lines: machine, cost, part and fit, in this order.",
    "One tab stands between two fields, and one newline ends each line, the last one too.",
    "There are no comments and no empty lines.",
    "A number is whole and has 1 to 7 digits: no sign, no point, no comma, no leading 0.",
    "All times are in ticks; you choose what a tick is, and it is the same for the whole sheet.",
];

/// The kinds of lines, in the sheet's order.
pub const LINES: [Line; 4] = [
    Line {
        word: "machine",
        many: false,
        about: &[
            "The first line describes the controller.",
            "A task runs again and again, and each run is a job.",
            "A task that has no room on one core can be split: a first piece runs there until its budget is used up, and a last piece on the next core.",
        ],
        fields: &MACHINE,
    },
    Line {
        word: "cost",
        many: false,
        about: &[
            "The second line has nine constants of the processor and its RTOS, each 0 to 100,000 ticks.",
            "They are the same for every machine with this controller, so they are measured once.",
            "Take the longest times from the RTOS's latency benchmark or from a trace, not the averages, and round up.",
            "If one is too small, jobs end late; if it is too great, room is wasted; in doubt write more.",
            "The last five count only where a task is split, so on one core they never count.",
        ],
        fields: &COST,
    },
    Line {
        word: "part",
        many: true,
        about: &[
            "A part is a type of drive, sensor or job, with its times.",
            "Tasks with the same times can share a part.",
            "A job arrives when its cycle begins or its signal comes; it is released when the controller notices that.",
            "A sheet has up to 64 parts, all above the first fit line.",
        ],
        fields: &PART,
    },
    Line {
        word: "fit",
        many: true,
        about: &[
            "A fit line is one task of the machine: it has the times of its part.",
            "A sheet has up to 64 tasks, all below the parts.",
        ],
        fields: &FIT,
    },
];

const MACHINE: [Field; 2] = [
    Field::new(
        "cores",
        "How many cores run these tasks, 1 to 16.",
        "Count the cores of the processor, without those that run something else.",
        "If there are too many, the machine cannot run the plan; if there are too few, a core is wasted.",
    ),
    Field::new(
        "grain",
        "The step of the budget timer, 1 to 1,000,000 ticks: the budget of a first piece is a multiple of it.",
        "The manual of the processor or of the RTOS says in which steps a one-shot timer can be set.",
        "If it is too small, the timer cannot keep the budgets; if it is too great, there are fewer ways to split a task.",
    ),
];

const COST: [Field; 9] = [
    Field::new(
        "RelO",
        "The cost of the interrupt that releases a job, until the job is in the queue.",
        "Measure the handler of the release timer from its entry to its end.",
        "Each release pays it once, and it is part of a last piece's jitter.",
    ),
    Field::new(
        "SchedO",
        "The cost of one run of the scheduler with its context switch.",
        "Benchmarks call it the context switch time; measure it with all tasks of the machine in the queue.",
        "Each job pays it twice.",
    ),
    Field::new(
        "TsetO",
        "The cost of cancelling one task's budget timer and setting the next one's.",
        "Measure the two timer calls together.",
        "Each job pays it once, and each release once more; it is part of a last piece's jitter.",
    ),
    Field::new(
        "IpB",
        "The longest time for which a running task disables interrupts or preemption.",
        "The RTOS states its own; compare it with that of your drivers, and take the longer one.",
        "Any job may have to wait for it, and a first piece pays it too; it is part of a last piece's jitter.",
    ),
    Field::new(
        "BetO",
        "The cost of the budget timer's interrupt, which ends a first piece.",
        "Measure its handler from its entry to the call of the scheduler.",
        "Only a first piece pays it.",
    ),
    Field::new(
        "MigrO",
        "The cost of handing a task over to the next core.",
        "Measure the call that puts a task into the queue of another core.",
        "Only a first piece pays it.",
    ),
    Field::new(
        "IpiO",
        "The cost of an IPI, the interrupt that one core sends to another.",
        "Measure its handler from its entry to its end.",
        "Only a last piece pays it.",
    ),
    Field::new(
        "IpiJ",
        "How much the delay of an IPI varies.",
        "Measure from sending to entry many times, and subtract the shortest from the longest.",
        "It counts only for a last piece.",
    ),
    Field::new(
        "π",
        "The precision with which a core reads the clock that all cores share.",
        "The manual of the processor states it for the common timer; it is at least the timer's own step.",
        "With IpB, RelO and TsetO it makes up the jitter of every last piece.",
    ),
];

const PART: [Field; 7] = [
    Field::new(
        "name",
        "1 to 24 letters, digits, hyphens and full stops; upper and lower case differ.",
        "Choose it: the type in your list of materials, or drive and cycle, such as servo-2ms.",
        "A second part of the same name is refused.",
    ),
    Field::new(
        "C",
        "The worst time: how long one job can run on a core of its own, without the costs above, at least 1.",
        "Trace many jobs, at start, at a change of format and in a fault too; take the longest and add a margin.",
        "If it is too small, jobs end late; if it is too great, room is wasted; in doubt write more.",
    ),
    Field::new(
        "D",
        "The deadline: a job must end within D of its arrival, at least C and at most T.",
        "The data sheet of the drive says when in its cycle the new values must be there; often that is its end, T.",
        "If it is too great, values come late; if it is too small, room is wasted; in doubt write less.",
    ),
    Field::new(
        "T",
        "The period: the least time between the arrivals of two jobs, at most 1,000,000.",
        "For a drive it is the cycle time in its data sheet; for a sensor, the time between two signals at full speed.",
        "If it is too great, more jobs come than are planned for; if it is too small, room is wasted; in doubt write less.",
    ),
    Field::new(
        "J",
        "The jitter: a job may be released up to J after its arrival, at most 1,000,000.",
        "It is 0 for a timer of the controller itself; for a fieldbus or a sensor the data sheet or a trace has it.",
        "If it is too small, jobs end late; if it is too great, room is wasted; in doubt write more.",
    ),
    Field::new(
        "P",
        "The cache charge of a preemption: how much longer other jobs take because this one pushed their data out of the cache, at most 100,000.",
        "Trace a long job alone, and again with one job of this part in between; P is what it takes longer, without that job's own time.",
        "Each job pays it; in doubt write more.",
    ),
    Field::new(
        "M",
        "The cache charge of a migration: how much longer a job takes because its data are in the cache of another core, at most 100,000.",
        "Time a job with an empty cache and with a warm one; M is the difference.",
        "Only a last piece pays it; in doubt write more.",
    ),
];

const FIT: [Field; 2] = [
    Field::new(
        "task name",
        "The name of the task, formed as the name of a part is.",
        "Take the name of the axis or function from the drawing of the machine, such as jaw-cross.",
        "A second task of the same name is refused; a task may have the name of a part.",
    ),
    Field::new(
        "part name",
        "The name of a part above, letter for letter.",
        "Find the part line with the times of this task; where there is none, write one.",
        "A name that no part above has is refused.",
    ),
];

/// The lines in short, for the command's help.
#[must_use]
pub fn short() -> String {
    let mut lines = Vec::new();
    for line in &LINES {
        let names: Vec<&str> = line.fields.iter().map(|field| field.name).collect();
        let (word, names) = (line.word, names.join(", "));
        let many = if line.many { "up to 64 of them" } else { "" };
        let line = format!("  {word:<7}  {names:<26}  {many}");
        lines.push(line.trim_end().to_owned());
    }
    lines.join("\n")
}
