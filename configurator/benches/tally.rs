//! What the algorithms of the benchmark do, counted. Each is written over a [`Tally`]; over
//! [`Silent`] the counting is compiled away, so the same code can be timed.

/// One thing done.
#[derive(Clone, Copy, Debug)]
pub enum Event {
    /// The demand of that many pieces was evaluated at one length.
    Demand(usize),
    /// Where the demand of that many pieces begins to be as at one length was looked for.
    Stretch(usize),
    /// The busy sum of that many pieces was evaluated: one step of a climb.
    Climb(usize),
    /// A step of a climb went further than the busy sum.
    Leap,
    /// A step of a climb walked over 1,024 lengths, with the releases of that many pieces marked.
    Walk(usize),
    /// A climb ended.
    Climbed,
    /// The interrupts of that many pieces were evaluated: one step to a tight window.
    Tight(usize),
    /// That many divisions were made.
    Divided(usize),
    /// A split was tried, and that is what settled it.
    Candidate(Settled),
    /// The search for a split ended.
    Searched,
    /// A core with a whole task more was judged; whether it has a busy length.
    Judged(bool),
}

/// What settles a candidate for a split.
#[derive(Clone, Copy, Debug, PartialEq, Eq)]
pub enum Settled {
    /// It is allowed.
    Allowed,
    /// It has no tight window that leaves its last piece one.
    NoWindow,
    /// Its last piece is overloaded.
    LastFalls,
    /// Its last piece has no busy length, which ends the search.
    LastEnds,
    /// A job of the core is due within its tight window.
    JobDue,
    /// The far length or the short walk gives a cap.
    ShortCap,
    /// There is no busy length.
    NoBusyLength,
    /// The whole walk gives a cap.
    WholeCap,
    /// Its own blocking overloads a length.
    OwnBlocking,
}

impl Settled {
    /// All of them, in this order.
    pub const ALL: [Settled; 9] = [
        Settled::Allowed,
        Settled::NoWindow,
        Settled::LastFalls,
        Settled::LastEnds,
        Settled::JobDue,
        Settled::ShortCap,
        Settled::NoBusyLength,
        Settled::WholeCap,
        Settled::OwnBlocking,
    ];
}

/// Who is told.
pub trait Tally {
    /// Takes note.
    fn note(&mut self, event: Event);
}

/// Nobody.
pub struct Silent;

impl Tally for Silent {
    #[inline(always)]
    fn note(&mut self, _: Event) {}
}

/// The counts of one or more plans.
#[derive(Clone, Debug, Default)]
pub struct Counts {
    /// Demand evaluations.
    pub demands: u64,
    /// Looks for where a demand begins.
    pub stretches: u64,
    /// Steps of climbs to a busy length.
    pub climbs: u64,
    /// Those that leapt.
    pub leaps: u64,
    /// Those that walked over 1,024 lengths.
    pub walks: u64,
    /// Steps to tight windows.
    pub tights: u64,
    /// Pieces looked at in all of these.
    pub pieces: u64,
    /// Divisions made in these.
    pub divisions: u64,
    /// Splits tried, for each search.
    pub candidates: Vec<u64>,
    /// Lengths looked at, for each verdict on a core with a busy length.
    pub lengths: Vec<u64>,
    /// Steps of each climb.
    pub steps: Vec<u64>,
    /// Candidates by what settled them, in the order of [`Settled::ALL`].
    pub settled: [u64; 9],
    /// Verdicts without a busy length.
    pub undecided: u64,
    tried: u64,
    demands_before: u64,
    climbs_before: u64,
}

impl Tally for Counts {
    fn note(&mut self, event: Event) {
        match event {
            Event::Demand(pieces) => {
                self.demands += 1;
                self.pieces += pieces as u64;
            }
            Event::Stretch(pieces) => {
                self.stretches += 1;
                self.pieces += pieces as u64;
            }
            Event::Climb(pieces) => {
                self.climbs += 1;
                self.pieces += pieces as u64;
            }
            Event::Leap => self.leaps += 1,
            Event::Walk(pieces) => {
                self.walks += 1;
                self.pieces += pieces as u64;
                self.divisions += pieces as u64;
            }
            Event::Climbed => {
                self.steps.push(self.climbs - self.climbs_before);
                self.climbs_before = self.climbs;
            }
            Event::Tight(pieces) => {
                self.tights += 1;
                self.pieces += pieces as u64;
            }
            Event::Divided(times) => self.divisions += times as u64,
            Event::Candidate(how) => {
                self.tried += 1;
                for (settled, count) in Settled::ALL.iter().zip(&mut self.settled) {
                    *count += u64::from(*settled == how);
                }
            }
            Event::Searched => {
                self.candidates.push(self.tried);
                self.tried = 0;
                self.demands_before = self.demands;
            }
            Event::Judged(decided) => {
                if decided {
                    self.lengths.push(self.demands - self.demands_before);
                } else {
                    self.undecided += 1;
                }
                self.demands_before = self.demands;
            }
        }
    }
}

impl Counts {
    /// Evaluations of a sum over a core, of any kind.
    pub fn evaluations(&self) -> u64 {
        self.demands + self.stretches + self.climbs + self.walks + self.tights
    }
}
