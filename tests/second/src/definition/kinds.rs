//! The kinds of document 01 with their limits: task record, policy, result, sheet, refusal.

/// The scale S: parts to one processor.
pub const SCALE: u64 = 1_000_000;

/// "1 to 16 processors, written m."
pub const MOST_PROCESSORS: u16 = 16;

/// "At most 32 tasks."
pub const MOST_TASKS: usize = 32;

/// A row of the task table, a whole task record.
#[derive(Clone, Copy, Debug, Default, PartialEq, Eq)]
pub struct Record {
    pub c: u32,
    pub tmin: u32,
    pub tmax: u32,
    pub e: u32,
}

impl Record {
    pub const GREATEST_PERIOD: u32 = 1_000_000_000;
    pub const GREATEST_ELASTICITY: u32 = 1_000_000;
    /// Bytes of a record in a sheet.
    pub const BYTES: usize = 16;

    pub const fn new(c: u32, tmin: u32, tmax: u32, e: u32) -> Record {
        Record { c, tmin, tmax, e }
    }

    /// Ask 2: "each job pays for being swapped in and out", so a job costs C + 2w; 32 bits do not always hold it.
    pub fn cost(self, w: u16) -> u64 {
        u64::from(self.c) + 2 * u64::from(w)
    }

    /// "good when 1 ≤ C ≤ Tmin ≤ Tmax ≤ 1,000,000,000 and 0 ≤ E ≤ 1,000,000", where Ask 2 reads C + 2w in "C ≤ Tmin" alone;
    /// Ask 5: "Tmin and Tmax must be multiples of q"
    pub fn is_good(self, w: u16, q: u16) -> bool {
        1 <= self.c
            && self.cost(w) <= u64::from(self.tmin)
            && self.tmin <= self.tmax
            && self.tmax <= Record::GREATEST_PERIOD
            && self.e <= Record::GREATEST_ELASTICITY
            && is_multiple(self.tmin, q)
            && is_multiple(self.tmax, q)
    }
}

/// Whether a period is a whole number of notches; of none it is not.
pub fn is_multiple(period: u32, q: u16) -> bool {
    q != 0 && period % u32::from(q) == 0
}

/// "The policy travels inside the station settings as a choice of its own."
#[derive(Clone, Copy, Debug, PartialEq, Eq)]
pub enum Policy {
    Pooled,
    GlobalEdf,
    /// Ask 8: "withdrawn"; no finder and no margin serves it any more, and "the rule itself stays".
    GlobalRm,
    FirstFit,
    /// Ask 1's one-core rate monotonic.
    OneCoreRm,
    /// "A number outside 1 to 4 is kept in a further choice, so that it is written back"; since Ask 1 outside 1 to 5.
    Further(u16),
}

impl Policy {
    /// The choice that a reader makes of a number.
    pub fn from_number(number: u16) -> Policy {
        match number {
            1 => Policy::Pooled,
            2 => Policy::GlobalEdf,
            3 => Policy::GlobalRm,
            4 => Policy::FirstFit,
            5 => Policy::OneCoreRm,
            other => Policy::Further(other),
        }
    }

    /// The number that a writer writes for a choice.
    pub fn number(self) -> u16 {
        match self {
            Policy::Pooled => 1,
            Policy::GlobalEdf => 2,
            Policy::GlobalRm => 3,
            Policy::FirstFit => 4,
            Policy::OneCoreRm => 5,
            Policy::Further(number) => number,
        }
    }

    /// "a further choice holding 1 to 4 means that policy", and in Ask 1 "a further choice holding 5 means it"
    pub fn meaning(self) -> Policy {
        Policy::from_number(self.number())
    }
}

/// A result of a sheet: the period and the processor granted to a task.
#[derive(Clone, Copy, Debug, Default, PartialEq, Eq)]
pub struct Granted {
    pub period: u32,
    pub processor: u16,
}

impl Granted {
    /// Bytes of a result in a sheet.
    pub const BYTES: usize = 6;
}

/// A station sheet with all its places, used or not.
#[derive(Clone, Debug, PartialEq, Eq)]
pub struct Sheet {
    /// Ask 2: "kept and written back as read", whatever it is; only the writer looks at it.
    pub settings_count: u16,
    pub policy: Policy,
    pub m: u16,
    /// Ask 2: "a third number, the swap cost w"
    pub w: u16,
    /// Ask 5: "a fourth number q, from 1 to 65,535"
    pub q: u16,
    /// Ask 10: "a fifth number, 1 or 2"
    pub edition: u16,
    pub task_count: u16,
    pub result_count: u16,
    pub rows: [Record; MOST_TASKS],
    pub results: [Granted; MOST_TASKS],
}

impl Sheet {
    /// Ask 10: "Refusal 9 allows counts 2 to 5"
    pub const SETTINGS_COUNTS: [u16; 4] = [2, 3, 4, 5];

    /// "at most 714"; since Ask 2 "the greatest length follows", with Ask 10 that of five settings.
    pub const MOST_BYTES: usize = Sheet::bytes_needed(5, MOST_TASKS, MOST_TASKS);

    /// "a sheet of zeros (policy: the further choice 0)", q = 0 and edition 0 too, though missing ones are 1
    pub fn zeros() -> Sheet {
        Sheet {
            settings_count: 0,
            policy: Policy::Further(0),
            m: 0,
            w: 0,
            q: 0,
            edition: 0,
            task_count: 0,
            result_count: 0,
            rows: [Record::default(); MOST_TASKS],
            results: [Granted::default(); MOST_TASKS],
        }
    }

    /// Whether the settings count is one that a sheet may have.
    pub fn counts_its_settings(&self) -> bool {
        Sheet::SETTINGS_COUNTS.contains(&self.settings_count)
    }

    /// Where the records begin: behind the settings count, the settings and the task count, 2 bytes each.
    pub const fn records_place(settings_count: usize) -> usize {
        4 + 2 * settings_count
    }

    /// "A sheet is then 6 + 2s + 16n + 6r bytes for s settings."
    pub const fn bytes_needed(
        settings_count: usize,
        task_count: usize,
        result_count: usize,
    ) -> usize {
        6 + 2 * settings_count + Record::BYTES * task_count + Granted::BYTES * result_count
    }
}

/// A number we hand back, with its place.
#[derive(Clone, Copy, Debug, PartialEq, Eq)]
pub struct Refusal {
    pub number: u8,
    pub place: u32,
}

/// The refusal of that number at that place, as an answer.
pub fn refuse<T>(number: u8, place: usize) -> Result<T, Refusal> {
    Err(Refusal { number, place: place as u32 })
}
