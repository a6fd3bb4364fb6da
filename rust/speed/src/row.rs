//! The rows of the report: what is measured, on which inputs.

/// Names one of several, and finds one by its name.
macro_rules! named {
    ($(#[$doc:meta])* $type:ident { $($variant:ident $name:literal),* }) => {
        $(#[$doc])*
        #[derive(Clone, Copy, Debug, PartialEq, Eq)]
        pub enum $type {
            $($variant),*
        }

        impl $type {
            pub const ALL: &'static [$type] = &[$($type::$variant),*];

            pub fn name(self) -> &'static str {
                match self {
                    $($type::$variant => $name),*
                }
            }
        }
    };
}

named! {
    /// What is measured; a pass is the nightly one, which reads both, merges, and writes.
    Call { Reading "reading", Merging "merging", Writing "writing", Pass "pass" }
}

named! {
    /// How large the counts are.
    Counts { OneByte "one byte", Mixed "mixed", FiveBytes "five bytes" }
}

named! {
    /// How much room is lent: more than enough, or just what the answer needs.
    Room { Ample "ample", Exact "exact" }
}

named! {
    /// Where the incoming base stands.
    Bases { Equal "equal", Higher "higher" }
}

named! {
    /// How the epochs of two flags lie: none in common and interleaved at random, about half in common, or all of theirs above all of ours.
    Epochs { Disjoint "disjoint", Overlapping "overlapping", Apart "apart" }
}

/// The calls that are measured one by one.
pub const CALLS: [Call; 3] = [Call::Reading, Call::Merging, Call::Writing];

/// One row. Reading and writing have no bases and epochs; they are at their first there.
#[derive(Clone, Copy, Debug, PartialEq, Eq)]
pub struct Row {
    pub call: Call,
    pub records: usize,
    pub counts: Counts,
    pub room: Room,
    pub bases: Bases,
    pub epochs: Epochs,
}

/// The size at which every row is measured.
pub const SIZE: usize = 1_024;

/// The sizes over which the cost grows.
pub const SIZES: [usize; 4] = [8, 64, SIZE, 16_384];

/// The sizes of the nightly pass.
pub const PASS_SIZES: [usize; 3] = [8, 64, SIZE];

impl Row {
    /// The inputs that stand for a call where only the size changes.
    fn usual(call: Call, records: usize) -> Row {
        Row { call, records, counts: Counts::Mixed, room: Room::Ample, bases: Bases::Higher, epochs: Epochs::Overlapping }
    }

    /// Whether two flags are merged.
    pub fn merges(&self) -> bool {
        matches!(self.call, Call::Merging | Call::Pass)
    }

    /// How many records a member of its pool has: those of both flags where two are merged.
    pub fn each(&self) -> usize {
        if self.merges() {
            2 * self.records
        } else {
            self.records
        }
    }

    /// What tells its inputs from those of other rows of the call at the same size.
    pub fn inputs(&self) -> Vec<&'static str> {
        let mut words = vec![self.counts.name(), self.room.name()];
        if self.merges() {
            words.extend([self.bases.name(), self.epochs.name()]);
        }
        words
    }

    /// The name, by which `speed once` knows the row too.
    pub fn name(&self) -> String {
        format!("{}/{}/{}", self.call.name(), self.inputs().join("/").replace(' ', "-"), self.records)
    }
}

/// The rows of reading, writing and merging at one size.
pub fn at_size() -> Vec<Row> {
    let mut rows = Vec::new();
    for call in [Call::Reading, Call::Writing] {
        for &counts in Counts::ALL {
            rows.extend(Room::ALL.iter().map(|&room| Row { counts, room, ..Row::usual(call, SIZE) }));
        }
    }
    for &counts in Counts::ALL {
        for &bases in Bases::ALL {
            for &epochs in Epochs::ALL {
                let row = Row { counts, bases, epochs, ..Row::usual(Call::Merging, SIZE) };
                rows.extend(Room::ALL.iter().map(|&room| Row { room, ..row }));
            }
        }
    }
    rows
}

/// The rows over which the size grows.
pub fn scaling() -> Vec<Row> {
    CALLS.into_iter().flat_map(|call| SIZES.map(|records| Row::usual(call, records))).collect()
}

/// The rows of the nightly pass: mixed counts at every size, the others at the largest.
pub fn passes() -> Vec<Row> {
    let mut rows = Vec::new();
    for records in PASS_SIZES {
        for &counts in Counts::ALL {
            if counts == Counts::Mixed || records == SIZE {
                rows.extend(Bases::ALL.iter().map(|&bases| Row { counts, bases, ..Row::usual(Call::Pass, records) }));
            }
        }
    }
    rows
}

/// All rows, each once.
pub fn all() -> Vec<Row> {
    let mut rows = at_size();
    rows.extend(scaling().into_iter().filter(|row| row.records != SIZE));
    rows.extend(passes());
    rows
}

/// The row of a name.
pub fn find(name: &str) -> Option<Row> {
    all().into_iter().find(|row| row.name() == name)
}
