//! What was measured.
use crate::program::{CONTESTANTS, LEAN, OURS};
use crate::row::{self, Call, Row, SIZE};
use benchmark::rounds::Times;

/// What was measured in a row.
pub struct Measured {
    pub row: Row,
    /// The times of the rounds, for each contestant.
    pub times: [Times; CONTESTANTS],
    /// How many members of the pool are gone over in a round.
    pub members: usize,
    /// Instructions a record, for each contestant, where they were counted.
    pub instructions: Option<[f64; CONTESTANTS]>,
}

impl Measured {
    /// How many records are gone over in a round.
    fn records(&self) -> f64 {
        (self.members * self.row.each()) as f64
    }

    /// Nanoseconds a record, in the shortest round.
    pub fn least(&self, contestant: usize) -> f64 {
        self.times[contestant].least() / self.records()
    }

    /// Nanoseconds a record, in the middle one.
    pub fn median(&self, contestant: usize) -> f64 {
        self.times[contestant].median() / self.records()
    }

    /// One contestant's time as a multiple of another's, by their shortest rounds.
    pub fn ratio(&self, of: usize, to: usize) -> f64 {
        self.times[of].least() / self.times[to].least()
    }

    /// The middle one of the rounds' ratios.
    pub fn median_ratio(&self, of: usize, to: usize) -> f64 {
        self.times[of].median_ratio(&self.times[to])
    }

    /// What is promised of every row: ours as a multiple of the lean program.
    pub fn promised(&self) -> f64 {
        self.ratio(OURS, LEAN)
    }

    /// Seconds that a million members of the pool take, by the shortest round.
    pub fn million(&self, contestant: usize) -> f64 {
        self.times[contestant].least() / self.members as f64 / 1_000.0
    }
}

/// The rows of a call at the size at which all inputs are measured.
pub fn at_size(rows: &[Measured], call: Call) -> impl Iterator<Item = &Measured> {
    rows.iter().filter(move |measured| measured.row.call == call && measured.row.records == SIZE)
}

/// The rows of a call over which the size grows.
pub fn by_size(rows: &[Measured], call: Call) -> impl Iterator<Item = &Measured> {
    let sizes = row::scaling().into_iter().filter(move |row| row.call == call);
    sizes.filter_map(|row| rows.iter().find(|measured| measured.row == row))
}

/// The one of some rows at which a number is largest.
pub fn largest<'a>(rows: impl IntoIterator<Item = &'a Measured>, number: impl Fn(&Measured) -> f64) -> &'a Measured {
    let rows = rows.into_iter();
    rows.max_by(|one, other| number(one).total_cmp(&number(other))).expect("there are rows")
}
