//! Histories of additions and removals: demand 3 of the conditions, on all sides. Small steps have to come to what one removal comes to.
use crate::boundary;
use crate::expected::expected;
use crate::generate::{flags, numbers};
use crate::owned;
use crate::question::{Merge, Question, Reply, Split};
use crate::random::Random;
use crate::run::Run;
use crate::values::*;
use std::collections::BTreeMap;

/// One step: incoming flags without records, and an amount.
#[derive(Clone, Debug)]
struct Step {
    adds: bool,
    theirs: Flags,
    amount: u32,
}

/// First flags with a latest record of 4 or more, and steps as the demand allows them.
#[derive(Debug)]
struct History {
    first: Flags,
    steps: Vec<Step>,
    added: u64,
    /// All removed less all added.
    whole: u32,
}

/// What a history comes to: the last flags' bytes, and what its sections sum to by epoch, without zeros.
#[derive(Debug, PartialEq, Eq)]
struct Ending {
    bytes: Vec<u8>,
    sections: BTreeMap<u16, u64>,
}

/// One side's answers.
type Side = fn(&Question) -> Option<Reply>;

/// The sides, the original first.
const SIDES: [(&str, Side); 3] = [
    ("the original", |question| Some(expected(question).reply)),
    ("the C boundary", |question| Some(boundary::ask(question))),
    ("the crate's owned values", owned::ask),
];

/// Follows a random history on all sides and compares every step of it.
pub fn history(run: &mut Run, random: &mut Random, most: usize) {
    let history = History::random(random, most);
    run.histories += 1;
    run.steps += history.steps.len() as u64;
    history.follow(&history.steps, &mut |question| {
        run.compare_step(question);
        Some(expected(question).reply)
    });
    for (name, side) in SIDES {
        if !history.concludes(side) {
            run.broken.push(format!("{name}: the steps do not come to what one removal comes to: {history:02x?}"));
        }
    }
}

impl History {
    fn random(random: &mut Random, most: usize) -> History {
        let first = first_flags(random, most);
        let latest = *first.tables.epochs.last().expect("there is a record");
        let mut count = *first.tables.counts.last().expect("there is a record");
        let mut history = History { first, steps: Vec::new(), added: 0, whole: 0 };
        let mut left: u64 = 0;
        for _ in 0..random.below(6) {
            if random.one_in(2) {
                let amount = up_to(random, u32::MAX - count);
                history.push(random, true, latest, amount);
                (count, left, history.added) = (count + amount, left + u64::from(amount), history.added + u64::from(amount));
            } else {
                let amount = up_to(random, left.min(u32::MAX.into()) as u32);
                history.push(random, false, latest, amount);
                (count, left) = (count - amount, left - u64::from(amount));
            }
        }
        history.remove_rest(random, left);
        history
    }

    /// The removals at the end: what is left of the additions, and some more.
    fn remove_rest(&mut self, random: &mut Random, left: u64) {
        let held: u64 = self.first.records().map(|record| u64::from(record.1)).sum();
        self.whole = match random.below(4) {
            0 => numbers::count(random),
            1 => random.below(16) as u32,
            _ => random.below(held.min(u32::MAX.into()) as usize + 1) as u32,
        };
        let mut rest = left + u64::from(self.whole);
        let parts = 1 + random.below(5);
        for part in 0..parts {
            let limit = rest.min(u32::MAX.into()) as u32;
            let amount = if part + 1 == parts { limit } else { up_to(random, limit) };
            let base = numbers::epoch_above(random, self.first.head.base);
            self.push(random, false, base, amount);
            rest -= u64::from(amount);
        }
        while rest > 0 {
            let amount = rest.min(u32::MAX.into()) as u32;
            self.push(random, false, self.first.head.base + 1, amount);
            rest -= u64::from(amount);
        }
    }

    /// One more step, with incoming flags that have no owner or ours.
    fn push(&mut self, random: &mut Random, adds: bool, base: u16, amount: u32) {
        let owned = self.first.owned() && random.one_in(2);
        let theirs = Flags::new(if owned { 2 } else { 0 }, base, self.first.head.owner, &[]);
        self.steps.push(Step { adds, theirs, amount });
    }

    /// Follows steps from the first flags, with room for the first records, and for one row more.
    fn follow(&self, steps: &[Step], side: &mut dyn FnMut(&Question) -> Option<Reply>) -> Option<Ending> {
        let room = self.first.head.records;
        let tables = Tables { epochs: vec![1; room], counts: vec![1; room] };
        let rows = Rows { ids: vec![[1; 32]; room + 1], epochs: vec![1; room + 1], bytes: vec![1; room + 1] };
        let mut ours = self.first.clone();
        let mut sections = BTreeMap::new();
        for step in steps {
            let merge = Merge { present: None, ours, theirs: step.theirs.clone(), with: step.amount, strategy: 0, lent: tables.clone() };
            let merge = if step.adds {
                Question::CombineAdded(merge)
            } else {
                let split = Split { flags: merge.ours.clone(), bytes: step.amount, rows: rows.clone() };
                let Reply::ValueSplit { answer, rows } = side(&Question::SplitValue(split))? else { return None };
                let removal = Removal { state: answer.removal, rows };
                removal.rows().for_each(|(_, epoch, bytes)| *sections.entry(epoch).or_default() += u64::from(bytes));
                Question::CombineRemoved(merge.having(removal))
            };
            let Reply::Flags { answer: petasunok_flags { refusal: 0, present: 1, head }, lent } = side(&merge)? else { return None };
            ours = Flags { head, tables: lent };
        }
        let size = 35 + 7 * room;
        let Reply::Written { answer, mut out } = side(&Question::Serialize { flags: ours, out: vec![1; size] })? else { return None };
        out.truncate(answer.count as usize);
        sections.retain(|_, bytes| *bytes > 0);
        Some(Ending { bytes: out, sections })
    }

    /// Whether the steps come to what one removal comes to, with the additions at the latest epoch.
    fn concludes(&self, mut side: Side) -> bool {
        let theirs = Flags::new(0, self.first.head.base + 1, ZEROS, &[]);
        let once = [Step { adds: false, theirs, amount: self.whole }];
        let (Some(ending), Some(mut one)) = (self.follow(&self.steps, &mut side), self.follow(&once, &mut side)) else { return false };
        let latest = *self.first.tables.epochs.last().expect("there is a record");
        *one.sections.entry(latest).or_default() += self.added;
        one.sections.retain(|_, bytes| *bytes > 0);
        ending == one
    }
}

/// Proper flags whose latest record holds 4 or more.
fn first_flags(random: &mut Random, most: usize) -> Flags {
    loop {
        let mut flags = flags::proper(random, most);
        if let Some(count) = flags.tables.counts.last_mut() {
            *count = (*count).max(4);
            return flags;
        }
    }
}

/// An amount up to a limit, often 0, small or the limit.
fn up_to(random: &mut Random, limit: u32) -> u32 {
    match random.below(6) {
        0 => 0,
        1 => limit,
        2 | 3 => limit.min(random.below(8) as u32),
        _ => random.below(limit as usize + 1) as u32,
    }
}
