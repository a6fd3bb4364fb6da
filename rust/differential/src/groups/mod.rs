//! The calls in groups. Each group has its boundaries, visited one after another, and random questions.
pub mod heads;
pub mod merging;
pub mod owners;
pub mod reading;
pub mod removals;
pub mod repairing;
pub mod sums;
pub mod totals;
pub mod writing;

use crate::expected::expected;
use crate::generate::lent;
use crate::question::{Asked, Both, Merge, Question, Reply};
use crate::random::Random;

/// What is done with each question.
pub type Visit<'a> = dyn FnMut(Question) + 'a;

/// The boundaries of a group: questions, or splits of both parts at once.
pub enum Boundaries {
    Calls(fn(&mut Visit)),
    Splits(fn(&mut dyn FnMut(Both))),
}

/// Random questions of one call, or splits of both parts at once, with at most so many records or rows on a side.
pub enum Randomly {
    Call(fn(&mut Random, usize) -> Question),
    Split(fn(&mut Random, usize) -> Both),
}

impl Boundaries {
    /// Visits them one after another.
    pub fn visit(&self, visit: &mut dyn FnMut(Asked)) {
        match self {
            Boundaries::Calls(all) => all(&mut |question| visit(Asked::Call(question))),
            Boundaries::Splits(all) => all(&mut |both| visit(Asked::Both(both))),
        }
    }
}

impl Randomly {
    /// One of them.
    pub fn ask(&self, random: &mut Random, most: usize) -> Asked {
        match self {
            Randomly::Call(one) => Asked::Call(one(random, most)),
            Randomly::Split(one) => Asked::Both(one(random, most)),
        }
    }
}

/// The groups' boundaries. Repairs and totals are asked apart from them and from the random questions, since they have random numbers of
/// their own.
pub const BOUNDARIES: [Boundaries; 7] = [
    Boundaries::Calls(reading::boundaries),
    Boundaries::Calls(writing::boundaries),
    Boundaries::Calls(owners::boundaries),
    Boundaries::Calls(merging::boundaries),
    Boundaries::Splits(removals::boundaries),
    Boundaries::Calls(sums::boundaries),
    Boundaries::Calls(heads::boundaries),
];

/// The calls' random questions. Calls that matter more, or have more cases, stand here more than once.
pub const RANDOMLY: [Randomly; 22] = [
    Randomly::Call(reading::random),
    Randomly::Call(reading::random),
    Randomly::Call(reading::random),
    Randomly::Call(writing::serialize),
    Randomly::Call(writing::serialized_size),
    Randomly::Call(writing::approximate_size),
    Randomly::Call(owners::random),
    Randomly::Call(merging::added),
    Randomly::Call(merging::added),
    Randomly::Call(merging::added),
    Randomly::Call(merging::removed),
    Randomly::Call(merging::removed),
    Randomly::Call(merging::removed),
    Randomly::Call(merging::removed),
    Randomly::Split(removals::both),
    Randomly::Split(removals::both),
    Randomly::Split(removals::both),
    Randomly::Call(sums::add_assign),
    Randomly::Call(sums::add_assign),
    Randomly::Call(sums::has_removal),
    Randomly::Call(sums::total),
    Randomly::Call(heads::random),
];

/// A question whose room is ample, or with room near what the answer needs; the expected answer says that.
fn fit(random: &mut Random, mut question: Question) -> Question {
    if random.one_in(2) {
        return question;
    }
    let reply = expected(&question).reply;
    match (&mut question, reply) {
        (Question::Read { lent, .. }, Reply::Flags { answer, .. })
        | (Question::CombineAdded(Merge { lent, .. }), Reply::Flags { answer, .. })
        | (Question::CombineRemoved(Merge { lent, .. }), Reply::Flags { answer, .. }) => *lent = lent::tables(random, answer.head.records),
        (Question::Serialize { out, .. }, Reply::Written { answer, .. }) => *out = lent::bytes(random, answer.count as usize),
        (Question::Repair { lent, .. }, Reply::Repaired { answer, .. }) => *lent = lent::repaired(random, answer.bytes, answer.lines),
        _ => {}
    }
    question
}
