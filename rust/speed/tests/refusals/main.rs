//! The plain programs against the static library, on random, damaged and boundary inputs: `careful` answers and refuses as it does, and a
//! refusal leaves what was lent; `lean` and `tuned` answer the same and refuse the same inputs, now and then with another number, as their
//! description says.
mod merging;
mod reading;
mod writing;

use differential::random::Random;
use differential::values::Tables;
use petasunok::StorageFlagsError;
use speed::program::{Program, CAREFUL, OURS, PROGRAMS};
use std::fmt::Debug;

/// How many random questions each call is asked.
const QUESTIONS: usize = 20_000;

/// How often each of the refusals that a call has is met at the least.
const OFTEN: usize = 100;

/// Asks random questions; such refusals are met often, 0 for an answer, and no other.
fn ask_at_random(seed: u64, numbers: &[u32], mut question: impl FnMut(&mut Random) -> u32) {
    let mut random = Random::new(seed);
    let mut met = [0; 12];
    for _ in 0..QUESTIONS {
        met[question(&mut random) as usize] += 1;
    }
    for (number, times) in met.into_iter().enumerate() {
        let expected = numbers.contains(&(number as u32));
        assert!(if expected { times >= OFTEN } else { times == 0 }, "{number} was met {times} times");
    }
}

/// Tables for so many records, with something in them.
fn tables(records: usize) -> Tables {
    Tables { epochs: vec![77; records], counts: vec![777; records] }
}

/// Tables with less room than is needed: in both, in the epochs, in the counts.
fn short(room: usize, needed: usize) -> [Tables; 3] {
    let (short, ample) = (tables(room), tables(needed));
    let few_epochs = Tables { epochs: short.epochs.clone(), counts: ample.counts };
    let few_counts = Tables { epochs: ample.epochs, counts: short.counts.clone() };
    [short, few_epochs, few_counts]
}

/// An answer, or the number of a refusal.
fn numbered<A>(answer: Result<A, StorageFlagsError>) -> Result<A, u32> {
    answer.map_err(StorageFlagsError::number)
}

/// Asks all programs one question on copies of what is lent, compares them with the library, and gives its number. A program that promises
/// less may say 10 instead of a refusal of the list.
fn ask<A: PartialEq + Debug, L: Clone + PartialEq + Debug>(
    lent: &L,
    later: &[u32],
    question: impl Fn(&Program, &mut L) -> Result<A, StorageFlagsError>,
) -> u32 {
    let outcome = |program: &Program| {
        let mut after = lent.clone();
        let answer = numbered(question(program, &mut after));
        (answer, after)
    };
    let right = outcome(&PROGRAMS[OURS]);
    for (place, program) in PROGRAMS.iter().enumerate() {
        let made = outcome(program);
        match (&right.0, &made.0) {
            (Err(first), Err(other)) if place != CAREFUL => {
                assert!(first == other || *other == 10 && later.contains(first), "{}: {other}, and it is {first}", program.name)
            }
            _ => assert_eq!(made, right, "{}", program.name),
        }
    }
    if right.0.is_err() {
        assert_eq!(right.1, *lent);
    }
    right.0.err().unwrap_or(0)
}
