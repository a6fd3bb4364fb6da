//! The stages of a run: the marked examples, boundaries, random rounds with histories, and short strings.
use crate::edges;
use crate::groups::{repairing, totals as of_totals, Boundaries, BOUNDARIES, RANDOMLY};
use crate::histories;
use crate::marked;
use crate::question::{Asked, TOTALS_REPLACE};
use crate::random::Random;
use crate::repairs;
use crate::run::Run;
use crate::short_strings;
use crate::totals;
use crate::totals_histories::{self, Size};

/// The most records or rows on a side of a random question.
const MOST: usize = 40;

/// Every so many rounds the tables may be as long as those of elements that live long.
const LONG: u64 = 16;
const MOST_OF_LONG: usize = 1_000;

/// A history comes every so many rounds, and one of totals.
const HISTORY: u64 = 8;

/// So many random changes of totals come in each round.
const CHANGES: usize = 6;

/// Histories of totals: a few elements with few owners, and every so many rounds some hundred.
const FEW: Size = Size { elements: 12, records: 6, owners: 3, changes: 14 };
const MANY: Size = Size { elements: 400, records: 400, owners: 24, changes: 500 };
const HISTORY_OF_MANY: u64 = 4_096;

/// All stages.
pub fn all(run: &mut Run, rounds: u64, seed: u64) {
    run.progress.stage("boundaries".into());
    let examples = [Boundaries::Calls(marked::questions), Boundaries::Calls(edges::questions), Boundaries::Splits(edges::splits)];
    let of_repairs = [repairs::questions, repairing::boundaries, repairing::short_strings].map(Boundaries::Calls);
    let of_totals = [totals::questions, of_totals::boundaries].map(Boundaries::Calls);
    for boundaries in examples.into_iter().chain(BOUNDARIES).chain(of_repairs).chain(of_totals) {
        boundaries.visit(&mut |asked| run.compare(asked));
    }
    random_rounds(run, rounds, seed);
    short_strings::all(run);
}

/// Random questions of every call, and histories.
fn random_rounds(run: &mut Run, rounds: u64, seed: u64) {
    let [mut random, mut random_of_repairs, mut random_of_totals] = [(); 3].map(|()| Random::new(seed));
    for round in 0..rounds {
        if run.over() {
            return;
        }
        run.progress.stage(format!("round {} of {rounds}", round + 1));
        let most = if round % LONG == 0 { MOST_OF_LONG } else { MOST };
        for randomly in RANDOMLY {
            run.compare(randomly.ask(&mut random, most));
        }
        run.compare(Asked::Call(repairing::random(&mut random_of_repairs, most)));
        for _ in 0..CHANGES {
            run.compare(Asked::Call(of_totals::random(&mut random_of_totals, most)));
        }
        if round % HISTORY == 0 && run.has_histories() {
            histories::history(run, &mut random, MOST / 4);
        }
        if round % HISTORY == 0 && run.wants(TOTALS_REPLACE) {
            let size = if round % HISTORY_OF_MANY == 0 { MANY } else { FEW };
            totals_histories::history(run, &mut random_of_totals, &size);
        }
    }
}
