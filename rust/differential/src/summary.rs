//! What a run came to, on standard output.
use crate::fields;
use crate::intended::INTENDED;
use crate::question::{CALLS, MODELLED};
use crate::run::{Difference, Run};

/// The numbers of the refusals that are given.
const REFUSALS: [usize; 12] = [1, 2, 3, 4, 5, 6, 7, 8, 9, 10, 11, 14];

/// Prints a run's figures, and a difference if there is one. Whether there was none.
pub fn print(run: &Run) -> bool {
    calls(run);
    println!("intended differences:");
    for (number, (_, name, reason)) in run.intended.iter().zip(INTENDED) {
        println!("  {number:>9}  {name}: {reason}");
    }
    println!("{} histories of {} steps", run.histories, run.steps);
    println!("{} histories of totals of {} changes", run.totals_histories, run.changes);
    run.broken.iter().take(1).for_each(|broken| println!("{broken}"));
    if let Some(smallest) = run.differences.iter().min_by_key(|difference| format!("{:?}", difference.question).len()) {
        difference(smallest);
    }
    let differences = run.differences.len() + run.broken.len();
    println!("{} comparisons in {} s, {differences} differences", run.compared(), run.progress.seconds());
    differences == 0
}

/// The table of calls.
fn calls(run: &Run) {
    print!("{:<31}{:>10}{:>10}{:>10}", "call", "compared", "and owned", "answered");
    REFUSALS.iter().for_each(|refusal| print!("{refusal:>9}"));
    println!();
    for (name, tally) in CALLS.iter().zip(&run.tallies).filter(|(_, tally)| tally.compared > 0) {
        print!("{name:<31}{:>10}{:>10}{:>10}", tally.compared, tally.owned, tally.by_refusal[0]);
        REFUSALS.iter().for_each(|refusal| print!("{:>9}", tally.by_refusal[*refusal]));
        println!();
    }
    for (name, _) in CALLS.iter().zip(&run.tallies).filter(|(name, tally)| tally.compared > 0 && MODELLED.contains(name)) {
        println!("the original has no {name}; it is compared with a model, written from document 02");
    }
}

/// One difference, with numbers in hex, and as a line of the stored answers if they can have it.
fn difference(difference: &Difference) {
    let Difference { side, question, expected, found, after } = difference;
    println!("DIFFERENCE in {} at {side}, in comparison {after}", question.name());
    println!("  asked     {question:02x?}");
    println!("  expected  {expected:02x?}");
    println!("  found     {found:02x?}");
    if let (Some(digits), Some(answer)) = (fields::question(question), fields::reply(expected)) {
        println!("  stored    {digits} = {answer}");
    }
}
