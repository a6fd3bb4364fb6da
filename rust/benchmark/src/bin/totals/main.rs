//! Changing a table of totals: the call on three slices, the same on a slice of structs, and a plain program over a sorted vector, side by
//! side in time and instructions.
mod contestants;
mod inputs;
mod plain;

use benchmark::rounds::interleaved;
use benchmark::{callgrind, program};
use contestants::{core_in, plain_in, structs_in, Contest};
use inputs::{Change, Owners, Question};
use std::env;
use std::process::ExitCode;

const USAGE: &str = "\
usage: totals [--times] [--rounds N]
       totals once ROWS OWNERS CHANGE

Measures changes of 4 records in tables of 100, 10,000 and 1,000,000 rows, N rounds of three programs in turn: the call on three slices, the
same on a slice of structs, and a plain one over a sorted vector with the same checks. Instructions are counted up to 10,000 rows; --times
leaves them out. The last line says whether the cost grows in line with the rows. `once` asks each program one time and compares the answers;
valgrind counts its instructions. OWNERS is `random` or `repeated`, CHANGE `check`, `update`, `front`, `middle`, `end` or `lose`.";

/// How many rows the tables have. The growth is judged between the last two: the smallest is ruled by the part of the cost that all have.
const SIZES: [usize; 3] = [100, 10_000, 1_000_000];

/// A row of the last size costs at most so many times what one of the size before it does: it comes from memory, which others use too, and
/// not from a cache. Where each row looked at all others, it would be a hundred times.
const MOST_GROWTH: f64 = 16.0;

/// Instructions are counted up to so many rows.
const MOST_COUNTED: usize = 10_000;

/// The rounds of a run that does not say.
const ROUNDS: usize = 31;

/// How many calls a round makes, each on a copy of the table.
fn calls(rows: usize) -> usize {
    (6_400 / rows).clamp(1, 64)
}

/// Asks each program once, and compares the tables afterwards with what is due.
fn check(question: &Question, programs: [&mut dyn Contest; 3]) -> Result<(), String> {
    let due = question.after();
    for (name, program) in ["slices", "structs", "plain"].into_iter().zip(programs) {
        let after = program.answer();
        if after != due {
            return Err(format!(
                "{}: {name}: {} rows that are not those of the change, which are {}",
                question.name(),
                after.len(),
                due.len()
            ));
        }
    }
    Ok(())
}

/// The same, where nothing is measured.
fn once(question: &Question) -> Result<(), String> {
    check(question, [&mut core_in(question, 1), &mut structs_in(question, 1), &mut plain_in(question, 1)])
}

/// Nanoseconds of a call in the shortest round, of each program, and the middle one of the ratios to the plain one's.
struct Times {
    least: [f64; 3],
    ratios: [f64; 2],
}

fn timed(question: &Question, rounds: usize) -> Result<Times, String> {
    let calls = calls(question.rows());
    let (mut core, mut structs, mut plain) = (core_in(question, calls), structs_in(question, calls), plain_in(question, calls));
    check(question, [&mut core, &mut structs, &mut plain])?;
    let [core, structs, plain] = interleaved(rounds, [&mut core, &mut structs, &mut plain]);
    let least = [&core, &structs, &plain].map(|times| times.least() / calls as f64);
    Ok(Times { least, ratios: [core.median_ratio(&plain), structs.median_ratio(&plain)] })
}

/// The instructions of each program, as the report has them.
fn counted(question: &Question, counts: bool) -> Result<String, String> {
    if !counts || question.rows() > MOST_COUNTED {
        return Ok(" | |".into());
    }
    let rows = question.rows().to_string();
    let arguments = ["once", &rows, question.owners.name(), question.change.name()];
    let functions = ["petasunok_totals_replace", "petasunok_totals_replace_structs", "plain_totals_replace"];
    let [core, structs, plain] = callgrind::instructions(&arguments, functions)?;
    Ok(format!("{core} | {structs} | {plain}"))
}

/// The lines of one table, and what a row of it costs at most in the shortest round.
fn measure(rows: usize, owners: Owners, rounds: usize, counts: bool) -> Result<f64, String> {
    let table = inputs::table(rows, owners);
    let (mut check, mut most) = (0.0, 0.0f64);
    for change in Change::ALL {
        let question = Question::new(&table, owners, change);
        let Times { least, ratios } = timed(&question, rounds)?;
        // the first change only checks
        if check == 0.0 {
            check = least[0];
        }
        let costs = least.map(|time| format!("{time:.0}")).join(" | ");
        let part = (100.0 * check / least[0]).min(100.0);
        let counted = counted(&question, counts)?;
        println!("| {} | {costs} | {:.2} | {:.2} | {part:.0} | {counted} |", question.name(), ratios[0], ratios[1]);
        most = most.max(least[0].max(least[1]) / rows as f64);
    }
    Ok(most)
}

/// The whole report, line by line as it is measured.
fn report(rounds: usize, counts: bool) -> Result<(), String> {
    println!("A change of totals on {}: nanoseconds of the shortest of {rounds} rounds, middle ratios, instructions.", env::consts::ARCH);
    println!();
    println!(
        "| Rows | Owners | Change | Slices, ns | Structs, ns | Plain, ns | Slices / plain | Structs / plain | Check, % of slices | \
         Slices, instr. | Structs, instr. | Plain, instr. |"
    );
    println!("|---|---|---|---|---|---|---|---|---|---|---|---|");
    let (mut before, mut growth) = ([f64::INFINITY; 2], 0.0);
    for rows in SIZES {
        growth = 0.0f64;
        for (owners, before) in Owners::ALL.into_iter().zip(&mut before) {
            eprintln!("totals: {rows} rows, {} owners", owners.name());
            let of_row = measure(rows, owners, rounds, counts)?;
            growth = growth.max(of_row / *before);
            *before = of_row;
        }
    }
    println!();
    println!("{}", judged(growth));
    Ok(())
}

/// What the growth of a row's cost says.
fn judged(growth: f64) -> String {
    let verdict = if growth <= MOST_GROWTH { "in line" } else { "OUT OF LINE" };
    let rise = format!("from {} to {} rows that of a row by a factor of {growth:.2} at most", SIZES[1], SIZES[2]);
    format!("totals: the cost grows {verdict} with the rows: {rise}")
}

/// Does what the arguments say.
fn run(arguments: &[&str]) -> Result<(), String> {
    match arguments {
        [] => report(ROUNDS, true),
        ["--help"] => program::help(USAGE),
        ["--times"] => report(ROUNDS, false),
        ["--rounds", rounds] => report(program::rounds(rounds)?, true),
        ["--times", "--rounds", rounds] => report(program::rounds(rounds)?, false),
        ["once", rows, owners, change] => match (rows.parse(), Owners::named(owners), Change::named(change)) {
            (Ok(rows @ 8..=1_000_000), Some(owners), Some(change)) => once(&Question::new(&inputs::table(rows, owners), owners, change)),
            _ => Err(USAGE.into()),
        },
        _ => Err(USAGE.into()),
    }
}

fn main() -> ExitCode {
    program::ended("totals", run)
}
