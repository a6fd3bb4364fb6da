//! Measures a row: the answers are compared, the contestants run in turn, and valgrind counts their instructions.
use crate::inputs::SEED;
use crate::measured::Measured;
use crate::program::{CONTESTANTS, MERGING, ORIGINAL, PROGRAMS, READING, WRITING};
use crate::row::{Call, Row};
use crate::tasks::{merging::Merging, pass::Pass, reading::Reading, writing::Writing, Lent, Task};
use benchmark::callgrind;
use benchmark::rounds::{interleaved, Contestant};
use differential::random::Random;
use std::cell::RefCell;

/// How many records a pool has about, and how many members at the least and at the most.
const POOL: usize = 65_536;
const LEAST: usize = 16;
const MOST: usize = 4_096;

/// The same where instructions are counted.
const COUNTED: usize = 4_096;
const COUNTED_LEAST: usize = 4;
const COUNTED_MOST: usize = 64;

/// The kind of task that a row has: calls a function of it.
macro_rules! with_task {
    ($row:expr, $function:ident($($argument:expr),*)) => {
        match $row.call {
            Call::Reading => $function::<Reading>($($argument),*),
            Call::Merging => $function::<Merging>($($argument),*),
            Call::Writing => $function::<Writing>($($argument),*),
            Call::Pass => $function::<Pass>($($argument),*),
        }
    };
}

/// Measures a row in so many rounds.
pub fn measure(row: &Row, rounds: usize, count: bool) -> Result<Measured, String> {
    let mut measured = with_task!(row, timed(row, rounds))?;
    if count {
        measured.instructions = Some(instructions(row)?);
    }
    Ok(measured)
}

/// Has each contestant do a part of the row's pool once, and gives how many records that are. Valgrind counts the instructions of it.
pub fn once(row: &Row) -> Result<usize, String> {
    with_task!(row, run_once(row))
}

/// The first members of a row's pool.
fn pool<T: Task>(row: &Row, members: usize) -> Vec<T> {
    // the name decides the inputs too, so that no two rows have the same
    let seed = row.name().bytes().fold(SEED, |seed, byte| Random::new(seed ^ u64::from(byte)).bits());
    let mut random = Random::new(seed);
    (0..members).map(|place| T::make(row, &mut random, place)).collect()
}

/// How many members go over about so many records.
fn members(row: &Row, records: usize, least: usize, most: usize) -> usize {
    (records / row.each()).clamp(least, most)
}

/// How many members are gone over where instructions are counted.
fn counted(row: &Row) -> usize {
    members(row, COUNTED, COUNTED_LEAST, COUNTED_MOST)
}

/// Compares all answers with the right ones.
fn compare<T: Task>(row: &Row, pool: &[T], lent: &mut Lent) -> Result<(), String> {
    for program in &PROGRAMS {
        for (place, task) in pool.iter().enumerate() {
            lent.clear();
            let wrong = |what| format!("{}: {} {what} at member {place} of the pool", row.name(), program.name);
            task.by_tables(program, row.room, lent).map_err(|refusal| wrong(format!("refuses with {}", refusal.number())))?;
            if !task.is_right(lent) {
                return Err(wrong("answers something else than the original".into()));
            }
        }
    }
    Ok(())
}

/// The original in a round: its operands, made anew, and its work.
struct Original<'a, T: Task> {
    pool: &'a [T],
    operands: Vec<T::Operands>,
}

impl<T: Task> Contestant for Original<'_, T> {
    fn prepare(&mut self) {
        self.operands.extend(self.pool.iter().map(T::operands));
    }

    fn work(&mut self) {
        for (task, operands) in self.pool.iter().zip(self.operands.drain(..)) {
            task.by_original(operands);
        }
    }
}

/// The times of a row.
fn timed<T: Task>(row: &Row, rounds: usize) -> Result<Measured, String> {
    let pool: Vec<T> = pool(row, members(row, POOL, LEAST, MOST));
    let mut lent = Lent::new(row.records);
    compare(row, &pool, &mut lent)?;
    // all programs are lent the same memory, so that none has a better place
    let lent = RefCell::new(lent);
    let mut programs = PROGRAMS.each_ref().map(|program| {
        let (lent, pool) = (&lent, &pool);
        move || {
            let mut lent = lent.borrow_mut();
            for task in pool {
                task.by_tables(program, row.room, &mut lent).expect("it was not refused before");
            }
        }
    });
    let mut original = Original { pool: &pool, operands: Vec::new() };
    let [ours, lean, careful, tuned] = &mut programs;
    let times = interleaved(rounds, [ours, lean, careful, tuned, &mut original]);
    Ok(Measured { row: *row, times, members: pool.len(), instructions: None })
}

/// Each contestant's work on some members, once.
fn run_once<T: Task>(row: &Row) -> Result<usize, String> {
    let pool: Vec<T> = pool(row, counted(row));
    let mut lent = Lent::new(row.records);
    compare(row, &pool, &mut lent)?;
    let mut original = Original { pool: &pool, operands: Vec::new() };
    original.prepare();
    original.work();
    Ok(row.each() * pool.len())
}

/// Instructions a record, for each contestant.
fn instructions(row: &Row) -> Result<[f64; CONTESTANTS], String> {
    let name = row.name();
    let arguments = ["once", name.as_str()];
    let counts = match row.call {
        Call::Reading => callgrind::instructions(&arguments, READING)?,
        Call::Merging => callgrind::instructions(&arguments, MERGING)?,
        Call::Writing => callgrind::instructions(&arguments, WRITING)?,
        Call::Pass => of_pass(&arguments)?,
    };
    let records = (row.each() * counted(row)) as f64;
    Ok(counts.map(|count| count as f64 / records))
}

/// Instructions of the nightly pass: the programs' three calls together, and the original's one function.
fn of_pass(arguments: &[&str]) -> Result<[u64; CONTESTANTS], String> {
    let (read, merge, write) = (READING, MERGING, WRITING);
    let mut functions = [""; 3 * ORIGINAL + 1];
    for place in 0..ORIGINAL {
        functions[3 * place..3 * place + 3].copy_from_slice(&[read[place], merge[place], write[place]]);
    }
    functions[3 * ORIGINAL] = "original_pass";
    let counts = callgrind::instructions(arguments, functions)?;
    Ok(std::array::from_fn(|place| counts.iter().skip(3 * place).take(3).sum()))
}
