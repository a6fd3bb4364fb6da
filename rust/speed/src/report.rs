//! The report, in Markdown.
mod summary;
mod tables;

use crate::arguments::Means;
use crate::inputs::SEED;
use crate::measured::Measured;
use crate::row::Call;
use std::fs;

/// How the run was made.
pub struct Run {
    pub rounds: usize,
    pub means: Means,
    pub seconds: u64,
}

/// The whole report.
pub fn whole(run: &Run, rows: &[Measured]) -> String {
    let mut parts = vec![head(run), summary::lines(rows)];
    parts.extend(["## Contestants", include_str!("contestants.md").trim_end()].map(String::from));
    parts.extend(["## Inputs", include_str!("inputs.md").trim_end()].map(String::from));
    parts.extend(tables::ratios(rows));
    parts.extend(tables::scaling(rows));
    parts.extend(tables::passes(rows));
    parts.extend(tables::nanoseconds(rows));
    parts.extend(tables::instructions(rows));
    parts.push(last(rows));
    parts.join("\n\n") + "\n"
}

/// What was measured, where, and how.
fn head(run: &Run) -> String {
    let (rounds, seconds) = (run.rounds, run.seconds);
    let place = match run.means {
        Means::Emulated => "an emulator, whose times say little of a processor's,".into(),
        Means::Counted | Means::Timed => processor(),
    };
    let lines = [
        "# Speed: reading, merging and writing\n",
        "    tools/speed [--rounds N] [FOLDER]\n",
        &format!("Measured on {place} in {seconds} s, {rounds} rounds of all contestants in turn and in changing order, seed {SEED}."),
        &format!("A release build of {}; it and the static library are built for any x86-64.", env!("SPEED_RUSTC")),
        "Ratios are those of the shortest rounds; `median` is the middle one of the rounds' ratios. In merging and in the nightly pass a record",
        "is one of ours or of theirs. Instructions are those of the calls, for ours of the C functions. Before a row is measured all answers in",
        "it are compared. Where the linker puts a function moves its time too, by a tenth and more from one build to another.",
    ];
    lines.join("\n")
}

/// The processor, as the machine names it.
fn processor() -> String {
    let told = fs::read_to_string("/proc/cpuinfo").unwrap_or_default();
    let named = told.lines().find_map(|line| line.strip_prefix("model name")?.split_once(": "));
    named.map_or("a processor without a name".into(), |(_, name)| name.trim().into())
}

/// The line that judges: all rows, and the worst of them.
pub fn last(rows: &[Measured]) -> String {
    let worst = crate::measured::largest(rows, Measured::promised);
    format!("speed: {} rows, worst ours / lean {:.2} ({})", rows.len(), worst.promised(), worst.row.name())
}

/// A number with its thousands apart.
pub fn grouped(number: usize) -> String {
    if number < 1_000 {
        return number.to_string();
    }
    format!("{},{:03}", number / 1_000, number % 1_000)
}

/// A call's name as a heading.
pub fn title(call: Call) -> &'static str {
    match call {
        Call::Reading => "Reading",
        Call::Merging => "Merging",
        Call::Writing => "Writing",
        Call::Pass => "The nightly pass",
    }
}
