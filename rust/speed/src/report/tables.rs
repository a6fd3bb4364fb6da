//! The tables.
use super::{grouped, title};
use crate::measured::{at_size, by_size, Measured};
use crate::program::{CAREFUL, CONTESTANTS, LEAN, NAMES, ORIGINAL, OURS, TUNED};
use crate::row::{Call, CALLS, SIZE};

/// A table: its columns, and the cells of each row.
fn table(columns: &[String], rows: impl Iterator<Item = Vec<String>>) -> String {
    let line = |cells: &[String]| format!("| {} |", cells.join(" | "));
    let mut lines = vec![line(columns), line(&vec!["---".into(); columns.len()]).replace(' ', "")];
    lines.extend(rows.map(|cells| line(&cells)));
    lines.join("\n")
}

/// Words as cells.
fn cells<const N: usize>(words: [&str; N]) -> Vec<String> {
    words.map(String::from).to_vec()
}

/// The contestants' names as columns.
fn names() -> Vec<String> {
    NAMES.iter().map(|name| name[..1].to_uppercase() + &name[1..]).collect()
}

/// The columns of the inputs of a call's rows.
fn inputs(call: Call) -> Vec<String> {
    match call {
        Call::Merging => cells(["Counts", "Room", "Bases", "Epochs"]),
        _ => cells(["Counts", "Room"]),
    }
}

/// One table for each call, under a heading, with such cells behind those that name the inputs.
fn by_call(rows: &[Measured], heading: &str, columns: Vec<String>, values: impl Fn(&Measured) -> Vec<String>) -> Vec<String> {
    let mut parts = vec![format!("## {heading}")];
    for call in CALLS {
        parts.push(format!("### {}, {} records", title(call), grouped(SIZE)));
        let lines =
            at_size(rows, call).map(|measured| [measured.row.inputs().into_iter().map(String::from).collect(), values(measured)].concat());
        parts.push(table(&[inputs(call), columns.clone()].concat(), lines));
    }
    parts
}

/// The ratios at one size.
pub fn ratios(rows: &[Measured]) -> Vec<String> {
    let columns = cells(["Ours / lean", "median", "Ours / careful", "Ours / tuned", "Original / ours"]);
    by_call(rows, "Ratios", columns, |measured| {
        let [careful, tuned] = [CAREFUL, TUNED].map(|to| format!("{:.2}", measured.ratio(OURS, to)));
        let median = format!("{:.2}", measured.median_ratio(OURS, LEAN));
        vec![format!("{:.2}", measured.promised()), median, careful, tuned, format!("{:.1}", measured.ratio(ORIGINAL, OURS))]
    })
}

/// One cell for each contestant.
fn each(cell: impl Fn(usize) -> String) -> Vec<String> {
    (0..CONTESTANTS).map(cell).collect()
}

/// The times at one size.
pub fn nanoseconds(rows: &[Measured]) -> Vec<String> {
    by_call(rows, "Nanoseconds a record: the shortest round (the middle one)", names(), |measured| {
        each(|contestant| format!("{:.2} ({:.2})", measured.least(contestant), measured.median(contestant)))
    })
}

/// The instructions at one size, where they were counted.
pub fn instructions(rows: &[Measured]) -> Vec<String> {
    if rows.iter().any(|measured| measured.instructions.is_none()) {
        return vec!["Instructions were not counted.".into()];
    }
    by_call(rows, "Instructions a record, by callgrind", names(), |measured| {
        measured.instructions.into_iter().flatten().map(|count| format!("{count:.1}")).collect()
    })
}

/// How the cost grows with the records.
pub fn scaling(rows: &[Measured]) -> Vec<String> {
    let mut parts = vec!["## Scaling: nanoseconds a record, mixed counts, ample room; merging at a higher base, overlapping".to_string()];
    let columns = [cells(["Records"]), names(), cells(["Ours / lean", "Ours, to the size before"])].concat();
    for call in CALLS {
        let measured: Vec<&Measured> = by_size(rows, call).collect();
        let lines = (0..measured.len()).map(|place| {
            let here = measured[place];
            let before = place.checked_sub(1).map(|before| here.least(OURS) / measured[before].least(OURS));
            let mut line = vec![grouped(here.row.records)];
            line.extend(each(|contestant| format!("{:.2}", here.least(contestant))));
            line.extend([format!("{:.2}", here.promised()), before.map_or("".into(), |growth| format!("{growth:.2}"))]);
            line
        });
        parts.extend([format!("### {}, by size", title(call)), table(&columns, lines)]);
    }
    parts
}

/// The nightly pass.
pub fn passes(rows: &[Measured]) -> Vec<String> {
    let ratios = cells(["Ours / lean", "median", "Ours / careful", "Original / ours"]);
    let columns = [cells(["Records", "Counts", "Bases"]), names(), ratios].concat();
    let lines = rows.iter().filter(|measured| measured.row.call == Call::Pass).map(|measured| {
        let row = &measured.row;
        let mut line = vec![grouped(row.records), row.counts.name().into(), row.bases.name().into()];
        line.extend(each(|contestant| format!("{:.3}", measured.million(contestant))));
        line.extend(
            [measured.promised(), measured.median_ratio(OURS, LEAN), measured.ratio(OURS, CAREFUL)].map(|ratio| format!("{ratio:.2}")),
        );
        line.push(format!("{:.1}", measured.ratio(ORIGINAL, OURS)));
        line
    });
    let heading = "## The nightly pass: both read, merged and written; seconds a million flags, overlapping epochs, ample room";
    vec![heading.into(), table(&columns, lines)]
}
