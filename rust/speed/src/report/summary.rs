//! The summary: what is promised, what is aimed at, and which rows miss it.
use super::grouped;
use crate::measured::{largest, Measured};
use crate::program::{ORIGINAL, OURS};
use crate::row::{Call, SIZE};

/// What no row may pass, and what no row should.
pub const PROMISE: f64 = 2.0;
pub const AIM: f64 = 1.3;

/// How many times as fast as the original reading and merging should be.
const FASTER: f64 = 5.0;

/// The summary's lines.
pub fn lines(rows: &[Measured]) -> String {
    let (at_size, others): (Vec<&Measured>, Vec<&Measured>) =
        rows.iter().partition(|measured| measured.row.call != Call::Pass && measured.row.records == SIZE);
    let mut lines = vec!["## Summary".to_string(), String::new()];
    lines.push(compared(&format!("{} records", grouped(SIZE)), &at_size));
    lines.push(compared("Other sizes and the nightly pass", &others));
    for call in [Call::Reading, Call::Merging] {
        let of_call: Vec<&Measured> = at_size.iter().copied().filter(|measured| measured.row.call == call).collect();
        let least = largest(of_call, |measured| -measured.ratio(ORIGINAL, OURS));
        let (times, name) = (least.ratio(ORIGINAL, OURS), least.row.name());
        lines.push(format!("- {} records, {}: at least {times:.1} times as fast as the original ({name}).", grouped(SIZE), call.name()));
    }
    lines.push(format!("- Above {AIM}, the aim: {}.", listed(rows, |measured| measured.promised() > AIM)));
    lines.push(format!(
        "- Reading or merging less than {FASTER} times as fast as the original: {}.",
        listed(rows, |measured| {
            let meant = matches!(measured.row.call, Call::Reading | Call::Merging);
            meant && measured.ratio(ORIGINAL, OURS) < FASTER
        })
    ));
    lines.join("\n")
}

/// How some rows compare with the lean program.
fn compared(what: &str, rows: &[&Measured]) -> String {
    let below = |limit: f64| rows.iter().filter(|measured| measured.promised() < limit).count();
    let worst = largest(rows.iter().copied(), Measured::promised);
    format!(
        "- {what}: ours / lean is at most {:.2} ({}); of {} rows {} are below 1.0, {} below {AIM}, {} below {PROMISE}.",
        worst.promised(),
        worst.row.name(),
        rows.len(),
        below(1.0),
        below(AIM),
        below(PROMISE),
    )
}

/// The names of some rows, or that there are none.
fn listed(rows: &[Measured], which: impl Fn(&Measured) -> bool) -> String {
    let names: Vec<String> = rows.iter().filter(|measured| which(measured)).map(|measured| measured.row.name()).collect();
    if names.is_empty() {
        return "no row".into();
    }
    names.join(", ")
}
