//! Document 01's own refusals, 9 to 11, said once more and apart from the library: these cannot be had from the original.
use crate::values::*;

/// Whether flags have records by their kind.
pub fn has_records(kind: u8) -> bool {
    kind == 1 || kind == 3
}

/// Why something given is refused with 11.
#[derive(Clone, Copy, Debug, PartialEq, Eq)]
pub enum Fault {
    /// A byte that is no kind, no strategy or no removal.
    Byte,
    /// More records or rows than the tables hold.
    Count,
    /// Records or rows that are not proper.
    Table,
}

/// What is wrong with flags: of kind 1 or 3 they have records, which rise from above the base; others have none.
pub fn flags_fault(flags: &Flags) -> Option<Fault> {
    let head = &flags.head;
    if head.kind > 3 {
        return Some(Fault::Byte);
    }
    if head.records > flags.tables.room() {
        return Some(Fault::Count);
    }
    let epochs = &flags.tables.epochs[..head.records];
    let rise = epochs.first().is_none_or(|first| *first > head.base) && epochs.windows(2).all(|pair| pair[0] < pair[1]);
    let proper = rise && has_records(head.kind) == (head.records > 0);
    (!proper).then_some(Fault::Table)
}

/// What is wrong with a removal: rows rise by identifier, then epoch.
pub fn removal_fault(removal: &Removal) -> Option<Fault> {
    match removal.state.kind {
        0 | 1 => None,
        2 if removal.state.rows > removal.rows.room() => Some(Fault::Count),
        2 => {
            let rows: Vec<_> = removal.rows().collect();
            let rise = rows.windows(2).all(|pair| (pair[0].0, pair[0].1) < (pair[1].0, pair[1].1));
            (!rise).then_some(Fault::Table)
        }
        _ => Some(Fault::Byte),
    }
}

/// What is wrong with a strategy.
pub fn strategy_fault(strategy: u8) -> Option<Fault> {
    (strategy > 2).then_some(Fault::Byte)
}

/// The exact total of a removal.
pub fn total(removal: &Removal) -> u64 {
    match removal.state.kind {
        1 => removal.state.bytes.into(),
        _ => removal.rows().map(|row| u64::from(row.2)).sum(),
    }
}
