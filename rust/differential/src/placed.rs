//! An answer or a refusal's number, and what stands in the lent memory after it: the answer at the start and the rest as it was; nothing
//! but the number, and all as it was, where the answer is refused; refusal 10 where the answer does not fit.
use crate::question::Reply;
use crate::values::*;

/// The number of refusal 10.
const NO_ROOM: u32 = 10;

/// The answer if it fits.
fn fitting<T>(result: Result<T, u32>, fits: impl Fn(&T) -> bool) -> Result<T, u32> {
    result.and_then(|answer| if fits(&answer) { Ok(answer) } else { Err(NO_ROOM) })
}

/// Flags or none, in tables that hold exactly their records.
pub fn flags(result: Result<Option<Flags>, u32>, lent: &Tables) -> Reply {
    let room = lent.room();
    match fitting(result, |flags| flags.as_ref().is_none_or(|flags| flags.head.records <= room)) {
        Err(refusal) => Reply::Flags { answer: petasunok_flags { refusal, ..Default::default() }, lent: lent.clone() },
        Ok(None) => Reply::Flags { answer: petasunok_flags::default(), lent: lent.clone() },
        Ok(Some(flags)) => {
            let answer = petasunok_flags { refusal: 0, present: 1, head: flags.head };
            Reply::Flags { answer, lent: lent.with(&flags.tables) }
        }
    }
}

/// Bytes, and how many.
pub fn written(result: Result<Vec<u8>, u32>, out: &[u8]) -> Reply {
    let mut after = out.to_vec();
    let answer = match fitting(result, |bytes| bytes.len() <= out.len()) {
        Err(refusal) => petasunok_count { refusal, count: 0 },
        Ok(bytes) => {
            after[..bytes.len()].copy_from_slice(&bytes);
            petasunok_count { refusal: 0, count: bytes.len() as u64 }
        }
    };
    Reply::Written { answer, out: after }
}

/// A number.
pub fn count(result: Result<u64, u32>) -> Reply {
    Reply::Count(match result {
        Err(refusal) => petasunok_count { refusal, count: 0 },
        Ok(count) => petasunok_count { refusal: 0, count },
    })
}

/// Whose owner, and the part of an encoding.
pub fn owner(result: Result<(u8, &[u8]), u32>) -> Reply {
    let (answer, part) = match result {
        Err(refusal) => (petasunok_owner { refusal, which: 0 }, &[][..]),
        Ok((which, part)) => (petasunok_owner { refusal: 0, which }, part),
    };
    Reply::Owner { answer, part: part.to_vec() }
}

/// A value's removal, in tables that hold exactly its rows, and the records visited.
pub fn value_split(result: Result<(Removal, usize), u32>, lent: &Rows) -> Reply {
    match fitting(result, |(removal, _)| removal.state.rows <= lent.room()) {
        Err(refusal) => Reply::ValueSplit { answer: petasunok_value_split { refusal, ..Default::default() }, rows: lent.clone() },
        Ok((removal, visited)) => {
            let answer = petasunok_value_split { refusal: 0, removal: removal.state, visited };
            Reply::ValueSplit { answer, rows: lent.with(&removal.rows) }
        }
    }
}

/// A removal, in tables that hold exactly its rows.
pub fn sum(result: Result<Removal, u32>, lent: &Rows) -> Reply {
    match fitting(result, |sum| sum.state.rows <= lent.room()) {
        Err(refusal) => Reply::Sum { answer: petasunok_sum { refusal, ..Default::default() }, rows: lent.clone() },
        Ok(sum) => Reply::Sum { answer: petasunok_sum { refusal: 0, removal: sum.state }, rows: lent.with(&sum.rows) },
    }
}

/// Totals, in tables that hold exactly their rows.
pub fn totals(result: Result<Rows<u64>, u32>, lent: &Rows<u64>) -> Reply {
    match fitting(result, |totals| totals.room() <= lent.room()) {
        Err(refusal) => Reply::Totals { answer: petasunok_count { refusal, count: 0 }, table: lent.clone() },
        Ok(totals) => Reply::Totals { answer: petasunok_count { refusal: 0, count: totals.room() as u64 }, table: lent.with(&totals) },
    }
}

/// Canonical bytes and the lines of a repair, in tables that hold exactly these.
pub fn repaired(result: Result<Repaired, u32>, lent: &Repaired) -> Reply {
    let fits = |repaired: &Repaired| repaired.out.len() <= lent.out.len() && repaired.changes.len() <= lent.room();
    match fitting(result, fits) {
        Err(refusal) => Reply::Repaired { answer: petasunok_repaired { refusal, ..Default::default() }, lent: lent.clone() },
        Ok(repaired) => {
            let answer = petasunok_repaired { refusal: 0, bytes: repaired.out.len(), lines: repaired.changes.len() };
            Reply::Repaired { answer, lent: lent.with(&repaired) }
        }
    }
}
