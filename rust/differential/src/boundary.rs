//! Our answers, at the C boundary, as they come: also the fields of a refused answer, and bytes that name nothing.
use crate::guarded::{given, Lent, LentRows, LentTables};
use crate::question::{Change, Merge, Question, Reader, Reply};
use crate::values::*;
use petasunok::sys;

/// One call, `ask!(name; part, ..)`. A part is a number, read `bytes`, `flags` or `rows`, or lent `out`, `tables` or `into_rows`; all but the
/// first go as pointers with lengths.
macro_rules! ask {
    ($name:ident; $($part:tt)*) => { ask!(@ $name () $($part)*,) };
    (@ $name:ident ($($done:expr,)*) $(,)?) => {
        // every pointer comes with the length of what it points to, and what is lent is lent to this call alone
        unsafe { sys::$name($($done),*) }
    };
    (@ $name:ident ($($done:tt)*) number $number:expr, $($rest:tt)*) => { ask!(@ $name ($($done)* $number,) $($rest)*) };
    (@ $name:ident ($($done:tt)*) bytes $read:expr, $($rest:tt)*) => { ask!(@ $name ($($done)* given($read), $read.len(),) $($rest)*) };
    (@ $name:ident ($($done:tt)*) out $lent:expr, $($rest:tt)*) => { ask!(@ $name ($($done)* $lent.pointer(), $lent.len(),) $($rest)*) };
    (@ $name:ident ($($done:tt)*) flags $flags:expr, $($rest:tt)*) => {
        ask!(@ $name ($($done)*) number $flags.head, bytes &$flags.tables.epochs, bytes &$flags.tables.counts, $($rest)*)
    };
    (@ $name:ident ($($done:tt)*) rows $removal:expr, $($rest:tt)*) => {
        ask!(@ $name ($($done)*) number $removal.state, bytes &$removal.rows.ids, bytes &$removal.rows.epochs, bytes &$removal.rows.bytes, $($rest)*)
    };
    (@ $name:ident ($($done:tt)*) tables $lent:expr, $($rest:tt)*) => { ask!(@ $name ($($done)*) out $lent.epochs, out $lent.counts, $($rest)*) };
    (@ $name:ident ($($done:tt)*) into_rows $lent:expr, $($rest:tt)*) => {
        ask!(@ $name ($($done)*) out $lent.ids, out $lent.epochs, out $lent.bytes, $($rest)*)
    };
}

/// A call that fills lent tables of records, with what stands in them afterwards.
macro_rules! fill {
    ($lent:expr, $name:ident; $($part:tt)*) => {{
        let mut lent = LentTables::new($lent);
        let answer = ask!($name; $($part)*, tables lent);
        Reply::Flags { answer, lent: lent.back() }
    }};
}

/// What guards the bytes of rows, and what offsets and totals.
const GUARD: u32 = 0xa5a5_a5a5;
const WIDE_GUARD: u64 = 0xa5a5_a5a5_a5a5_a5a5;

/// Asks the library.
pub fn ask(question: &Question) -> Reply {
    match question {
        Question::Read { reader, src, lent } => read(*reader, src, lent),
        Question::Serialize { flags, out } => {
            let mut out = Lent::new(out, 0xa5);
            let answer = ask!(petasunok_serialize; flags flags, out out);
            Reply::Written { answer, out: out.back() }
        }
        Question::SerializedSize { flags } => Reply::Count(ask!(petasunok_serialized_size; flags flags)),
        Question::ApproximateSize { has_owner, given, changes, size } => {
            Reply::Size(ask!(petasunok_approximate_size; number *has_owner, number *given, number *changes, number *size))
        }
        Question::CombineOwnerId { ours, theirs, strategy } => combine_owner_id(ours, theirs, *strategy),
        Question::CombineAdded(merge) => combine_added(merge),
        Question::CombineRemoved(merge) => combine_removed(merge),
        Question::SplitKey(split) => {
            let mut lent = LentRows::new(&split.rows, GUARD);
            let answer = ask!(petasunok_split_key_removed_bytes; flags split.flags, number split.bytes, into_rows lent);
            Reply::Sum { answer, rows: lent.back() }
        }
        Question::SplitValue(split) => {
            let mut lent = LentRows::new(&split.rows, GUARD);
            let answer = ask!(petasunok_split_value_removed_bytes; flags split.flags, number split.bytes, into_rows lent);
            Reply::ValueSplit { answer, rows: lent.back() }
        }
        Question::AddAssign { ours, rhs, version } => {
            let mut lent = LentRows::new(&ours.rows, GUARD);
            let answer = ask!(petasunok_add_assign; number ours.state, into_rows lent, rows rhs, number *version);
            Reply::Sum { answer, rows: lent.back() }
        }
        Question::HasRemoval { removal } => Reply::Count(ask!(petasunok_has_removal; rows removal)),
        Question::TotalRemovedBytes { removal } => Reply::Count(ask!(petasunok_total_removed_bytes; rows removal)),
        Question::NewSingleEpoch { epoch, owned, owner } => {
            Reply::Head(ask!(petasunok_new_single_epoch; number *epoch, number *owned, number petasunok_id { bytes: *owner }))
        }
        Question::SetOwnerId { head, owner } => set_owner_id(*head, *owner),
        Question::BaseEpoch { head } => number(ask!(petasunok_base_epoch; number *head), Reply::Epoch),
        Question::OwnerId { head } => owner_id(*head),
        Question::TypeByte { head } => number(ask!(petasunok_type_byte; number *head), Reply::Kind),
        Question::Repair { src, lent } => repair(src, lent),
        Question::TotalsReplace(change) => totals_replace(change),
    }
}

/// One of the five readers.
fn read(reader: Reader, src: &[u8], lent: &Tables) -> Reply {
    match reader {
        Reader::Any => fill!(lent, petasunok_deserialize; bytes src),
        Reader::SingleEpoch => fill!(lent, petasunok_deserialize_single_epoch; bytes src),
        Reader::MultiEpoch => fill!(lent, petasunok_deserialize_multi_epoch; bytes src),
        Reader::SingleEpochOwned => fill!(lent, petasunok_deserialize_single_epoch_owned; bytes src),
        Reader::MultiEpochOwned => fill!(lent, petasunok_deserialize_multi_epoch_owned; bytes src),
    }
}

/// The adding merge.
fn combine_added(merge: &Merge<u32>) -> Reply {
    let Merge { present, ours, theirs, with: amount, strategy, lent } = merge;
    match *present {
        None => fill!(lent, petasunok_combine_added_bytes; flags ours, flags theirs, number *amount, number *strategy),
        Some(present) => {
            fill!(lent, petasunok_optional_combine_added_bytes; number present, flags ours, flags theirs, number *amount, number *strategy)
        }
    }
}

/// The removing merge.
fn combine_removed(merge: &Merge<Removal>) -> Reply {
    let Merge { present, ours, theirs, with: removal, strategy, lent } = merge;
    match *present {
        None => fill!(lent, petasunok_combine_removed_bytes; flags ours, flags theirs, rows removal, number *strategy),
        Some(present) => {
            fill!(lent, petasunok_optional_combine_removed_bytes; number present, flags ours, flags theirs, rows removal, number *strategy)
        }
    }
}

/// A repair.
fn repair(src: &[u8], lent: &Repaired) -> Reply {
    let (mut out, mut changes) = (Lent::new(&lent.out, 0xa5), Lent::new(&lent.changes, 0xa5));
    let mut offsets = Lent::new(&lent.offsets, WIDE_GUARD as usize);
    let answer = ask!(petasunok_repair; bytes src, out out, out offsets, out changes);
    Reply::Repaired { answer, lent: Repaired { out: out.back(), offsets: offsets.back(), changes: changes.back() } }
}

/// A change of totals.
fn totals_replace(change: &Change) -> Reply {
    let mut lent = LentRows::new(&change.table, WIDE_GUARD);
    let answer = ask!(petasunok_totals_replace;
        number change.rows, into_rows lent, number change.old_present, flags change.old, number change.new_present, flags change.new);
    Reply::Totals { answer, table: lent.back() }
}

/// A change of totals over structs, in a table of as many as have room in each slice, with such a work area. Nothing where that is not left as
/// it has to be: as it was where the call is refused, else with the new rows at its start, then what is left of those before.
pub fn totals_replace_structs(change: &Change, work: &Rows<u64>) -> Option<Reply> {
    let before: Vec<_> = change.table.first(change.table.room()).collect();
    let to_struct = |(owner, epoch, total)| petasunok_total { owner, epoch, total };
    let structs: Vec<_> = before.iter().copied().map(to_struct).collect();
    let mut lent = Lent::new(&structs, to_struct(([0xa5; 32], 0xa5a5, WIDE_GUARD)));
    let mut lent_work = LentRows::new(work, WIDE_GUARD);
    let answer = ask!(petasunok_totals_replace_structs;
        number change.rows, out lent, into_rows lent_work,
        number change.old_present, flags change.old, number change.new_present, flags change.new);
    let after: Vec<_> = lent.back().into_iter().map(|row| (row.owner, row.epoch, row.total)).collect();
    let count = answer.count as usize;
    let worked = match answer.refusal {
        0 => [after.get(..count)?, before.get(count..change.rows).unwrap_or_default()].concat(),
        _ => Vec::new(),
    };
    let left_well = worked.len() <= work.room() && lent_work.back() == work.with(&Rows::of(&worked));
    // guards that were written to stand beside the rows, which are then too many
    (left_well && after.len() == before.len()).then(|| Reply::Totals { answer, table: change.table.with(&Rows::of(&after)) })
}

/// Whose owner stands, and the part of the encoding that the header names for it.
fn combine_owner_id(ours: &[u8], theirs: &[u8], strategy: u8) -> Reply {
    let answer = ask!(petasunok_combine_owner_id; bytes ours, bytes theirs, number strategy);
    let part = match answer.which {
        0 => &[],
        1 => ours.get(1..33).unwrap_or_default(),
        _ => theirs.get(1..33).unwrap_or_default(),
    };
    Reply::Owner { answer, part: part.to_vec() }
}

/// A number of the type that is asked for; where it is another, or a refusal, as it came.
fn number<T: TryFrom<u64>>(answer: petasunok_count, reply: fn(T) -> Reply) -> Reply {
    match T::try_from(answer.count) {
        Ok(number) if answer.refusal == 0 => reply(number),
        _ => Reply::Count(answer),
    }
}

/// A head with another owner; a refusal, or no flags, as it came.
fn set_owner_id(head: petasunok_head, owner: Id) -> Reply {
    let answer = ask!(petasunok_set_owner_id; number head, number petasunok_id { bytes: owner });
    match answer {
        petasunok_flags { refusal: 0, present: 1, head } => Reply::Head(head),
        _ => Reply::Flags { answer, lent: Tables::default() },
    }
}

/// An owner; a refusal as its number.
fn owner_id(head: petasunok_head) -> Reply {
    let answer = ask!(petasunok_owner_id; number head);
    match answer.refusal {
        0 => Reply::MaybeOwner { owned: answer.present, owner: answer.id.bytes },
        refusal => Reply::Count(petasunok_count { refusal, count: 0 }),
    }
}
