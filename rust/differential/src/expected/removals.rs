//! Splitting and adding up removals.
use super::Expected;
use crate::convert;
use crate::intended::Intended;
use crate::model;
use crate::placed;
use crate::question::{Both, Split};
use crate::split_model;
use crate::values::*;
use grovedb_costs::storage_cost::removal::{with_basic_sectioned_removal_addition_version, StorageRemovedBytes};

/// What the original splits from proper flags, asked once for a key and a value; where it overflows, the value's is the model's.
pub fn parts(flags: &Flags, key: u32, value: u32) -> (Removal, Removal) {
    let overflows = split_model::overflows(flags, value);
    let (of_key, of_value) = convert::flags(flags).split_storage_removed_bytes(key, if overflows { 0 } else { value });
    let of_value = if overflows { split_model::split(flags, value) } else { convert::from_removal(&of_value) };
    (convert::from_removal(&of_key), of_value)
}

/// Splits a key's bytes and a value's, for which the original is asked once. The records visited are the value's sections above the base.
pub fn both(both: &Both) -> [Expected; 2] {
    let Both { flags, key, value, key_rows, value_rows } = both;
    if let Some(fault) = model::flags_fault(flags) {
        return [placed::sum(Err(11), key_rows), placed::value_split(Err(11), value_rows)].map(|reply| Expected::added(fault, reply));
    }
    let (of_key, of_value) = parts(flags, *key, *value);
    let visited = of_value.rows().filter(|row| row.1 > flags.head.base).count();
    let of_value = placed::value_split(Ok((of_value, visited)), value_rows);
    let top_three = split_model::overflows(flags, *value) && of_value.refusal() == 0;
    let of_value = if top_three { Expected::added(Intended::TopThreeAmounts, of_value) } else { Expected::original(of_value) };
    [Expected::original(placed::sum(Ok(of_key), key_rows)), of_value]
}

/// Splits a key's bytes alone.
pub fn split_key(split: &Split) -> Expected {
    let Split { flags, bytes, rows } = split.clone();
    let [of_key, _] = both(&Both { flags, key: bytes, value: 0, key_rows: rows, value_rows: Rows::default() });
    of_key
}

/// Splits a value's bytes alone.
pub fn split_value(split: &Split) -> Expected {
    let Split { flags, bytes, rows } = split.clone();
    let [_, of_value] = both(&Both { flags, key: 0, value: bytes, key_rows: Rows::default(), value_rows: rows });
    of_value
}

/// Adds the right removal to the left one, at a version.
pub fn add_assign(ours: &Removal, rhs: &Removal, version: u16) -> Expected {
    if let Some(fault) = model::removal_fault(ours).or_else(|| model::removal_fault(rhs)) {
        return Expected::added(fault, placed::sum(Err(11), &ours.rows));
    }
    let mut sum = convert::removal(ours);
    with_basic_sectioned_removal_addition_version(version, || sum += convert::removal(rhs));
    Expected::original(placed::sum(Ok(convert::from_removal(&sum)), &ours.rows))
}

/// A number of a proper removal.
fn counted(removal: &Removal, count: impl FnOnce(StorageRemovedBytes) -> u64) -> Expected {
    match model::removal_fault(removal) {
        Some(fault) => Expected::added(fault, placed::count(Err(11))),
        None => Expected::original(placed::count(Ok(count(convert::removal(removal))))),
    }
}

/// Whether anything was removed.
pub fn has_removal(removal: &Removal) -> Expected {
    counted(removal, |removal| removal.has_removal().into())
}

/// All bytes of a removal.
pub fn total(removal: &Removal) -> Expected {
    if model::removal_fault(removal).is_none() && model::total(removal) > u32::MAX.into() {
        return Expected::added(Intended::TotalTooLarge, placed::count(Err(9)));
    }
    counted(removal, |removal| removal.total_removed_bytes().into())
}
