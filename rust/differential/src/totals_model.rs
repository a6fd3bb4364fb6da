//! Totals per owner and epoch as document 02 (vii) says them, once more and apart from the library: the original has none.
use crate::model;
use crate::question::Change;
use crate::values::*;
use std::collections::BTreeMap;

/// A total for each owner and epoch, as a whole number.
pub type Map = BTreeMap<(Id, u16), u128>;

/// For each pair the sum of record counts over all elements, unowned under zeros, with a row exactly where that sum is above 0.
pub fn recount<'a>(elements: impl IntoIterator<Item = Option<&'a Flags>>) -> Map {
    let mut map = Map::new();
    for flags in elements.into_iter().flatten() {
        for (epoch, count) in flags.records() {
            *map.entry((flags.identifier(), epoch)).or_default() += u128::from(count);
        }
    }
    map.retain(|_, total| *total > 0);
    map
}

/// The rows of a map whose totals 64 bits hold.
pub fn rows(map: &Map) -> Rows<u64> {
    let rows: Vec<_> = map.iter().map(|((owner, epoch), total)| (*owner, *epoch, *total as u64)).collect();
    Rows::of(&rows)
}

/// The table of a change as a map, if it is proper: ascending, no pair twice, no total 0, and no more rows than a slice has.
fn map(change: &Change) -> Option<Map> {
    if change.rows > change.table.room() {
        return None;
    }
    let rows: Vec<_> = change.table.first(change.rows).collect();
    let ascending = rows.windows(2).all(|pair| (pair[0].0, pair[0].1) < (pair[1].0, pair[1].1));
    let proper = ascending && rows.iter().all(|row| row.2 != 0);
    proper.then(|| rows.into_iter().map(|(owner, epoch, total)| ((owner, epoch), u128::from(total))).collect())
}

/// The table's rows after a change, or the refusal's number.
pub fn replace(change: &Change) -> Result<Rows<u64>, u32> {
    if [change.old_flags(), change.new_flags()].into_iter().flatten().any(|flags| model::flags_fault(flags).is_some()) {
        return Err(11);
    }
    let mut map = map(change).ok_or(11u32)?;
    for (pair, count) in recount([change.old_flags()]) {
        let total = map.entry(pair).or_default();
        *total = total.checked_sub(count).ok_or(14u32)?;
    }
    for (pair, count) in recount([change.new_flags()]) {
        *map.entry(pair).or_default() += count;
    }
    if map.values().any(|total| *total > u64::MAX.into()) {
        return Err(6);
    }
    map.retain(|_, total| *total > 0);
    Ok(rows(&map))
}
