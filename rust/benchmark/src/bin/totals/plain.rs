//! The change of totals in plain Rust: rows in one sorted vector, with the checks that the call makes.
use petasunok::lent::Flags;

pub use petasunok::lent::Total as Row;

/// A row's owner and epoch, by which rows ascend.
fn pair(row: &Row) -> (&[u8; 32], u16) {
    (&row.owner, row.epoch)
}

/// The records of flags that may be absent, and under whom they are counted.
struct Named<'a> {
    owner: [u8; 32],
    epochs: &'a [u16],
    counts: &'a [u32],
}

impl<'a> Named<'a> {
    /// What proper or absent flags name; nothing where they are not proper.
    fn of(flags: Option<Flags<'a>>) -> Option<Self> {
        let Some(Flags { head, epochs, counts }) = flags else { return Some(Named { owner: [0; 32], epochs: &[], counts: &[] }) };
        let (epochs, counts) = (epochs.get(..head.records)?, counts.get(..head.records)?);
        let rise = epochs.first().is_none_or(|first| *first > head.base) && epochs.is_sorted_by(|before, behind| before < behind);
        let proper = head.kind <= 3 && rise && (head.kind % 2 == 1) != epochs.is_empty();
        proper.then_some(Named { owner: if head.kind >= 2 { head.owner } else { [0; 32] }, epochs, counts })
    }

    /// The records that count something.
    fn records(&self) -> impl DoubleEndedIterator<Item = (u16, u64)> + '_ {
        let records = self.epochs.iter().zip(self.counts).map(|(epoch, count)| (*epoch, u64::from(*count)));
        records.filter(|(_, count)| *count > 0)
    }

    /// What is counted at an owner and epoch.
    fn count(&self, owner: &[u8; 32], epoch: u16) -> u64 {
        match self.epochs.binary_search(&epoch) {
            Ok(place) if self.owner == *owner => self.counts[place].into(),
            _ => 0,
        }
    }
}

/// Where a pair's row stands, or would stand.
fn find(table: &[Row], owner: &[u8; 32], epoch: u16) -> Result<usize, usize> {
    table.binary_search_by(|row| pair(row).cmp(&(owner, epoch)))
}

/// The total of a pair.
fn total(table: &[Row], owner: &[u8; 32], epoch: u16) -> u64 {
    find(table, owner, epoch).map_or(0, |place| table[place].total)
}

/// Whether rows ascend, no pair stands twice, and no total is 0.
fn proper(table: &[Row]) -> bool {
    table.is_sorted_by(|before, behind| pair(before) < pair(behind)) && table.iter().all(|row| row.total != 0)
}

/// Replaces an element's old flags by new ones, where no more than `room` rows may stand; the number of a refusal changes nothing.
#[no_mangle]
#[inline(never)]
pub fn plain_totals_replace(table: &mut Vec<Row>, room: usize, old: Option<Flags>, new: Option<Flags>) -> Result<usize, u32> {
    if !proper(table) {
        return Err(11);
    }
    let (old, new) = (Named::of(old).ok_or(11u32)?, Named::of(new).ok_or(11u32)?);
    let mut rows = table.len();
    for (epoch, count) in old.records() {
        let left = total(table, &old.owner, epoch).checked_sub(count).ok_or(14u32)?;
        rows -= usize::from(left == 0);
    }
    for (epoch, count) in new.records() {
        let left = total(table, &new.owner, epoch) - old.count(&new.owner, epoch);
        left.checked_add(count).ok_or(6u32)?;
        rows += usize::from(left == 0);
    }
    if rows > room {
        return Err(10);
    }
    for (epoch, count) in old.records() {
        if let Ok(place) = find(table, &old.owner, epoch) {
            table[place].total -= count;
            if table[place].total == 0 {
                table.remove(place);
            }
        }
    }
    for (epoch, count) in new.records() {
        match find(table, &new.owner, epoch) {
            Ok(place) => table[place].total += count,
            Err(place) => table.insert(place, Row { owner: new.owner, epoch, total: count }),
        }
    }
    Ok(table.len())
}
