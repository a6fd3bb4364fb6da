//! Repair of old flag bytes.
use crate::lent;
use crate::StorageFlagsError;
use std::fmt;

/// What a repair did at a place of the old bytes. Every change has a number, 1 to 7.
#[derive(Clone, Copy, Debug, PartialEq, Eq, Hash)]
pub enum Change {
    /// 1: a record stays, and its count is written with fewer bytes.
    ReEncoded = 1,
    /// 2: a record was dropped, since its count passes 32 bits.
    TooLarge = 2,
    /// 3: a record was dropped, since its epoch is at or below the base epoch.
    NotAboveBase = 3,
    /// 4: a record was dropped, since a later one has its epoch.
    Replaced = 4,
    /// 5: the bytes from here on were cut.
    TailCut = 5,
    /// 6: a record stays, and comes before one that stood before it.
    Moved = 6,
    /// 7: no record is left, so the kind is one without records.
    KindChanged = 7,
}

use Change::*;

impl Change {
    /// All changes, in the order of their numbers.
    pub const ALL: [Self; 7] = [ReEncoded, TooLarge, NotAboveBase, Replaced, TailCut, Moved, KindChanged];

    /// The change's number, 1 to 7.
    pub const fn number(self) -> u8 {
        self as u8
    }

    /// The change of a number, if there is one.
    ///
    /// ```
    /// use petasunok::Change;
    ///
    /// assert_eq!(Change::from_number(6), Some(Change::Moved));
    /// assert_eq!(Change::from_number(0), None);
    /// ```
    pub fn from_number(number: u8) -> Option<Self> {
        Self::ALL.get(usize::from(number).checked_sub(1)?).copied()
    }
}

impl fmt::Display for Change {
    fn fmt(&self, f: &mut fmt::Formatter<'_>) -> fmt::Result {
        f.write_str(match self {
            ReEncoded => "re-encoded",
            TooLarge => "too large",
            NotAboveBase => "not above base",
            Replaced => "replaced",
            TailCut => "tail cut",
            Moved => "moved",
            KindChanged => "kind changed",
        })
    }
}

/// A line of a repair's list.
#[derive(Clone, Copy, Debug, PartialEq, Eq, Hash)]
pub struct Line {
    /// Where in the old bytes the changed record starts; the tail's start where it was cut, and 0 where the kind was changed.
    pub offset: usize,
    /// What was changed.
    pub change: Change,
}

/// Repaired flag bytes.
#[derive(Clone, Debug, PartialEq, Eq)]
pub struct Repaired {
    /// The canonical bytes.
    pub bytes: Vec<u8>,
    /// All changes, ascending by offset. A record that has no line stands in the bytes as it was.
    pub lines: Vec<Line>,
}

/// Repairs flag bytes of the time before only canonical ones were taken: reads them as a map would, and writes canonical ones.
/// Refusals: 1, and 2 where the owner or the base epoch is not complete.
///
/// Of several records for one epoch the last stands. Records whose count passes 32 bits, or whose epoch is not above the base, are
/// dropped, a record that is not complete is cut with all that follows, and flags with one epoch lose what lies behind them. Canonical
/// bytes come back as they are, with no line. It takes up to 1 MiB of the thread's stack.
///
/// ```
/// use petasunok::{repair, Change, Line, StorageFlags};
///
/// // two records for epoch 9, of which the second is longer than it needs, then one for epoch 7
/// let repaired = repair(&[1, 0, 5, 0, 9, 4, 0, 9, 0x81, 0, 0, 7, 10])?;
/// let flags = StorageFlags::deserialize(&repaired.bytes)?;
/// assert_eq!(flags, Some(StorageFlags::MultiEpoch(5, [(7, 10), (9, 1)].into())));
/// let lines = [(3, Change::Replaced), (6, Change::ReEncoded), (10, Change::Moved)];
/// assert_eq!(repaired.lines, lines.map(|(offset, change)| Line { offset, change }));
///
/// // repairing twice is repairing once
/// let again = repair(&repaired.bytes)?;
/// assert_eq!((again.bytes, again.lines), (repaired.bytes, vec![]));
/// # Ok::<(), petasunok::StorageFlagsError>(())
/// ```
pub fn repair(data: &[u8]) -> Result<Repaired, StorageFlagsError> {
    // a record has a line for every two of its bytes at most; the tail and the kind have one each
    let room = data.len() / 2 + 2;
    let (mut bytes, mut offsets, mut changes) = (vec![0; data.len()], vec![0; room], vec![0; room]);
    let sizes = lent::repair(data, &mut bytes, &mut offsets, &mut changes)?;
    bytes.truncate(sizes.bytes);
    let lines = offsets.into_iter().zip(changes).take(sizes.lines).map(line).collect();
    Ok(Repaired { bytes, lines })
}

/// A line of an offset and a change's number.
fn line((offset, number): (usize, u8)) -> Line {
    let change = Change::from_number(number).expect("the library names changes 1 to 7");
    Line { offset, change }
}
