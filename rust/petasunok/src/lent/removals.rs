//! Splitting removals, and sums of removals.
use super::{answered, Flags, Removal, Rows, RowsMut, ValueSplit};
use crate::StorageFlagsError;

/// Splits a removal of a key's bytes, which are taken at the base whatever their number is. Refusals: 11, 10.
///
/// One row is room enough, and no bytes are no removal.
///
/// ```
/// use petasunok::lent::{self, Flags, Head, Removal, RowsMut};
///
/// let flags = Flags::of(Head { base: 5, ..Head::default() });
/// let (mut ids, mut epochs, mut bytes) = ([[1; 32]], [0], [0]);
/// let rows = RowsMut { ids: &mut ids, epochs: &mut epochs, bytes: &mut bytes };
/// assert_eq!(lent::split_key_removed_bytes(flags, 8, rows), Ok(Removal::sectioned(1)));
/// assert_eq!((ids, epochs, bytes), ([[0; 32]], [5], [8]));
/// ```
pub fn split_key_removed_bytes(flags: Flags, removed_key_bytes: u32, rows: RowsMut) -> Result<Removal, StorageFlagsError> {
    let answer = call!(petasunok_split_key_removed_bytes(flags flags, value removed_key_bytes, rows_room rows));
    answered(answer.refusal, answer.removal)
}

/// Splits a removal of a value's bytes: from the latest record down, and the rest at the base. Refusals: 11, 10.
///
/// One row more than there are records is room enough, and no bytes are no removal.
///
/// ```
/// use petasunok::lent::{self, Flags, Head, Removal, RowsMut};
///
/// let head = Head { kind: Head::MULTI_EPOCH, base: 5, records: 2, ..Head::default() };
/// let flags = Flags { head, epochs: &[7, 9], counts: &[10, 5] };
/// let (mut ids, mut epochs, mut bytes) = ([[1; 32]; 3], [0; 3], [0; 3]);
/// let rows = RowsMut { ids: &mut ids, epochs: &mut epochs, bytes: &mut bytes };
/// let split = lent::split_value_removed_bytes(flags, 6, rows)?;
/// assert_eq!((split.removal, split.visited), (Removal::sectioned(2), 2));
/// assert_eq!((ids[..2] == [[0; 32]; 2], epochs, bytes), (true, [7, 9, 0], [4, 2, 0]));
/// # Ok::<(), petasunok::StorageFlagsError>(())
/// ```
pub fn split_value_removed_bytes(flags: Flags, removed_value_bytes: u32, rows: RowsMut) -> Result<ValueSplit, StorageFlagsError> {
    let answer = call!(petasunok_split_value_removed_bytes(flags flags, value removed_value_bytes, rows_room rows));
    answered(
        answer.refusal,
        ValueSplit {
            removal: answer.removal,
            visited: answer.visited,
        },
    )
}

/// Adds the right removal to the left one, whose rows stand in `rows` and make room for the sum. Refusals: 11, 10.
///
/// At version 0 a basic number plus rows loses what the original's first versions lose; from version 1 on nothing is lost.
///
/// ```
/// use petasunok::lent::{self, Removal, Rows, RowsMut};
///
/// let (mut ids, mut epochs, mut bytes) = ([[0; 32]; 2], [0; 2], [0; 2]);
/// let rows = RowsMut { ids: &mut ids, epochs: &mut epochs, bytes: &mut bytes };
/// let rhs = Rows { removal: Removal::sectioned(1), ids: &[[0; 32]], epochs: &[3], bytes: &[10] };
/// assert_eq!(lent::add_assign(Removal::basic(4), rows, rhs, 1), Ok(Removal::sectioned(2)));
/// assert_eq!((epochs, bytes), ([3, 65535], [10, 4]));
/// ```
pub fn add_assign(lhs: Removal, rows: RowsMut, rhs: Rows, version: u16) -> Result<Removal, StorageFlagsError> {
    let answer = call!(petasunok_add_assign(value lhs, rows_room rows, rows rhs, value version));
    answered(answer.refusal, answer.removal)
}

/// Whether anything was removed. Refusal: 11.
pub fn has_removal(removal: Rows) -> Result<bool, StorageFlagsError> {
    let answer = call!(petasunok_has_removal(rows removal));
    answered(answer.refusal, answer.count != 0)
}

/// All bytes of a removal. Refusals: 11, 9.
///
/// ```
/// use petasunok::lent::{self, Removal, Rows};
///
/// let rows = Rows { removal: Removal::sectioned(2), ids: &[[0; 32]; 2], epochs: &[7, 9], bytes: &[4, 2] };
/// assert_eq!(lent::total_removed_bytes(rows), Ok(6));
/// assert_eq!(lent::has_removal(Rows::of(Removal::basic(0))), Ok(false));
/// ```
pub fn total_removed_bytes(removal: Rows) -> Result<u32, StorageFlagsError> {
    let answer = call!(petasunok_total_removed_bytes(rows removal));
    answered(answer.refusal, answer.count as u32)
}
