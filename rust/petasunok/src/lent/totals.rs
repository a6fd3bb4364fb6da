//! Totals per owner and epoch.
use super::{answered, Flags, Head, Total, TotalsMut};
use crate::StorageFlagsError;

/// Replaces an element's old flags by new ones, either of which may be absent, in the first rows of a table of totals; answers how many
/// rows there are then. Refusals: 11, 14, 6, 10.
///
/// Rows rise by owner, then epoch, no pair stands twice, and no total is 0. Unowned flags are counted under 32 zero bytes. A total that
/// comes to 0 loses its row, and a pair that had none gets one, so room for as many rows more as the new flags have records is enough.
///
/// ```
/// use petasunok::lent::{self, Flags, Head, TotalsMut};
///
/// let (mut owners, mut epochs, mut totals) = ([[0; 32]; 3], [7, 0, 0], [12, 0, 0]);
/// let table = TotalsMut { owners: &mut owners, epochs: &mut epochs, totals: &mut totals };
/// let head = Head { kind: Head::MULTI_EPOCH, base: 5, records: 1, ..Head::default() };
/// let old = Flags { head, epochs: &[7], counts: &[10] };
/// let new = Flags { head: Head { records: 2, ..head }, epochs: &[6, 7], counts: &[3, 4] };
/// assert_eq!(lent::totals_replace(1, table, Some(old), Some(new)), Ok(2));
/// assert_eq!((epochs, totals), ([6, 7, 0], [3, 6, 0]));
/// ```
pub fn totals_replace(rows: usize, table: TotalsMut, old_flags: Option<Flags>, new_flags: Option<Flags>) -> Result<usize, StorageFlagsError> {
    let TotalsMut { owners, epochs, totals } = table;
    let answer = call!(petasunok_totals_replace(
        value rows, room owners, room epochs, room totals, optional old_flags, optional new_flags));
    answered(answer.refusal, answer.count as usize)
}

/// The same where the rows are structs, in the first places of a slice. All of them are copied into a work area and back, so this is for
/// tables that are structs already; [`totals_replace`] needs no work area.
///
/// The work area may hold anything. The rows before and after need room in each of its slices; more is not looked at. After a change it has
/// the new rows at its start, then what is left of the rows before, and behind both it is untouched.
///
/// # Errors
///
/// In this order, and each leaves both the table and the work area as they were:
///
/// - `BadTable` (11): given flags or the rows are not proper, or there are more rows than places;
/// - `IndexMismatch` (14): a total is less than the old flags' count;
/// - `StorageFlagsOverflow` (6): a total would pass 64 bits;
/// - `NoRoom` (10): the new rows have no room in the table, or the rows before or after have none in the work area.
///
/// ```
/// use petasunok::lent::{self, Flags, Head, Total, TotalsMut};
///
/// let row = |epoch, total| Total { epoch, total, ..Total::default() };
/// let mut table = [row(7, 12), Total::default(), Total::default()];
/// let (mut owners, mut epochs, mut totals) = ([[9; 32]; 2], [9; 2], [9; 2]);
/// let work = TotalsMut { owners: &mut owners, epochs: &mut epochs, totals: &mut totals };
/// let head = Head { kind: Head::MULTI_EPOCH, base: 5, records: 1, ..Head::default() };
/// let old = Flags { head, epochs: &[7], counts: &[10] };
/// let new = Flags { head: Head { records: 2, ..head }, epochs: &[6, 7], counts: &[3, 4] };
/// assert_eq!(lent::totals_replace_structs(1, &mut table, work, Some(old), Some(new)), Ok(2));
/// assert_eq!(table, [row(6, 3), row(7, 6), Total::default()]);
/// assert_eq!((owners, epochs, totals), ([[0; 32]; 2], [6, 7], [3, 6]));
/// ```
pub fn totals_replace_structs(
    rows: usize,
    table: &mut [Total],
    work: TotalsMut,
    old_flags: Option<Flags>,
    new_flags: Option<Flags>,
) -> Result<usize, StorageFlagsError> {
    let TotalsMut { owners, epochs, totals } = work;
    let answer = call!(petasunok_totals_replace_structs(
        value rows, room table, room owners, room epochs, room totals, optional old_flags, optional new_flags));
    answered(answer.refusal, answer.count as usize)
}
