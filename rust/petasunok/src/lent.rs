//! The calls on lent memory: nothing is allocated, and an answer stands at the start of what was lent for it.
//!
//! There is one function here for each of the C header. Flags are a [`Head`] and two tables, a removal is a [`Removal`] and three; the
//! head says how many places of its tables count. Totals are a number of rows and three tables, or a slice of [`Total`]. A refusal changes
//! nothing that was lent, work areas included, and an answer leaves what lies behind it.
//! Reading takes up to 180 KB of the thread's stack, in proportion to the records (12 KB for 1,024); repairing takes up to 1 MiB.
//!
//! ```
//! use petasunok::lent::{self, Flags, Head};
//! use petasunok::MergingOwnersStrategy::RaiseIssue;
//!
//! // base epoch 5, and 300 bytes in epoch 7
//! let (mut epochs, mut counts) = ([0; 4], [0; 4]);
//! let head = lent::deserialize(&[1, 0, 5, 0, 7, 0xAC, 2], &mut epochs, &mut counts)?.unwrap();
//! assert_eq!((head.base, head.records, epochs[0], counts[0]), (5, 1, 7, 300));
//!
//! // 50 bytes are added in epoch 8
//! let ours = Flags { head, epochs: &epochs, counts: &counts };
//! let theirs = Flags::of(Head { base: 8, ..Head::default() });
//! let (mut merged_epochs, mut merged_counts) = ([0; 4], [0; 4]);
//! let merged = lent::combine_added_bytes(ours, theirs, 50, RaiseIssue, &mut merged_epochs, &mut merged_counts)?;
//! assert_eq!((merged.records, merged_epochs, merged_counts), (2, [7, 8, 0, 0], [300, 50, 0, 0]));
//! # Ok::<(), petasunok::StorageFlagsError>(())
//! ```
use crate::{Identifier, StorageFlagsError};

#[doc(inline)]
pub use crate::sys::{petasunok_head as Head, petasunok_removal as Removal, petasunok_total as Total};

/// Calls a function of the library: `call!(name(part, ..))`, where a part is `value`, `slice` (read) or `room` (written), or stands for
/// the parts of `flags`, `optional` flags, `rows` (read) or `rows_room` (written) in the header's order. A slice goes as its pointer and
/// its length.
macro_rules! call {
    ($name:ident($($part:tt)*)) => { call!(@ $name [] $($part)*,) };
    (@ $name:ident [$($given:expr,)*] $(,)?) => {
        // Sound, because each pointer comes from a slice with its own length, what is written is lent to this call alone, and the
        // library touches nothing else and keeps nothing.
        unsafe { crate::sys::$name($($given),*) }
    };
    (@ $name:ident [$($given:tt)*] value $value:expr, $($rest:tt)*) => { call!(@ $name [$($given)* $value,] $($rest)*) };
    (@ $name:ident [$($given:tt)*] slice $slice:expr, $($rest:tt)*) => {
        call!(@ $name [$($given)* $slice.as_ptr(), $slice.len(),] $($rest)*)
    };
    (@ $name:ident [$($given:tt)*] room $room:expr, $($rest:tt)*) => {
        call!(@ $name [$($given)* $room.as_mut_ptr(), $room.len(),] $($rest)*)
    };
    (@ $name:ident [$($given:tt)*] flags $flags:ident, $($rest:tt)*) => {
        call!(@ $name [$($given)*] value $flags.head, slice $flags.epochs, slice $flags.counts, $($rest)*)
    };
    (@ $name:ident [$($given:tt)*] optional $flags:ident, $($rest:tt)*) => {{
        let flags = $flags.unwrap_or(Flags::of(Head::default()));
        call!(@ $name [$($given)*] value u8::from($flags.is_some()), flags flags, $($rest)*)
    }};
    (@ $name:ident [$($given:tt)*] rows $rows:ident, $($rest:tt)*) => {
        call!(@ $name [$($given)*] value $rows.removal, slice $rows.ids, slice $rows.epochs, slice $rows.bytes, $($rest)*)
    };
    (@ $name:ident [$($given:tt)*] rows_room $rows:ident, $($rest:tt)*) => {
        call!(@ $name [$($given)*] room $rows.ids, room $rows.epochs, room $rows.bytes, $($rest)*)
    };
}

mod heads;
mod merging;
mod reading;
mod removals;
mod repairing;
mod totals;
mod writing;

pub use heads::*;
pub use merging::*;
pub use reading::*;
pub use removals::*;
pub use repairing::*;
pub use totals::*;
pub use writing::*;

impl Head {
    /// The kind of flags with one epoch.
    pub const SINGLE_EPOCH: u8 = 0;
    /// The kind of flags with several epochs.
    pub const MULTI_EPOCH: u8 = 1;
    /// The kind of owned flags with one epoch.
    pub const SINGLE_EPOCH_OWNED: u8 = 2;
    /// The kind of owned flags with several epochs.
    pub const MULTI_EPOCH_OWNED: u8 = 3;
}

impl Removal {
    /// The kind of no removal.
    pub const NO_REMOVAL: u8 = 0;
    /// The kind of a number of bytes.
    pub const BASIC_REMOVAL: u8 = 1;
    /// The kind of rows in tables.
    pub const SECTIONED_REMOVAL: u8 = 2;

    /// No removal.
    pub const NONE: Self = Self {
        kind: Self::NO_REMOVAL,
        bytes: 0,
        rows: 0,
    };

    /// A removal of some bytes, of which no more is known.
    pub const fn basic(bytes: u32) -> Self {
        Self {
            kind: Self::BASIC_REMOVAL,
            bytes,
            ..Self::NONE
        }
    }

    /// A removal whose sections stand in the first rows of three tables.
    pub const fn sectioned(rows: usize) -> Self {
        Self {
            kind: Self::SECTIONED_REMOVAL,
            rows,
            ..Self::NONE
        }
    }
}

/// Flags: a head, and the tables that hold its records in their first `head.records` places.
#[derive(Clone, Copy, Debug)]
pub struct Flags<'a> {
    /// Kind, base epoch, owner and number of records.
    pub head: Head,
    /// The epochs of the records, which rise and are above the base.
    pub epochs: &'a [u16],
    /// The counts of the records.
    pub counts: &'a [u32],
}

impl Flags<'_> {
    /// Flags that have no records.
    pub const fn of(head: Head) -> Self {
        Flags {
            head,
            epochs: &[],
            counts: &[],
        }
    }
}

/// A removal, and the tables that hold its rows in their first `removal.rows` places: rising by identifier, then epoch.
#[derive(Clone, Copy, Debug)]
pub struct Rows<'a> {
    /// Kind, and bytes or number of rows.
    pub removal: Removal,
    /// Under whom each row stands.
    pub ids: &'a [Identifier],
    /// In which epoch each row's bytes were added.
    pub epochs: &'a [u16],
    /// How many bytes each row removes.
    pub bytes: &'a [u32],
}

impl Rows<'_> {
    /// A removal that has no rows.
    pub const fn of(removal: Removal) -> Self {
        Rows {
            removal,
            ids: &[],
            epochs: &[],
            bytes: &[],
        }
    }
}

/// Room for the rows of a removal.
#[derive(Debug)]
pub struct RowsMut<'a> {
    /// Under whom each row stands.
    pub ids: &'a mut [Identifier],
    /// In which epoch each row's bytes were added.
    pub epochs: &'a mut [u16],
    /// How many bytes each row removes.
    pub bytes: &'a mut [u32],
}

/// A table of totals, whose rows stand in the first places of three slices and make room for more; or a work area of the same form.
#[derive(Debug)]
pub struct TotalsMut<'a> {
    /// Who each row's total is of; 32 zero bytes for what has no owner.
    pub owners: &'a mut [Identifier],
    /// In which epoch each row's bytes were added.
    pub epochs: &'a mut [u16],
    /// How many bytes all elements together count.
    pub totals: &'a mut [u64],
}

/// What a value split answers.
#[derive(Clone, Copy, Debug, PartialEq, Eq)]
pub struct ValueSplit {
    /// The removal of the value's bytes.
    pub removal: Removal,
    /// How many records were visited: the number of the removal's rows that are not at the base epoch.
    pub visited: usize,
}

/// What a repair answers: how many places of its tables count.
#[derive(Clone, Copy, Debug, PartialEq, Eq)]
pub struct RepairedSizes {
    /// How many canonical bytes there are.
    pub bytes: usize,
    /// How many lines the list of changes has.
    pub lines: usize,
}

/// The answer, or the refusal of a number that is not 0.
fn answered<T>(refusal: u32, answer: T) -> Result<T, StorageFlagsError> {
    match refusal {
        0 => Ok(answer),
        number => Err(StorageFlagsError::from_number(number).expect("the library refuses with 1 to 11 or 14")),
    }
}
