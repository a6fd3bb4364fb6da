//! The contestants.
use crate::plain::careful::{merging::careful_merge, reading::careful_read, writing::careful_write};
use crate::plain::lean::{merging::lean_merge, reading::lean_read, writing::lean_write};
use crate::plain::tuned::{merging::tuned_merge, reading::tuned_read, writing::tuned_write};
use petasunok::lent::{self, Flags, Head};
use petasunok::{MergingOwnersStrategy, StorageFlagsError};

/// Reads bytes into tables of epochs and counts.
pub type Read = fn(&[u8], &mut [u16], &mut [u32]) -> Result<Option<Head>, StorageFlagsError>;

/// Merges ours and theirs, with an amount, into tables of epochs and counts.
pub type Merge = fn(Flags, Flags, u32, MergingOwnersStrategy, &mut [u16], &mut [u32]) -> Result<Head, StorageFlagsError>;

/// Writes flags into bytes, and gives how many.
pub type Write = fn(Flags, &mut [u8]) -> Result<usize, StorageFlagsError>;

/// The three calls of a contestant that works on lent tables.
pub struct Program {
    pub name: &'static str,
    pub read: Read,
    pub merge: Merge,
    pub write: Write,
}

/// How many contestants there are: the programs on tables, then the original.
pub const CONTESTANTS: usize = 5;

/// Their places in what is measured.
pub const OURS: usize = 0;
pub const LEAN: usize = 1;
pub const CAREFUL: usize = 2;
pub const TUNED: usize = 3;
pub const ORIGINAL: usize = 4;

/// Their names.
pub const NAMES: [&str; CONTESTANTS] = ["ours", "lean", "careful", "tuned", "original"];

/// The contestants that work on lent tables.
pub const PROGRAMS: [Program; 4] = [
    Program { name: NAMES[OURS], read: lent::deserialize, merge: lent::combine_added_bytes, write: lent::serialize },
    Program { name: NAMES[LEAN], read: lean_read, merge: lean_merge, write: lean_write },
    Program { name: NAMES[CAREFUL], read: careful_read, merge: careful_merge, write: careful_write },
    Program { name: NAMES[TUNED], read: tuned_read, merge: tuned_merge, write: tuned_write },
];

/// By which names valgrind knows the functions of a call, one for each contestant.
pub const READING: [&str; CONTESTANTS] = ["petasunok_deserialize", "lean_read", "careful_read", "tuned_read", "original_read"];
pub const MERGING: [&str; CONTESTANTS] = ["petasunok_combine_added_bytes", "lean_merge", "careful_merge", "tuned_merge", "original_merge"];
pub const WRITING: [&str; CONTESTANTS] = ["petasunok_serialize", "lean_write", "careful_write", "tuned_write", "original_write"];
