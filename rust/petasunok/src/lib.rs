//! Storage flags of a GroveDB store, over a static library whose every function is proved.
//!
//! Each element of the store carries flags: in which epochs its bytes were paid, and by whom. When an element is shortened, the flags
//! decide which bytes are refunded. This crate reads, writes and merges flags, splits a removal over their epochs, adds removals up,
//! repairs old flag bytes, and keeps totals per owner and epoch.
//! The work is done by a library written in Rattle, whose checker proves that each call ends on any input and equals a short definition.
//! The crate has the names of the original Rust, GroveDB's `grovedb-epoch-based-storage-flags` and the `removal` module of `costs`, and
//! needs no other crate.
//!
//! # A first example
//!
//! ```
//! use petasunok::{MergingOwnersStrategy, StorageFlags};
//!
//! // flags made in epoch 5, with 10 bytes added in epoch 7 and 5 in epoch 9
//! let flags = StorageFlags::deserialize(&[1, 0, 5, 0, 7, 10, 0, 9, 5])?.expect("there are bytes");
//! assert_eq!(flags, StorageFlags::MultiEpoch(5, [(7, 10), (9, 5)].into()));
//!
//! // 6 bytes of the value are removed in epoch 9: from the latest epoch down, and each keeps 3
//! let removed = flags.split_value_removed_bytes(6)?.removal;
//! assert_eq!(removed.total_removed_bytes()?, 6);
//! let incoming = StorageFlags::new_single_epoch(9, None);
//! let merged = flags.combine_removed_bytes(incoming, &removed, MergingOwnersStrategy::RaiseIssue)?;
//! assert_eq!(merged.serialize()?, [1, 0, 5, 0, 7, 6]);
//! # Ok::<(), petasunok::StorageFlagsError>(())
//! ```
//!
//! # Old bytes
//!
//! Before only canonical bytes were taken, others were stored too. [`repair()`] reads such bytes as a map would, writes canonical ones, and
//! lists each change with its offset in the old bytes.
//!
//! ```
//! use petasunok::{repair, StorageFlags};
//!
//! // epoch 9 comes before epoch 7, and a last record is cut
//! let old = [1, 0, 5, 0, 9, 5, 0, 7, 10, 0];
//! assert!(StorageFlags::deserialize(&old).is_err());
//! let repaired = repair(&old)?;
//! assert_eq!(repaired.bytes, [1, 0, 5, 0, 7, 10, 0, 9, 5]);
//! let lines: Vec<String> = repaired.lines.iter().map(|line| format!("{} {}", line.offset, line.change)).collect();
//! assert_eq!(lines, ["6 moved", "9 tail cut"]);
//! # Ok::<(), petasunok::StorageFlagsError>(())
//! ```
//!
//! # Totals
//!
//! [`Totals`] has for each owner and epoch what all elements together count there. It is kept beside the elements and told each change of
//! one, so that nothing has to be recounted.
//!
//! ```
//! use petasunok::{StorageFlags, Totals};
//!
//! let flags = StorageFlags::MultiEpochOwned(5, [(7, 10), (9, 5)].into(), [1; 32]);
//! let mut totals = Totals::new();
//! totals.replace(None, Some(&flags))?;
//! let shorter = StorageFlags::MultiEpochOwned(5, [(7, 6)].into(), [1; 32]);
//! totals.replace(Some(&flags), Some(&shorter))?;
//! assert_eq!(totals, [([1; 32], 7, 6)].into());
//! # Ok::<(), petasunok::StorageFlagsError>(())
//! ```
//!
//! # What differs from the original
//!
//! | What | The original | Here |
//! |---|---|---|
//! | maps of flags | `BTreeMap<EpochIndex, BytesAddedInEpoch>` | [`EpochMap`], made from a map and back |
//! | maps of removals | `BTreeMap<Identifier, IntMap<u16, u32>>` | [`StorageRemovalPerEpochByIdentifier`], made from a map of maps and back |
//! | an identifier without sections | can stand in the map | is left out |
//! | errors | carry a text | are [`StorageFlagsError`] alone, each with a number; `TotalTooLarge`, `NoRoom`, `BadTable` and `IndexMismatch` are new, and `RemovalTooLarge` (8) is no longer given |
//! | flags and rows that are not proper | are taken as they are; `serialize` has debug assertions | are refused with `BadTable` (11) by every call that reads, merges, splits or adds them |
//! | `serialize`, `serialized_size` and what is built on them | cannot fail | answer a `Result`, for `BadTable` |
//! | `split_storage_removed_bytes(key, value)` | one call that answers the key's removal and the value's | left out: write [`split_key_removed_bytes(key)?`](StorageFlags::split_key_removed_bytes) for the first, and [`split_value_removed_bytes(value)?.removal`](StorageFlags::split_value_removed_bytes) for the second; an edit needs the second alone |
//! | splitting a value's bytes | overflows for the top three amounts: a debug build panics, a release build takes all from the latest record | splits them as all others; the answer also says how many records were visited |
//! | splitting | cannot fail | answers a `Result`, for `BadTable` |
//! | `total_removed_bytes` | overflows | answers a `Result`, `TotalTooLarge` (9) there |
//! | `add_assign` | the operator `+=`, with the thread's version | a method with the version as an argument, and a `Result` |
//! | two sections at fault in one merge | either error | the first by epoch |
//! | [`repair()`] | not there | repairs bytes that `deserialize` refuses |
//! | [`Totals`] | not there | keeps totals per owner and epoch |
//! | `+`, comparing removals, the guards of the thread's version | there | left out |
//!
//! # Calls that allocate nothing
//!
//! The calls above allocate what they need, so they never refuse for lack of room. [`lent`] has every call on memory that the caller
//! lends; [`StorageFlags::as_lent`] and [`StorageRemovedBytes::as_lent`] hand owned values to it without a copy. [`sys`] has the bare C
//! functions. All unsafe code stands in these two modules.
//!
//! # Where the library is found
//!
//! The library is `libpetasunok.a`, for x86-64 and Linux. The build looks for it
//!
//! 1. in the folder that the environment variable `PETASUNOK_LIB` names, if it is set (a whole path);
//! 2. in `PREFIX/lib`, where this crate is installed in `PREFIX/src/petasunok`;
//! 3. in the repository that this crate comes from, where `tools/archive` makes it with the Rattle kit if it is missing.
#![deny(unsafe_code, unsafe_op_in_unsafe_fn)]
#![warn(missing_docs)]

mod epoch_map;
pub mod error;
mod flags;
#[allow(unsafe_code)]
pub mod lent;
mod per_epoch;
mod removed;
mod repair;
mod sections;
#[allow(unsafe_code)]
pub mod sys;
mod totals;

pub use epoch_map::EpochMap;
pub use error::StorageFlagsError;
pub use flags::{
    BaseEpoch, BytesAddedInEpoch, ElementFlags, EpochIndex, MergingOwnersStrategy, OwnerId, StorageFlags, ValueSplit,
    MINIMUM_NON_BASE_FLAGS_SIZE, SINGLE_EPOCH_FLAGS_SIZE,
};
pub use per_epoch::PerEpochByIdentifier;
pub use removed::{Identifier, StorageRemovedBytes, UNKNOWN_EPOCH};
pub use repair::{repair, Change, Line, Repaired};
pub use sections::StorageRemovalPerEpochByIdentifier;
pub use totals::Totals;
