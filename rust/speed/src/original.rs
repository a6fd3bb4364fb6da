//! The original's calls, under names that valgrind finds. What they allocate they give back: that is part of their work.
use grovedb_epoch_based_storage_flags::{MergingOwnersStrategy, StorageFlags};
use std::hint::black_box;

/// Flags read from bytes.
#[no_mangle]
#[inline(never)]
pub fn original_read(src: &[u8]) {
    black_box(&StorageFlags::deserialize(src).expect("the bytes are good"));
}

/// Flags merged. The original takes both as its own.
#[no_mangle]
#[inline(never)]
pub fn original_merge(ours: StorageFlags, theirs: StorageFlags, added_bytes: u32) {
    black_box(&merge(ours, theirs, added_bytes));
}

/// Flags written.
#[no_mangle]
#[inline(never)]
pub fn original_write(flags: &StorageFlags) {
    black_box(&flags.serialize());
}

/// The nightly pass: both read, merged, and written.
#[no_mangle]
#[inline(never)]
pub fn original_pass(ours: &[u8], theirs: &[u8], added_bytes: u32) {
    black_box(&merge(read(ours), read(theirs), added_bytes).serialize());
}

/// The flags that some bytes are.
pub fn read(src: &[u8]) -> StorageFlags {
    StorageFlags::deserialize(src).expect("the bytes are good").expect("there are bytes")
}

/// Two flags merged.
pub fn merge(ours: StorageFlags, theirs: StorageFlags, added_bytes: u32) -> StorageFlags {
    ours.combine_added_bytes(theirs, added_bytes, MergingOwnersStrategy::RaiseIssue).expect("the flags can be merged")
}
