//! The static library as C sees it: the structs and functions of `c/petasunok.h`, in its order.
//!
//! A slice is a pointer and a length in elements, which stands behind the pointer without a name of its own. Everything here is also
//! there as safe functions on slices, in [`crate::lent`].
#![allow(non_camel_case_types, missing_docs)]

/// Flags without their records, which stand in the first `records` places of two tables.
#[repr(C)]
#[derive(Clone, Copy, Debug, Default, PartialEq, Eq)]
pub struct petasunok_head {
    /// 0 to 3: the first byte of the flags' encoding.
    pub kind: u8,
    /// The base epoch.
    pub base: u16,
    /// The owner of flags of kinds 2 and 3; else not read, and zeros in an answer.
    pub owner: [u8; 32],
    /// How many places of the two tables count: 0 for kinds 0 and 2.
    pub records: usize,
}

/// Flags, or none where `present` is 0, or a refusal.
#[repr(C)]
#[derive(Clone, Copy, Debug, Default, PartialEq, Eq)]
pub struct petasunok_flags {
    pub refusal: u32,
    pub present: u8,
    pub head: petasunok_head,
}

/// A number, or a refusal.
#[repr(C)]
#[derive(Clone, Copy, Debug, Default, PartialEq, Eq)]
pub struct petasunok_count {
    pub refusal: u32,
    pub count: u64,
}

/// A removal without its rows, which stand in the first `rows` places of three tables. What a kind does not have is not read, and is 0
/// in an answer.
#[repr(C)]
#[derive(Clone, Copy, Debug, Default, PartialEq, Eq)]
pub struct petasunok_removal {
    /// 0 none, 1 basic, 2 sectioned.
    pub kind: u8,
    /// The bytes of a basic removal.
    pub bytes: u32,
    /// How many places of the three tables count in a sectioned removal.
    pub rows: usize,
}

/// A removal, or a refusal.
#[repr(C)]
#[derive(Clone, Copy, Debug, Default, PartialEq, Eq)]
pub struct petasunok_sum {
    pub refusal: u32,
    pub removal: petasunok_removal,
}

/// The removal of a value's bytes, and how many records were visited; or a refusal.
#[repr(C)]
#[derive(Clone, Copy, Debug, Default, PartialEq, Eq)]
pub struct petasunok_value_split {
    pub refusal: u32,
    pub removal: petasunok_removal,
    pub visited: usize,
}

/// Whose owner stands: 0 none, 1 ours, 2 theirs; or a refusal.
#[repr(C)]
#[derive(Clone, Copy, Debug, Default, PartialEq, Eq)]
pub struct petasunok_owner {
    pub refusal: u32,
    pub which: u8,
}

/// 32 bytes that name who paid.
#[repr(C)]
#[derive(Clone, Copy, Debug, Default, PartialEq, Eq)]
pub struct petasunok_id {
    pub bytes: [u8; 32],
}

/// An owner, or none, or a refusal.
#[repr(C)]
#[derive(Clone, Copy, Debug, Default, PartialEq, Eq)]
pub struct petasunok_maybe_owner {
    pub refusal: u32,
    pub present: u8,
    pub id: petasunok_id,
}

/// How many bytes and lines of a repair stand in what was lent for them; or a refusal.
#[repr(C)]
#[derive(Clone, Copy, Debug, Default, PartialEq, Eq)]
pub struct petasunok_repaired {
    pub refusal: u32,
    pub bytes: usize,
    pub lines: usize,
}

/// A row of a table of totals, which stands in the first places of a slice.
#[repr(C)]
#[derive(Clone, Copy, Debug, Default, PartialEq, Eq, PartialOrd, Ord, Hash)]
pub struct petasunok_total {
    /// Who paid; 32 zero bytes for what has no owner.
    pub owner: [u8; 32],
    /// In which epoch the bytes were added.
    pub epoch: u16,
    /// How many bytes all elements together count; not 0.
    pub total: u64,
}

/// Declares functions of the library by their parts, which have the header's names: `value`, `slice` (read) and `room` (written), and
/// `flags` and `rows` (read), behind which their tables are named.
macro_rules! declare {
    ($($name:ident($($part:tt)*) -> $answer:ident;)*) => { $(declare!(@ $name $answer [] $($part)*,);)* };
    (@ $name:ident $answer:ident [$($parameter:tt)*] $(,)?) => { extern "C" { pub fn $name($($parameter)*) -> $answer; } };
    (@ $name:ident $answer:ident [$($parameter:tt)*] value $value:ident: $type:ty, $($rest:tt)*) => {
        declare!(@ $name $answer [$($parameter)* $value: $type,] $($rest)*);
    };
    (@ $name:ident $answer:ident [$($parameter:tt)*] slice $slice:ident: $type:ty, $($rest:tt)*) => {
        declare!(@ $name $answer [$($parameter)* $slice: *const $type, _: usize,] $($rest)*);
    };
    (@ $name:ident $answer:ident [$($parameter:tt)*] room $room:ident: $type:ty, $($rest:tt)*) => {
        declare!(@ $name $answer [$($parameter)* $room: *mut $type, _: usize,] $($rest)*);
    };
    (@ $name:ident $answer:ident [$($parameter:tt)*] flags $flags:ident $epochs:ident $counts:ident, $($rest:tt)*) => {
        declare!(@ $name $answer [$($parameter)*] value $flags: petasunok_head, slice $epochs: u16, slice $counts: u32, $($rest)*);
    };
    (@ $name:ident $answer:ident [$($parameter:tt)*] rows $rows:ident $ids:ident $epochs:ident $bytes:ident, $($rest:tt)*) => {
        declare!(@ $name $answer [$($parameter)*]
            value $rows: petasunok_removal, slice $ids: [u8; 32], slice $epochs: u16, slice $bytes: u32, $($rest)*);
    };
}

declare! {
    petasunok_deserialize(slice src: u8, room epochs: u16, room counts: u32) -> petasunok_flags;
    petasunok_deserialize_single_epoch(slice src: u8, room epochs: u16, room counts: u32) -> petasunok_flags;
    petasunok_deserialize_multi_epoch(slice src: u8, room epochs: u16, room counts: u32) -> petasunok_flags;
    petasunok_deserialize_single_epoch_owned(slice src: u8, room epochs: u16, room counts: u32) -> petasunok_flags;
    petasunok_deserialize_multi_epoch_owned(slice src: u8, room epochs: u16, room counts: u32) -> petasunok_flags;
    petasunok_serialize(flags flags epochs counts, room out: u8) -> petasunok_count;
    petasunok_serialized_size(flags flags epochs counts) -> petasunok_count;
    petasunok_approximate_size(value has_owner_id: u8, value given: u8, value changes: u16, value size: u8) -> u32;
    petasunok_combine_owner_id(slice ours: u8, slice theirs: u8, value strategy: u8) -> petasunok_owner;
    petasunok_combine_added_bytes(
        flags ours our_epochs our_counts, flags theirs their_epochs their_counts, value added_bytes: u32, value strategy: u8,
        room epochs: u16, room counts: u32) -> petasunok_flags;
    petasunok_optional_combine_added_bytes(
        value present: u8, flags ours our_epochs our_counts, flags theirs their_epochs their_counts, value added_bytes: u32, value strategy: u8,
        room epochs: u16, room counts: u32) -> petasunok_flags;
    petasunok_combine_removed_bytes(
        flags ours our_epochs our_counts, flags theirs their_epochs their_counts, rows removal ids removed_epochs removed_bytes,
        value strategy: u8, room epochs: u16, room counts: u32) -> petasunok_flags;
    petasunok_optional_combine_removed_bytes(
        value present: u8, flags ours our_epochs our_counts, flags theirs their_epochs their_counts,
        rows removal ids removed_epochs removed_bytes, value strategy: u8, room epochs: u16, room counts: u32) -> petasunok_flags;
    petasunok_split_key_removed_bytes(
        flags flags epochs counts, value removed_key_bytes: u32,
        room ids: [u8; 32], room row_epochs: u16, room row_bytes: u32) -> petasunok_sum;
    petasunok_split_value_removed_bytes(
        flags flags epochs counts, value removed_value_bytes: u32,
        room ids: [u8; 32], room row_epochs: u16, room row_bytes: u32) -> petasunok_value_split;
    petasunok_add_assign(
        value lhs: petasunok_removal, room ids: [u8; 32], room epochs: u16, room bytes: u32,
        rows rhs rhs_ids rhs_epochs rhs_bytes, value version: u16) -> petasunok_sum;
    petasunok_has_removal(rows removal ids epochs bytes) -> petasunok_count;
    petasunok_total_removed_bytes(rows removal ids epochs bytes) -> petasunok_count;
    petasunok_new_single_epoch(value epoch: u16, value owned: u8, value owner_id: petasunok_id) -> petasunok_head;
    petasunok_set_owner_id(value head: petasunok_head, value owner_id: petasunok_id) -> petasunok_flags;
    petasunok_base_epoch(value head: petasunok_head) -> petasunok_count;
    petasunok_owner_id(value head: petasunok_head) -> petasunok_maybe_owner;
    petasunok_type_byte(value head: petasunok_head) -> petasunok_count;
    petasunok_repair(slice src: u8, room out: u8, room offsets: usize, room changes: u8) -> petasunok_repaired;
    petasunok_totals_replace(
        value rows: usize, room owners: [u8; 32], room epochs: u16, room totals: u64,
        value old_present: u8, flags old_flags old_epochs old_counts,
        value new_present: u8, flags new_flags new_epochs new_counts) -> petasunok_count;
    petasunok_totals_replace_structs(
        value rows: usize, room table: petasunok_total, room owners: [u8; 32], room epochs: u16, room totals: u64,
        value old_present: u8, flags old_flags old_epochs old_counts,
        value new_present: u8, flags new_flags new_epochs new_counts) -> petasunok_count;
}
