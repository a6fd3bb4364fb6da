//! The structs of `sys` stand in memory as C lays out those of the header.
use petasunok::sys::*;
use std::mem::{align_of, offset_of, size_of};

/// The size of a struct's field.
fn size_of_field<S, F>(_: fn(&S) -> &F) -> usize {
    size_of::<F>()
}

/// The size and the alignment of a struct, then the place and the size of each field.
macro_rules! assert_layout {
    ($name:ident: $size:literal, $align:literal; $($field:ident $place:literal $length:literal),*) => {
        assert_eq!((size_of::<$name>(), align_of::<$name>()), ($size, $align), stringify!($name));
        $(
            let field = (offset_of!($name, $field), size_of_field(|value: &$name| &value.$field));
            assert_eq!(field, ($place, $length), concat!(stringify!($name), ".", stringify!($field)));
        )*
    };
}

#[test]
fn structs_are_laid_out_as_in_c() {
    assert_layout!(petasunok_head: 48, 8; kind 0 1, base 2 2, owner 4 32, records 40 8);
    assert_layout!(petasunok_flags: 56, 8; refusal 0 4, present 4 1, head 8 48);
    assert_layout!(petasunok_count: 16, 8; refusal 0 4, count 8 8);
    assert_layout!(petasunok_removal: 16, 8; kind 0 1, bytes 4 4, rows 8 8);
    assert_layout!(petasunok_sum: 24, 8; refusal 0 4, removal 8 16);
    assert_layout!(petasunok_value_split: 32, 8; refusal 0 4, removal 8 16, visited 24 8);
    assert_layout!(petasunok_owner: 8, 4; refusal 0 4, which 4 1);
    assert_layout!(petasunok_id: 32, 1; bytes 0 32);
    assert_layout!(petasunok_maybe_owner: 40, 4; refusal 0 4, present 4 1, id 5 32);
    assert_layout!(petasunok_repaired: 24, 8; refusal 0 4, bytes 8 8, lines 16 8);
    assert_layout!(petasunok_total: 48, 8; owner 0 32, epoch 32 2, total 40 8);
}
