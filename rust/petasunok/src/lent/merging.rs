//! The owner rule and the merges.
use super::{answered, Flags, Head, Rows};
use crate::{MergingOwnersStrategy, OwnerId, StorageFlagsError};

/// The owner that stands in two encodings, as the part of the one that holds it (ours where both hold the same), if either is owned.
/// Refusals: 1, 2, 3 (ours first), 5.
///
/// ```
/// use petasunok::{lent, MergingOwnersStrategy::*, StorageFlagsError};
///
/// let ours = [[2].as_slice(), &[0xAA; 32], &[0, 5]].concat();
/// let theirs = [[2].as_slice(), &[0xBB; 32], &[0, 9]].concat();
/// assert_eq!(lent::combine_owner_id(&ours, &theirs, UseTheirs), Ok(Some(&[0xBB; 32])));
/// assert_eq!(lent::combine_owner_id(&ours, &[], RaiseIssue), Ok(Some(&[0xAA; 32])));
/// assert_eq!(lent::combine_owner_id(&ours, &theirs, RaiseIssue), Err(StorageFlagsError::MergingStorageFlagsFromDifferentOwners));
/// ```
pub fn combine_owner_id<'a>(
    ours: &'a [u8],
    theirs: &'a [u8],
    strategy: MergingOwnersStrategy,
) -> Result<Option<&'a OwnerId>, StorageFlagsError> {
    let answer = call!(petasunok_combine_owner_id(slice ours, slice theirs, value strategy as u8));
    let holder = match answer.which {
        1 => ours,
        2 => theirs,
        _ => &[],
    };
    // the owner stands behind the kind byte
    answered(answer.refusal, holder.get(1..).and_then(|part| part.first_chunk()))
}

/// Merges: as which part of `call!` ours goes, and what comes with the incoming flags.
macro_rules! merges {
    ($($(#[$doc:meta])* $name:ident($ours_part:ident $ours:ty, $part:ident $given:ident: $type:ty) calls $raw:ident;)*) => {$(
        $(#[$doc])*
        pub fn $name(
            ours: $ours,
            theirs: Flags,
            $given: $type,
            strategy: MergingOwnersStrategy,
            epochs: &mut [u16],
            counts: &mut [u32],
        ) -> Result<Head, StorageFlagsError> {
            let answer = call!($raw($ours_part ours, flags theirs, $part $given, value strategy as u8, room epochs, room counts));
            answered(answer.refusal, answer.head)
        }
    )*};
}

merges! {
    /// Merges ours with the incoming flags that came with added bytes. Refusals: 11, 4, 5, 6, 10.
    combine_added_bytes(flags Flags, value added_bytes: u32) calls petasunok_combine_added_bytes;
    /// [`combine_added_bytes`], or theirs where ours is absent.
    optional_combine_added_bytes(optional Option<Flags>, value added_bytes: u32) calls petasunok_optional_combine_added_bytes;

    /// Merges ours with the incoming flags that came with removed bytes. Refusals: 11, 4, 5, then 7 or 6 at the first section, 10.
    ///
    /// ```
    /// use petasunok::lent::{self, Flags, Head, Removal, Rows};
    /// use petasunok::MergingOwnersStrategy::RaiseIssue;
    ///
    /// let head = Head { kind: Head::MULTI_EPOCH, base: 5, records: 2, ..Head::default() };
    /// let ours = Flags { head, epochs: &[7, 9], counts: &[10, 5] };
    /// let theirs = Flags::of(Head { base: 9, ..Head::default() });
    /// let removal = Rows { removal: Removal::sectioned(2), ids: &[[0; 32]; 2], epochs: &[7, 9], bytes: &[4, 2] };
    /// let (mut epochs, mut counts) = ([0; 2], [0; 2]);
    /// let merged = lent::combine_removed_bytes(ours, theirs, removal, RaiseIssue, &mut epochs, &mut counts)?;
    /// // what remains at epoch 9 is 3 bytes, so its record is dropped
    /// assert_eq!((merged.records, epochs, counts), (1, [7, 0], [6, 0]));
    /// # Ok::<(), petasunok::StorageFlagsError>(())
    /// ```
    combine_removed_bytes(flags Flags, rows removal: Rows) calls petasunok_combine_removed_bytes;
    /// [`combine_removed_bytes`], or theirs where ours is absent; the removal has to be proper there too.
    optional_combine_removed_bytes(optional Option<Flags>, rows removal: Rows) calls petasunok_optional_combine_removed_bytes;
}
