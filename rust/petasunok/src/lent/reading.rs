//! Reading encodings.
use super::{answered, Head};
use crate::StorageFlagsError;

/// Reads flags of the kind that byte 0 names; no bytes are no flags. Refusals: 1, 2, 3, 10.
///
/// ```
/// use petasunok::{lent, StorageFlagsError};
///
/// let (mut epochs, mut counts) = ([0; 1], [0; 1]);
/// assert_eq!(lent::deserialize(&[], &mut epochs, &mut counts), Ok(None));
/// let bytes = [1, 0, 5, 0, 7, 0xAC, 2];
/// assert_eq!(lent::deserialize(&bytes, &mut [], &mut []), Err(StorageFlagsError::NoRoom));
/// let head = lent::deserialize(&bytes, &mut epochs, &mut counts)?.unwrap();
/// assert_eq!((head.kind, head.base, head.records), (1, 5, 1));
/// assert_eq!((epochs, counts), ([7], [300]));
/// # Ok::<(), StorageFlagsError>(())
/// ```
pub fn deserialize(src: &[u8], epochs: &mut [u16], counts: &mut [u32]) -> Result<Option<Head>, StorageFlagsError> {
    let answer = call!(petasunok_deserialize(slice src, room epochs, room counts));
    answered(answer.refusal, (answer.present != 0).then_some(answer.head))
}

/// Readers that do not look at byte 0.
macro_rules! readers_by_kind {
    ($($(#[$doc:meta])* $name:ident calls $raw:ident;)*) => {$(
        $(#[$doc])*
        pub fn $name(src: &[u8], epochs: &mut [u16], counts: &mut [u32]) -> Result<Head, StorageFlagsError> {
            let answer = call!($raw(slice src, room epochs, room counts));
            answered(answer.refusal, answer.head)
        }
    )*};
}

readers_by_kind! {
    /// Reads flags with one epoch, whatever byte 0 says. Refusals: 2.
    ///
    /// ```
    /// use petasunok::lent::{self, Head};
    ///
    /// let head = lent::deserialize_single_epoch(&[9, 0, 5], &mut [], &mut [])?;
    /// assert_eq!((head.kind, head.base), (Head::SINGLE_EPOCH, 5));
    /// # Ok::<(), petasunok::StorageFlagsError>(())
    /// ```
    deserialize_single_epoch calls petasunok_deserialize_single_epoch;
    /// Reads flags with several epochs, whatever byte 0 says. Refusals: 2, 3, 10.
    deserialize_multi_epoch calls petasunok_deserialize_multi_epoch;
    /// Reads owned flags with one epoch, whatever byte 0 says. Refusals: 2.
    deserialize_single_epoch_owned calls petasunok_deserialize_single_epoch_owned;
    /// Reads owned flags with several epochs, whatever byte 0 says. Refusals: 2, 3, 10.
    deserialize_multi_epoch_owned calls petasunok_deserialize_multi_epoch_owned;
}
