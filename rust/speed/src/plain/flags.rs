//! What the plain programs know of flags: how an encoding starts, which tables are proper, and who owns what a merge makes.
use petasunok::lent::{Flags, Head};
use petasunok::StorageFlagsError::{self, *};
use petasunok::{MergingOwnersStrategy, OwnerId};

/// The records of flags, in two tables of one length.
#[derive(Clone, Copy)]
pub struct Records<'a> {
    pub epochs: &'a [u16],
    pub counts: &'a [u32],
}

impl<'a> Records<'a> {
    /// One record after another.
    #[inline]
    pub fn iter(self) -> impl Iterator<Item = (u16, u32)> + 'a {
        self.epochs.iter().copied().zip(self.counts.iter().copied())
    }
}

/// Whether a kind has an owner.
pub fn is_owned(kind: u8) -> bool {
    kind >= 2
}

/// Whether a kind has records.
pub fn has_records(kind: u8) -> bool {
    kind & 1 == 1
}

/// The head at the start of an encoding, as yet without records, and the bytes of these; none of no bytes.
#[inline]
pub fn start(src: &[u8]) -> Result<Option<(Head, &[u8])>, StorageFlagsError> {
    let Some((&kind, mut rest)) = src.split_first() else { return Ok(None) };
    if kind > 3 {
        return Err(DeserializeUnknownStorageFlagsType);
    }
    let mut owner = OwnerId::default();
    if is_owned(kind) {
        let (bytes, behind) = rest.split_first_chunk().ok_or(StorageFlagsWrongSize)?;
        (owner, rest) = (*bytes, behind);
    }
    let (base, rest) = rest.split_first_chunk().ok_or(StorageFlagsWrongSize)?;
    if has_records(kind) == rest.is_empty() {
        return Err(StorageFlagsWrongSize);
    }
    Ok(Some((Head { kind, base: u16::from_be_bytes(*base), owner, records: 0 }, rest)))
}

/// How many bytes stand before the records.
#[inline]
pub fn start_length(head: &Head) -> usize {
    if is_owned(head.kind) {
        35
    } else {
        3
    }
}

/// Writes what stands before the records, and gives the place behind it. Refusal 10.
#[inline]
pub fn put_start(head: &Head, out: &mut [u8]) -> Result<usize, StorageFlagsError> {
    let length = start_length(head);
    if out.len() < length {
        return Err(NoRoom);
    }
    out[0] = head.kind;
    if is_owned(head.kind) {
        out[1..33].copy_from_slice(&head.owner);
    }
    out[length - 2..length].copy_from_slice(&head.base.to_be_bytes());
    Ok(length)
}

/// The records of flags whose kind exists and has records just if there are any, in tables that hold them; else refusal 11. Whether the
/// epochs rise is not tested here.
#[inline]
pub fn held<'a>(flags: &Flags<'a>) -> Result<Records<'a>, StorageFlagsError> {
    let Head { kind, records, .. } = flags.head;
    let (Some(epochs), Some(counts)) = (flags.epochs.get(..records), flags.counts.get(..records)) else { return Err(BadTable) };
    if kind > 3 || has_records(kind) == epochs.is_empty() {
        return Err(BadTable);
    }
    Ok(Records { epochs, counts })
}

/// The records of proper flags; else refusal 11.
#[inline]
pub fn proper<'a>(flags: &Flags<'a>) -> Result<Records<'a>, StorageFlagsError> {
    let records = held(flags)?;
    let above = records.epochs.first().is_none_or(|first| *first > flags.head.base);
    if above && records.epochs.windows(2).all(|two| two[0] < two[1]) {
        Ok(records)
    } else {
        Err(BadTable)
    }
}

/// The owner of a head, if it has one.
fn owner(head: &Head) -> Option<&OwnerId> {
    is_owned(head.kind).then_some(&head.owner)
}

/// The owner of what a merge makes, after the bases; refusals 4 and 5.
#[inline]
pub fn merged_owner<'a>(
    ours: &'a Head,
    theirs: &'a Head,
    strategy: MergingOwnersStrategy,
) -> Result<Option<&'a OwnerId>, StorageFlagsError> {
    if theirs.base < ours.base {
        return Err(MergingStorageFlagsWithDifferentBaseEpoch);
    }
    match (owner(ours), owner(theirs)) {
        (Some(our), Some(their)) if our != their => match strategy {
            MergingOwnersStrategy::RaiseIssue => Err(MergingStorageFlagsFromDifferentOwners),
            MergingOwnersStrategy::UseOurs => Ok(Some(our)),
            MergingOwnersStrategy::UseTheirs => Ok(Some(their)),
        },
        (our, their) => Ok(our.or(their)),
    }
}

/// The head of what a merge makes.
#[inline]
pub fn merged_head(base: u16, owner: Option<&OwnerId>, records: usize) -> Head {
    let kind = 2 * u8::from(owner.is_some()) + u8::from(records > 0);
    Head { kind, base, owner: owner.copied().unwrap_or_default(), records }
}
