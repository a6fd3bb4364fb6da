//! The owner rule and the merges.
use super::{flags, Expected};
use crate::convert;
use crate::intended::Intended;
use crate::model;
use crate::placed;
use crate::question::Merge;
use crate::values::*;
use grovedb_epoch_based_storage_flags::error::StorageFlagsError;
use grovedb_epoch_based_storage_flags::StorageFlags;

/// Whose owner stands in two encodings. The original's rule is private; it is seen in the owner that `combine_added_bytes` gives to flags of
/// equal bases.
pub fn combine_owner_id(ours: &[u8], theirs: &[u8], strategy: u8) -> Expected {
    if let Some(fault) = model::strategy_fault(strategy) {
        return Expected::added(fault, placed::owner(Err(11)));
    }
    let choose = || -> Result<(Option<Id>, Option<Id>), StorageFlagsError> {
        let owner = |bytes| Ok(StorageFlags::deserialize(bytes)?.and_then(|flags| flags.owner_id().copied()));
        let (our_owner, their_owner) = (owner(ours)?, owner(theirs)?);
        let alone = |owner| StorageFlags::new_single_epoch(0, owner);
        let merged = alone(our_owner).combine_added_bytes(alone(their_owner), 0, convert::strategy(strategy))?;
        Ok((merged.owner_id().copied(), our_owner))
    };
    Expected::original(placed::owner(match choose() {
        Err(error) => Err(convert::number(&error)),
        Ok((None, _)) => Ok((0, &[])),
        Ok((chosen, our_owner)) if chosen == our_owner => Ok((1, &ours[1..33])),
        Ok(_) => Ok((2, &theirs[1..33])),
    }))
}

/// What is wrong with the flags and the strategy of a merge. Ours that is absent is not looked at.
fn merge_fault<T>(merge: &Merge<T>) -> Option<model::Fault> {
    let our_fault = merge.is_present().then(|| model::flags_fault(&merge.ours)).flatten();
    our_fault.or_else(|| model::flags_fault(&merge.theirs)).or_else(|| model::strategy_fault(merge.strategy))
}

/// Our flags for the optional form of a merge.
fn maybe<T>(merge: &Merge<T>) -> Option<StorageFlags> {
    merge.is_present().then(|| convert::flags(&merge.ours))
}

/// The adding merge, in both forms.
pub fn combine_added(merge: &Merge<u32>) -> Expected {
    if let Some(fault) = merge_fault(merge) {
        return Expected::added(fault, placed::flags(Err(11), &merge.lent));
    }
    let (theirs, strategy) = (convert::flags(&merge.theirs), convert::strategy(merge.strategy));
    let result = match merge.present {
        None => convert::flags(&merge.ours).combine_added_bytes(theirs, merge.with, strategy),
        Some(_) => StorageFlags::optional_combine_added_bytes(maybe(merge), theirs, merge.with, strategy),
    };
    Expected::original(placed::flags(flags(result.map(Some)), &merge.lent))
}

/// The removing merge, in both forms. Where another order of visiting gives another error, two sections are at fault.
pub fn combine_removed(merge: &Merge<Removal>) -> Expected {
    if let Some(fault) = merge_fault(merge).or_else(|| model::removal_fault(&merge.with)) {
        return Expected::added(fault, placed::flags(Err(11), &merge.lent));
    }
    let removal = convert::removal(&merge.with);
    let ask = || {
        let (theirs, strategy) = (convert::flags(&merge.theirs), convert::strategy(merge.strategy));
        match merge.present {
            None => convert::flags(&merge.ours).combine_removed_bytes(theirs, &removal, strategy),
            Some(_) => StorageFlags::optional_combine_removed_bytes(maybe(merge), theirs, &removal, strategy),
        }
    };
    let result = ask();
    let refusal = |result: &Result<_, _>| result.as_ref().err().map(convert::number);
    let two_faults = result.is_err() && refusal(&intmap::descending(ask)) != refusal(&result);
    let mut expected = Expected::original(placed::flags(flags(result.map(Some)), &merge.lent));
    if two_faults {
        expected.intended = Some(Intended::TwoFaults);
    }
    expected
}
