//! Our answers by the owned values of the crate `petasunok`, put into what is lent as the C boundary does it.
use crate::placed;
use crate::question::{Change, Merge, Question, Reader, Reply};
use crate::values::*;
use petasunok::{EpochMap, MergingOwnersStrategy, PerEpochByIdentifier, StorageFlags, StorageFlagsError, StorageRemovedBytes};

/// Asks the crate. None where its types cannot say what is given: a byte that names nothing, or tables out of order.
pub fn ask(question: &Question) -> Option<Reply> {
    Some(match question {
        Question::Read { reader, src, lent } => placed::flags(found(read(*reader, src)), lent),
        Question::Serialize { flags, out } => placed::written(self::flags(flags)?.serialize().map_err(StorageFlagsError::number), out),
        Question::SerializedSize { flags } => placed::count(numbered(self::flags(flags)?.serialized_size())),
        Question::ApproximateSize { has_owner, given, changes, size } => {
            Reply::Size(StorageFlags::approximate_size(*has_owner != 0, (*given != 0).then_some((*changes, *size))))
        }
        Question::CombineOwnerId { ours, theirs, strategy } => combine_owner_id(ours, theirs, self::strategy(*strategy)?),
        Question::CombineAdded(merge) => combine_added(merge)?,
        Question::CombineRemoved(merge) => combine_removed(merge)?,
        Question::SplitKey(split) => {
            let answer = flags(&split.flags)?.split_key_removed_bytes(split.bytes).map(from_removal);
            placed::sum(answer.map_err(StorageFlagsError::number), &split.rows)
        }
        Question::SplitValue(split) => {
            let answer = flags(&split.flags)?.split_value_removed_bytes(split.bytes);
            let answer = answer.map(|split| (from_removal(split.removal), split.visited));
            placed::value_split(answer.map_err(StorageFlagsError::number), &split.rows)
        }
        Question::AddAssign { ours, rhs, version } => {
            let (mut sum, rhs) = (removal(ours)?, removal(rhs)?);
            let result = sum.add_assign(rhs, *version).map(|()| from_removal(sum));
            placed::sum(result.map_err(StorageFlagsError::number), &ours.rows)
        }
        Question::HasRemoval { removal } => placed::count(numbered(self::removal(removal)?.has_removal())),
        Question::TotalRemovedBytes { removal } => placed::count(numbered(self::removal(removal)?.total_removed_bytes())),
        Question::Repair { src, lent } => {
            placed::repaired(petasunok::repair(src).map(from_repaired).map_err(StorageFlagsError::number), lent)
        }
        Question::TotalsReplace(change) => totals_replace(change)?,
        _ => return heads(question),
    })
}

/// The calls on a head alone. The crate has no head without records, so one of kind 1 or 3 has a record.
fn heads(question: &Question) -> Option<Reply> {
    Some(match question {
        Question::NewSingleEpoch { epoch, owned, owner } => {
            Reply::Head(from_flags(StorageFlags::new_single_epoch(*epoch, (*owned != 0).then_some(*owner))).head)
        }
        Question::SetOwnerId { head, owner } => {
            let mut flags = of_head(head)?;
            flags.set_owner_id(*owner);
            Reply::Head(petasunok_head { owner: flags.owner_id().copied().unwrap_or(head.owner), ..*head })
        }
        Question::BaseEpoch { head } => Reply::Epoch(*of_head(head)?.base_epoch()),
        Question::OwnerId { head } => {
            let flags = of_head(head)?;
            let owner = flags.owner_id();
            Reply::MaybeOwner { owned: owner.is_some().into(), owner: owner.copied().unwrap_or_default() }
        }
        Question::TypeByte { head } => Reply::Kind(of_head(head)?.type_byte()),
        _ => return None,
    })
}

/// Flags of a head.
fn of_head(head: &petasunok_head) -> Option<StorageFlags> {
    let records = [(u16::MAX, 1)];
    flags(&Flags::new(head.kind, head.base, head.owner, &records[..usize::from(head.kind % 2)]))
}

/// One of the five readers.
fn read(reader: Reader, src: &[u8]) -> Result<Option<StorageFlags>, StorageFlagsError> {
    crate::read_by!(StorageFlags, reader, src)
}

/// The adding merge.
fn combine_added(merge: &Merge<u32>) -> Option<Reply> {
    let (theirs, strategy) = (flags(&merge.theirs)?, strategy(merge.strategy)?);
    let merged = match merge.present {
        None => flags(&merge.ours)?.combine_added_bytes(theirs, merge.with, strategy),
        Some(_) => StorageFlags::optional_combine_added_bytes(maybe(merge)?, theirs, merge.with, strategy),
    };
    Some(placed::flags(found(merged.map(Some)), &merge.lent))
}

/// The removing merge.
fn combine_removed(merge: &Merge<Removal>) -> Option<Reply> {
    let (theirs, removal, strategy) = (flags(&merge.theirs)?, removal(&merge.with)?, strategy(merge.strategy)?);
    let merged = match merge.present {
        None => flags(&merge.ours)?.combine_removed_bytes(theirs, &removal, strategy),
        Some(_) => StorageFlags::optional_combine_removed_bytes(maybe(merge)?, theirs, &removal, strategy),
    };
    Some(placed::flags(found(merged.map(Some)), &merge.lent))
}

/// A change of totals.
fn totals_replace(change: &Change) -> Option<Reply> {
    let mut totals = rows(&change.table, change.rows)?;
    let [old, new] = [change.old_flags(), change.new_flags()].map(|given| given.map(flags));
    // flags that are there have to be ones that the crate has
    let (old, new) = (old.map_or(Some(None), |flags| flags.map(Some))?, new.map_or(Some(None), |flags| flags.map(Some))?);
    let result = totals.replace(old.as_ref(), new.as_ref()).map(|()| from_rows(totals));
    Some(placed::totals(result.map_err(StorageFlagsError::number), &change.table))
}

/// The chosen owner; which encoding holds it is seen by where it stands.
fn combine_owner_id(ours: &[u8], theirs: &[u8], strategy: MergingOwnersStrategy) -> Reply {
    let chosen = petasunok::lent::combine_owner_id(ours, theirs, strategy);
    placed::owner(chosen.map_err(StorageFlagsError::number).map(|part| match part {
        None => (0, &[][..]),
        Some(owner) if ours.as_ptr_range().contains(&owner.as_ptr()) => (1, &owner[..]),
        Some(owner) => (2, &owner[..]),
    }))
}

/// Flags or none, as ours.
fn found(result: Result<Option<StorageFlags>, StorageFlagsError>) -> Result<Option<Flags>, u32> {
    result.map(|flags| flags.map(from_flags)).map_err(StorageFlagsError::number)
}

/// A number.
fn numbered(result: Result<impl Into<u64>, StorageFlagsError>) -> Result<u64, u32> {
    result.map(Into::into).map_err(StorageFlagsError::number)
}

/// Our flags for the optional form of a merge, or none; nothing where they cannot be said.
fn maybe<T>(merge: &Merge<T>) -> Option<Option<StorageFlags>> {
    if merge.is_present() {
        return flags(&merge.ours).map(Some);
    }
    Some(None)
}

/// Flags as the crate has them, if it has them.
fn flags(given: &Flags) -> Option<StorageFlags> {
    let head = &given.head;
    let records = || {
        let epochs = given.tables.epochs.get(..head.records)?.to_vec();
        EpochMap::from_tables(epochs, given.tables.counts.get(..head.records)?.to_vec()).ok()
    };
    match (head.kind, head.records) {
        (0, 0) => Some(StorageFlags::SingleEpoch(head.base)),
        (1, _) => Some(StorageFlags::MultiEpoch(head.base, records()?)),
        (2, 0) => Some(StorageFlags::SingleEpochOwned(head.base, head.owner)),
        (3, _) => Some(StorageFlags::MultiEpochOwned(head.base, records()?, head.owner)),
        _ => None,
    }
}

/// The crate's flags as ours.
fn from_flags(flags: StorageFlags) -> Flags {
    let (kind, base, owner) = (flags.type_byte(), *flags.base_epoch(), flags.owner_id().copied().unwrap_or_default());
    let records: Vec<_> = flags.epoch_index_map().into_iter().flatten().map(|(epoch, count)| (*epoch, *count)).collect();
    Flags::new(kind, base, owner, &records)
}

/// A removal as the crate has it, if it has it.
fn removal(given: &Removal) -> Option<StorageRemovedBytes> {
    match given.state.kind {
        0 => Some(StorageRemovedBytes::NoStorageRemoval),
        1 => Some(StorageRemovedBytes::BasicStorageRemoval(given.state.bytes)),
        2 => rows(&given.rows, given.state.rows).map(StorageRemovedBytes::SectionedStorageRemoval),
        _ => None,
    }
}

/// The first rows as the crate has them, if there are so many.
fn rows<T: Copy + Default>(rows: &Rows<T>, count: usize) -> Option<PerEpochByIdentifier<T>> {
    let (ids, epochs) = (rows.ids.get(..count)?.to_vec(), rows.epochs.get(..count)?.to_vec());
    PerEpochByIdentifier::from_tables(ids, epochs, rows.bytes.get(..count)?.to_vec()).ok()
}

/// The crate's rows as ours.
fn from_rows<T: Copy + Default>(rows: PerEpochByIdentifier<T>) -> Rows<T> {
    let (ids, epochs, bytes) = rows.into_tables();
    Rows { ids, epochs, bytes }
}

/// The crate's removal as ours.
fn from_removal(removal: StorageRemovedBytes) -> Removal {
    match removal {
        StorageRemovedBytes::NoStorageRemoval => Removal::default(),
        StorageRemovedBytes::BasicStorageRemoval(bytes) => Removal::basic(bytes),
        StorageRemovedBytes::SectionedStorageRemoval(sections) => {
            Removal { state: petasunok_removal { kind: 2, bytes: 0, rows: sections.len() }, rows: from_rows(sections) }
        }
    }
}

/// The crate's repair as ours.
fn from_repaired(repaired: petasunok::Repaired) -> Repaired {
    let (offsets, changes) = repaired.lines.into_iter().map(|line| (line.offset, line.change.number())).unzip();
    Repaired { out: repaired.bytes, offsets, changes }
}

/// A strategy, if the byte names one.
fn strategy(byte: u8) -> Option<MergingOwnersStrategy> {
    [MergingOwnersStrategy::RaiseIssue, MergingOwnersStrategy::UseOurs, MergingOwnersStrategy::UseTheirs].get(usize::from(byte)).copied()
}
