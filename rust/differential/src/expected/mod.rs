//! What a call has to answer: the original's answer on document 01's domain, and the model's refusal outside it. Where the original overflows in
//! a split, a model answers. It has no repair and no totals; their answers are models'.
mod heads;
mod merging;
pub mod reading;
pub mod removals;
mod writing;

use crate::convert;
use crate::intended::Intended;
use crate::placed;
use crate::question::{Asked, Question, Reply};
use crate::repair_model;
use crate::totals_model;
use crate::values::Flags;
use grovedb_epoch_based_storage_flags::error::StorageFlagsError;
use grovedb_epoch_based_storage_flags::StorageFlags;

/// A reply, and the intended difference where it is not the original's.
#[derive(Clone, Debug, PartialEq, Eq)]
pub struct Expected {
    pub reply: Reply,
    pub intended: Option<Intended>,
}

impl Expected {
    /// The original's own answer, or 10 where there is not the room for it.
    fn original(reply: Reply) -> Expected {
        let intended = (reply.refusal() == 10).then_some(Intended::NoRoom);
        Expected { reply, intended }
    }

    /// An answer of document 01's.
    fn added(intended: impl Into<Intended>, reply: Reply) -> Expected {
        Expected { reply, intended: Some(intended.into()) }
    }

    /// The answer of a call that the original does not have, so that nothing differs from it.
    fn modelled(reply: Reply) -> Expected {
        Expected { reply, intended: None }
    }
}

/// What a call has to answer.
pub fn expected(question: &Question) -> Expected {
    match question {
        Question::Read { reader, src, lent } => reading::read(*reader, src, lent),
        Question::Serialize { flags, out } => writing::serialize(flags, out),
        Question::SerializedSize { flags } => writing::serialized_size(flags),
        Question::ApproximateSize { has_owner, given, changes, size } => {
            let given = (*given != 0).then_some((*changes, *size));
            Expected::original(Reply::Size(StorageFlags::approximate_size(*has_owner != 0, given)))
        }
        Question::CombineOwnerId { ours, theirs, strategy } => merging::combine_owner_id(ours, theirs, *strategy),
        Question::CombineAdded(merge) => merging::combine_added(merge),
        Question::CombineRemoved(merge) => merging::combine_removed(merge),
        Question::SplitKey(split) => removals::split_key(split),
        Question::SplitValue(split) => removals::split_value(split),
        Question::AddAssign { ours, rhs, version } => removals::add_assign(ours, rhs, *version),
        Question::HasRemoval { removal } => removals::has_removal(removal),
        Question::TotalRemovedBytes { removal } => removals::total(removal),
        Question::NewSingleEpoch { epoch, owned, owner } => heads::new_single_epoch(*epoch, *owned, *owner),
        Question::SetOwnerId { head, owner } => heads::set_owner_id(*head, *owner),
        Question::BaseEpoch { head } => heads::base_epoch(*head),
        Question::OwnerId { head } => heads::owner_id(*head),
        Question::TypeByte { head } => heads::type_byte(*head),
        Question::Repair { src, lent } => Expected::modelled(placed::repaired(repair_model::repair(src), lent)),
        Question::TotalsReplace(change) => Expected::modelled(placed::totals(totals_model::replace(change), &change.table)),
    }
}

/// The calls of what is asked at once, each with what it has to answer.
pub fn expected_all(asked: Asked) -> Vec<(Question, Expected)> {
    match asked {
        Asked::Call(question) => {
            let expected = expected(&question);
            vec![(question, expected)]
        }
        Asked::Both(both) => both.calls().into_iter().zip(removals::both(&both)).collect(),
    }
}

/// The original's flags or error, as ours.
fn flags(result: Result<Option<StorageFlags>, StorageFlagsError>) -> Result<Option<Flags>, u32> {
    result.map(|flags| flags.as_ref().map(convert::from_flags)).map_err(|error| convert::number(&error))
}
