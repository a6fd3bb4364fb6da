//! One call with all that it is given and lent, and what it answers with all that was lent afterwards.
use crate::values::*;

/// The five readers, in the order of their numbers.
#[derive(Clone, Copy, Debug, PartialEq, Eq)]
pub enum Reader {
    Any,
    SingleEpoch,
    MultiEpoch,
    SingleEpochOwned,
    MultiEpochOwned,
}

impl Reader {
    /// Its number as a call.
    pub fn number(self) -> usize {
        self as usize + 1
    }
}

/// Reads by a reader with the functions of a type that has the original's names.
#[macro_export]
macro_rules! read_by {
    ($flags:ty, $reader:expr, $src:expr) => {
        match $reader {
            $crate::question::Reader::Any => <$flags>::deserialize($src),
            $crate::question::Reader::SingleEpoch => <$flags>::deserialize_single_epoch($src).map(Some),
            $crate::question::Reader::MultiEpoch => <$flags>::deserialize_multi_epoch($src).map(Some),
            $crate::question::Reader::SingleEpochOwned => <$flags>::deserialize_single_epoch_owned($src).map(Some),
            $crate::question::Reader::MultiEpochOwned => <$flags>::deserialize_multi_epoch_owned($src).map(Some),
        }
    };
}

/// All of them.
pub const READERS: [Reader; 5] = [Reader::Any, Reader::SingleEpoch, Reader::MultiEpoch, Reader::SingleEpochOwned, Reader::MultiEpochOwned];

/// The names of the calls; a call's number is its place, counted from 1. The empty place is that of a call that is there no more.
pub const CALLS: [&str; 26] = [
    "deserialize",
    "deserialize_single_epoch",
    "deserialize_multi_epoch",
    "deserialize_single_epoch_owned",
    "deserialize_multi_epoch_owned",
    "serialize",
    "serialized_size",
    "approximate_size",
    "combine_owner_id",
    "combine_added_bytes",
    "optional_combine_added_bytes",
    "combine_removed_bytes",
    "optional_combine_removed_bytes",
    "",
    "add_assign",
    "has_removal",
    "total_removed_bytes",
    "new_single_epoch",
    "set_owner_id",
    "base_epoch",
    "owner_id",
    "type_byte",
    "repair",
    "totals_replace",
    "split_key_removed_bytes",
    "split_value_removed_bytes",
];

/// The numbers of the change of totals and of the two splits.
pub const TOTALS_REPLACE: usize = 24;
pub const SPLIT_KEY: usize = 25;
pub const SPLIT_VALUE: usize = 26;

/// The calls that the original does not have. They are compared with a model.
pub const MODELLED: [&str; 2] = ["repair", "totals_replace"];

/// A merge with an added amount or with a removal. `present` is none for the plain form, and the given byte for the optional one.
#[derive(Clone, Debug, PartialEq, Eq)]
pub struct Merge<T> {
    pub present: Option<u8>,
    pub ours: Flags,
    pub theirs: Flags,
    pub with: T,
    pub strategy: u8,
    pub lent: Tables,
}

impl<T> Merge<T> {
    /// Whether ours is there; without the byte it always is.
    pub fn is_present(&self) -> bool {
        self.present != Some(0)
    }

    /// The same merge with another amount or removal.
    pub fn having<U>(self, with: U) -> Merge<U> {
        let Merge { present, ours, theirs, strategy, lent, .. } = self;
        Merge { present, ours, theirs, with, strategy, lent }
    }
}

/// A split of a key's bytes, or of a value's.
#[derive(Clone, Debug, PartialEq, Eq)]
pub struct Split {
    pub flags: Flags,
    pub bytes: u32,
    pub rows: Rows,
}

/// A split of a key's bytes and one of a value's, of the same flags.
#[derive(Clone, Debug, PartialEq, Eq)]
pub struct Both {
    pub flags: Flags,
    pub key: u32,
    pub value: u32,
    pub key_rows: Rows,
    pub value_rows: Rows,
}

impl Both {
    /// The two calls.
    pub fn calls(&self) -> [Question; 2] {
        let Both { flags, key, value, key_rows, value_rows } = self;
        [
            Question::SplitKey(Split { flags: flags.clone(), bytes: *key, rows: key_rows.clone() }),
            Question::SplitValue(Split { flags: flags.clone(), bytes: *value, rows: value_rows.clone() }),
        ]
    }
}

/// What is asked at once: a call, or both splits of the same flags, for which the original has one call.
pub enum Asked {
    Call(Question),
    Both(Both),
}

impl Asked {
    /// The numbers of its calls.
    pub fn numbers(&self) -> Vec<usize> {
        match self {
            Asked::Call(question) => vec![question.number()],
            Asked::Both(_) => vec![SPLIT_KEY, SPLIT_VALUE],
        }
    }
}

/// A change of one element's flags, and a table of totals with its number of rows. Flags whose byte is 0 are absent.
#[derive(Clone, Debug, Default, PartialEq, Eq)]
pub struct Change {
    pub rows: usize,
    pub table: Rows<u64>,
    pub old_present: u8,
    pub old: Flags,
    pub new_present: u8,
    pub new: Flags,
}

impl Change {
    /// The old flags, if they are there.
    pub fn old_flags(&self) -> Option<&Flags> {
        (self.old_present != 0).then_some(&self.old)
    }

    /// The new flags, if they are there.
    pub fn new_flags(&self) -> Option<&Flags> {
        (self.new_present != 0).then_some(&self.new)
    }
}

/// A call.
#[derive(Clone, Debug, PartialEq, Eq)]
pub enum Question {
    Read { reader: Reader, src: Vec<u8>, lent: Tables },
    Serialize { flags: Flags, out: Vec<u8> },
    SerializedSize { flags: Flags },
    ApproximateSize { has_owner: u8, given: u8, changes: u16, size: u8 },
    CombineOwnerId { ours: Vec<u8>, theirs: Vec<u8>, strategy: u8 },
    CombineAdded(Merge<u32>),
    CombineRemoved(Merge<Removal>),
    SplitKey(Split),
    SplitValue(Split),
    AddAssign { ours: Removal, rhs: Removal, version: u16 },
    HasRemoval { removal: Removal },
    TotalRemovedBytes { removal: Removal },
    NewSingleEpoch { epoch: u16, owned: u8, owner: Id },
    SetOwnerId { head: petasunok_head, owner: Id },
    BaseEpoch { head: petasunok_head },
    OwnerId { head: petasunok_head },
    TypeByte { head: petasunok_head },
    Repair { src: Vec<u8>, lent: Repaired },
    TotalsReplace(Change),
}

/// What a call answers.
#[derive(Clone, Debug, PartialEq, Eq)]
pub enum Reply {
    Flags { answer: petasunok_flags, lent: Tables },
    Written { answer: petasunok_count, out: Vec<u8> },
    Count(petasunok_count),
    Size(u32),
    Owner { answer: petasunok_owner, part: Vec<u8> },
    ValueSplit { answer: petasunok_value_split, rows: Rows },
    Sum { answer: petasunok_sum, rows: Rows },
    Head(petasunok_head),
    Epoch(u16),
    MaybeOwner { owned: u8, owner: Id },
    Kind(u8),
    Repaired { answer: petasunok_repaired, lent: Repaired },
    Totals { answer: petasunok_count, table: Rows<u64> },
}

impl Question {
    /// The call's number.
    pub fn number(&self) -> usize {
        match self {
            Question::Read { reader, .. } => reader.number(),
            Question::Serialize { .. } => 6,
            Question::SerializedSize { .. } => 7,
            Question::ApproximateSize { .. } => 8,
            Question::CombineOwnerId { .. } => 9,
            Question::CombineAdded(merge) => 10 + usize::from(merge.present.is_some()),
            Question::CombineRemoved(merge) => 12 + usize::from(merge.present.is_some()),
            Question::AddAssign { .. } => 15,
            Question::HasRemoval { .. } => 16,
            Question::TotalRemovedBytes { .. } => 17,
            Question::NewSingleEpoch { .. } => 18,
            Question::SetOwnerId { .. } => 19,
            Question::BaseEpoch { .. } => 20,
            Question::OwnerId { .. } => 21,
            Question::TypeByte { .. } => 22,
            Question::Repair { .. } => 23,
            Question::TotalsReplace(_) => TOTALS_REPLACE,
            Question::SplitKey(_) => SPLIT_KEY,
            Question::SplitValue(_) => SPLIT_VALUE,
        }
    }

    /// The call's name.
    pub fn name(&self) -> &'static str {
        CALLS[self.number() - 1]
    }
}

impl Reply {
    /// The refusal's number, 0 of an answer.
    pub fn refusal(&self) -> u32 {
        match self {
            Reply::Flags { answer, .. } => answer.refusal,
            Reply::Written { answer, .. } | Reply::Count(answer) | Reply::Totals { answer, .. } => answer.refusal,
            Reply::Owner { answer, .. } => answer.refusal,
            Reply::ValueSplit { answer, .. } => answer.refusal,
            Reply::Sum { answer, .. } => answer.refusal,
            Reply::Repaired { answer, .. } => answer.refusal,
            Reply::Size(_) | Reply::Head(_) | Reply::Epoch(_) | Reply::MaybeOwner { .. } | Reply::Kind(_) => 0,
        }
    }
}
