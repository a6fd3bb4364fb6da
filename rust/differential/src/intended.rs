//! Where answers differ from the original on purpose. docs/DIFFERENCES.md has these, and tests/intended.rs shows each.
use crate::model::Fault;

/// One kind of intended difference.
#[derive(Clone, Copy, Debug, PartialEq, Eq)]
pub enum Intended {
    TopThreeAmounts,
    TotalTooLarge,
    NoRoom,
    BadByte,
    CountPastTable,
    NotProper,
    TwoFaults,
    IdentifierWithoutSections,
}

/// Each with its name and its reason.
pub const INTENDED: [(Intended, &str, &str); 8] = [
    (
        Intended::TopThreeAmounts,
        "the top three amounts",
        "`left + 3` overflows in the original: a panic in a debug build, a wrong test in a release build; a model over whole numbers answers",
    ),
    (
        Intended::TotalTooLarge,
        "total too large (9)",
        "the sum overflows in the original: a panic in a debug build, it wraps in a release build",
    ),
    (Intended::NoRoom, "no room (10)", "the original's maps and vectors grow"),
    (Intended::BadByte, "a byte that names nothing (11)", "the original has enums"),
    (Intended::CountPastTable, "a count past its table (11)", "the original's maps have their own length"),
    (
        Intended::NotProper,
        "flags or rows not proper (11)",
        "the original takes flags as they are; rows out of order cannot stand in its maps",
    ),
    (
        Intended::TwoFaults,
        "two sections at fault",
        "the original visits sections in no promised order; here the first in ascending order decides",
    ),
    (
        Intended::IdentifierWithoutSections,
        "an identifier without sections",
        "it can stand in the original's map; it cannot be written here, so no run meets it",
    ),
];

impl Intended {
    /// Its place in the list.
    pub fn place(self) -> usize {
        INTENDED.iter().position(|entry| entry.0 == self).expect("every one is in the list")
    }
}

impl From<Fault> for Intended {
    fn from(fault: Fault) -> Self {
        match fault {
            Fault::Byte => Intended::BadByte,
            Fault::Count => Intended::CountPastTable,
            Fault::Table => Intended::NotProper,
        }
    }
}
