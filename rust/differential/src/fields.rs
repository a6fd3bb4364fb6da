//! Questions and replies as hex digits, numbers big-endian, with a blank between fields. crates/vectors reads them.
use crate::question::{Merge, Question, Reply};
use crate::values::*;

/// The most places that a table of a stored question or reply has.
const MOST_PLACES: usize = 12;

/// A line under way. It becomes none where something has no place in the format.
pub struct Line {
    hex: Option<String>,
}

/// The digits of a question, if the format has it.
pub fn question(question: &Question) -> Option<String> {
    let mut line = Line { hex: Some(String::new()) };
    line.number(question.number() as u64, 1);
    match question {
        Question::Read { src, lent, .. } => line.bytes(src).tables(lent),
        Question::Serialize { flags, out } => line.flags(flags).bytes(out),
        Question::SerializedSize { flags } => line.flags(flags),
        Question::ApproximateSize { has_owner, given, changes, size } => {
            line.truth(*has_owner).truth(*given).number(*changes, 2).byte(*size)
        }
        Question::CombineOwnerId { ours, theirs, strategy } => line.bytes(ours).bytes(theirs).strategy(*strategy),
        Question::CombineAdded(merge) => line.merge(merge, |line| line.number(merge.with, 4)),
        Question::CombineRemoved(merge) => line.merge(merge, |line| line.removal(&merge.with)),
        Question::SplitKey(split) | Question::SplitValue(split) => line.flags(&split.flags).number(split.bytes, 4).rows(&split.rows, 4),
        Question::AddAssign { ours, rhs, version } => line.removal(ours).removal(rhs).number(*version, 2),
        Question::HasRemoval { removal } | Question::TotalRemovedBytes { removal } => line.removal(removal),
        Question::NewSingleEpoch { epoch, owned, owner } => line.number(*epoch, 2).truth(*owned).plain(owner),
        Question::SetOwnerId { head, owner } => line.head(head).plain(owner),
        Question::BaseEpoch { head } | Question::OwnerId { head } | Question::TypeByte { head } => line.head(head),
        Question::Repair { src, lent } => line.bytes(src).repaired(lent),
        Question::TotalsReplace(change) => {
            line.number(change.rows as u64, 2).rows(&change.table, 8);
            line.truth(change.old_present).flags(&change.old).truth(change.new_present).flags(&change.new)
        }
    };
    line.hex
}

/// The digits of a reply.
pub fn reply(reply: &Reply) -> Option<String> {
    let mut line = Line { hex: Some(String::new()) };
    match reply {
        Reply::Flags { answer, lent } => line.refusal(answer.refusal).byte(answer.present).head(&answer.head).tables(lent),
        Reply::Written { answer, out } => line.refusal(answer.refusal).number(answer.count, 4).bytes(out),
        Reply::Count(answer) => line.refusal(answer.refusal).number(answer.count, 4),
        Reply::Size(size) => line.number(*size, 4),
        Reply::Owner { answer, part } => line.refusal(answer.refusal).byte(answer.which).bytes(part),
        Reply::ValueSplit { answer, rows } => {
            line.refusal(answer.refusal).state(&answer.removal).number(answer.visited as u64, 2).rows(rows, 4)
        }
        Reply::Sum { answer, rows } => line.refusal(answer.refusal).state(&answer.removal).rows(rows, 4),
        Reply::Head(head) => line.head(head),
        Reply::Epoch(epoch) => line.number(*epoch, 2),
        Reply::MaybeOwner { owned, owner } => line.byte(*owned).plain(owner),
        Reply::Kind(kind) => line.byte(*kind),
        Reply::Repaired { answer, lent } => {
            line.refusal(answer.refusal).number(answer.bytes as u64, 2).number(answer.lines as u64, 2).repaired(lent)
        }
        Reply::Totals { answer, table } => line.refusal(answer.refusal).number(answer.count, 2).rows(table, 8),
    };
    line.hex
}

impl Line {
    /// A number of a width in bytes; nothing where it is wider.
    fn number(&mut self, number: impl Into<u64>, width: usize) -> &mut Line {
        let number = number.into();
        if number.checked_shr(8 * width as u32).unwrap_or(0) != 0 {
            self.hex = None;
        }
        self.plain(&number.to_be_bytes()[8 - width..])
    }

    fn byte(&mut self, byte: u8) -> &mut Line {
        self.number(byte, 1)
    }

    fn refusal(&mut self, refusal: u32) -> &mut Line {
        self.number(refusal, 1)
    }

    /// A byte that has to be below a limit: the calls of the proved language take enums.
    fn below(&mut self, byte: u8, limit: u8) -> &mut Line {
        if byte >= limit {
            self.hex = None;
        }
        self.byte(byte)
    }

    fn truth(&mut self, truth: u8) -> &mut Line {
        self.below(truth, 2)
    }

    fn strategy(&mut self, strategy: u8) -> &mut Line {
        self.below(strategy, 3)
    }

    /// A merge, whose amount or removal stands before the strategy.
    fn merge<T>(&mut self, merge: &Merge<T>, with: impl Fn(&mut Line) -> &mut Line) -> &mut Line {
        if let Some(present) = merge.present {
            self.truth(present);
        }
        with(self.flags(&merge.ours).flags(&merge.theirs)).strategy(merge.strategy).tables(&merge.lent)
    }

    /// Bytes without their number.
    fn plain(&mut self, bytes: &[u8]) -> &mut Line {
        if let Some(hex) = self.hex.as_mut().filter(|_| !bytes.is_empty()) {
            if !hex.is_empty() {
                hex.push(' ');
            }
            bytes.iter().for_each(|byte| hex.push_str(&format!("{byte:02x}")));
        }
        self
    }

    /// Bytes behind their number.
    fn bytes(&mut self, bytes: &[u8]) -> &mut Line {
        self.number(bytes.len() as u64, 2).plain(bytes)
    }

    /// A table behind its length, a blank before each element.
    fn table<T>(&mut self, table: &[T], mut element: impl FnMut(&mut Line, &T)) -> &mut Line {
        if table.len() > MOST_PLACES {
            self.hex = None;
        }
        self.number(table.len() as u64, 2);
        table.iter().for_each(|one| element(self, one));
        self
    }

    fn epochs(&mut self, epochs: &[u16]) -> &mut Line {
        self.table(epochs, |line, epoch| {
            line.number(*epoch, 2);
        })
    }

    /// Counts, or totals, which are wider.
    fn counts<T: Copy + Into<u64>>(&mut self, counts: &[T], width: usize) -> &mut Line {
        self.table(counts, |line, count| {
            line.number(*count, width);
        })
    }

    fn tables(&mut self, tables: &Tables) -> &mut Line {
        self.epochs(&tables.epochs).counts(&tables.counts, 4)
    }

    fn rows<T: Copy + Into<u64>>(&mut self, rows: &Rows<T>, width: usize) -> &mut Line {
        self.table(&rows.ids, |line, id| {
            line.plain(id);
        });
        self.epochs(&rows.epochs).counts(&rows.bytes, width)
    }

    /// Bytes, offsets that are below 65,536, and changes.
    fn repaired(&mut self, repaired: &Repaired) -> &mut Line {
        self.bytes(&repaired.out).table(&repaired.offsets, |line, offset| {
            line.number(*offset as u64, 2);
        });
        self.bytes(&repaired.changes)
    }

    fn head(&mut self, head: &petasunok_head) -> &mut Line {
        self.below(head.kind, 4).number(head.base, 2).plain(&head.owner).number(head.records as u64, 2)
    }

    fn flags(&mut self, flags: &Flags) -> &mut Line {
        self.head(&flags.head).tables(&flags.tables)
    }

    fn state(&mut self, state: &petasunok_removal) -> &mut Line {
        self.below(state.kind, 3).number(state.bytes, 4).number(state.rows as u64, 2)
    }

    fn removal(&mut self, removal: &Removal) -> &mut Line {
        self.state(&removal.state).rows(&removal.rows, 4)
    }
}
