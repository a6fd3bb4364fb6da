//! Histories of elements beside their totals: whatever is done to the elements, the table is their recount, on all sides.
use crate::boundary;
use crate::generate::{flags, lent, numbers};
use crate::question::{Change, Question, Reply};
use crate::random::Random;
use crate::run::Run;
use crate::totals_model;
use crate::values::*;

/// The sizes of a history: elements, records of one, owners, and changes.
pub struct Size {
    pub elements: usize,
    pub records: usize,
    pub owners: usize,
    pub changes: usize,
}

/// Elements, absent ones too, and the table beside them.
struct History {
    owners: Vec<Id>,
    records: usize,
    elements: Vec<Option<Flags>>,
    rows: usize,
    table: Rows<u64>,
}

/// Follows a random history and compares every change of it, and the table after each with the recount.
pub fn history(run: &mut Run, random: &mut Random, size: &Size) {
    // first the owners that differ in one byte only
    let near = numbers::OWNERS.into_iter().take(size.owners);
    let owners = near.chain((numbers::OWNERS.len()..size.owners).map(|_| std::array::from_fn(|_| random.bits() as u8))).collect();
    let elements = vec![None; size.elements - random.below(size.elements / 2)];
    let mut history = History { owners, records: size.records, elements, rows: 0, table: Rows::default() };
    run.totals_histories += 1;
    for _ in 0..size.changes {
        if run.over() {
            return;
        }
        run.changes += 1;
        history.change(run, random);
        if random.one_in(4) && history.elements.len() > 1 {
            history.either_order(run, random);
        }
    }
}

impl History {
    /// New flags for an element: none, the old ones with another owner or other counts, or any, mostly of a few owners.
    fn flags(&self, random: &mut Random, old: &Option<Flags>) -> Option<Flags> {
        let mut new = match (old, random.below(8)) {
            (_, 0) => return None,
            (Some(old), 1 | 2) => old.clone(),
            _ => flags::proper(random, self.records),
        };
        new.head.owner = random.pick(&self.owners);
        if random.one_in(2) {
            new.tables.counts.iter_mut().filter(|_| random.one_in(2)).for_each(|count| *count = 7);
        }
        Some(new)
    }

    /// An element, and new flags for it.
    fn pick(&self, random: &mut Random) -> (usize, Option<Flags>) {
        let place = random.below(self.elements.len());
        (place, self.flags(random, &self.elements[place]))
    }

    /// The change of an element in a table of some rows; absent flags are none.
    fn question(&self, rows: usize, table: &Rows<u64>, place: usize, new: &Option<Flags>) -> Question {
        let old = &self.elements[place];
        Question::TotalsReplace(Change {
            rows,
            table: table.clone(),
            old_present: old.is_some().into(),
            old: old.clone().unwrap_or_default(),
            new_present: new.is_some().into(),
            new: new.clone().unwrap_or_default(),
        })
    }

    /// Room for so many rows more behind the table's, filled with junk; now and then it is not enough.
    fn make_room(&mut self, random: &mut Random, more: usize) {
        let more = if random.one_in(8) { random.below(more + 1) } else { more };
        let rows = Rows::of(&self.table.first(self.rows).collect::<Vec<_>>());
        self.table = lent::exact_totals(random, self.rows + more).with(&rows);
    }

    /// One change, by all sides; the library's answer is the next table. A refusal is for want of room, and the element stays as it is.
    fn change(&mut self, run: &mut Run, random: &mut Random) {
        let (place, new) = self.pick(random);
        self.make_room(random, new.as_ref().map_or(0, |flags| flags.head.records));
        let question = self.question(self.rows, &self.table, place, &new);
        run.compare_step(&question);
        match boundary::ask(&question) {
            Reply::Totals { answer: petasunok_count { refusal: 0, count }, table } => {
                (self.rows, self.table) = (count as usize, table);
                self.elements[place] = new;
            }
            Reply::Totals { answer, .. } if answer.refusal == 10 => {}
            other => run.broken.push(format!("a change of elements beside their totals is refused: {question:02x?} gives {other:02x?}")),
        }
        let recount = totals_model::rows(&totals_model::recount(self.elements.iter().map(Option::as_ref)));
        if self.rows != recount.room() || !self.table.first(self.rows).eq(recount.first(self.rows)) {
            run.broken.push(format!("the table is not the recount of the elements after {question:02x?}"));
        }
    }

    /// Two elements' changes in either order: the same table.
    fn either_order(&self, run: &mut Run, random: &mut Random) {
        let (first, second) = (self.pick(random), self.pick(random));
        if first.0 == second.0 {
            return;
        }
        let more: usize = [&first.1, &second.1].into_iter().flatten().map(|flags| flags.head.records).sum();
        let rows = Rows::of(&self.table.first(self.rows).collect::<Vec<_>>());
        let table = lent::exact_totals(random, self.rows + more).with(&rows);
        let tables = [[&first, &second], [&second, &first]].map(|order| {
            let mut so_far = (self.rows, table.clone());
            for (place, new) in order {
                let question = self.question(so_far.0, &so_far.1, *place, new);
                run.compare_step(&question);
                let Reply::Totals { answer, table } = boundary::ask(&question) else { return None };
                so_far = (answer.count as usize, table);
                if answer.refusal != 0 {
                    return None;
                }
            }
            Some(so_far.1.first(so_far.0).collect::<Vec<_>>())
        });
        if tables[0].is_none() || tables[0] != tables[1] {
            run.broken.push(format!("two orders give two tables, or one is refused: {first:02x?} and {second:02x?}"));
        }
    }
}
