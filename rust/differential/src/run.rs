//! The comparison of one question after another, and what came of it.
use crate::arguments::Only;
use crate::boundary;
use crate::expected::{expected, expected_all, Expected};
use crate::intended::INTENDED;
use crate::owned;
use crate::progress::Progress;
use crate::question::{Asked, Change, Question, Reply, CALLS};
use crate::values::{petasunok_count, Rows};

/// The largest number of a refusal.
const LAST_REFUSAL: usize = 14;

/// So many differences end a run.
const ENOUGH: usize = 100;

/// What came of the comparisons of one call.
#[derive(Clone, Copy, Default)]
pub struct Tally {
    /// Questions compared.
    pub compared: u64,
    /// Those of them that the crate's owned values answered as well.
    pub owned: u64,
    /// Answers, then refusals by their numbers.
    pub by_refusal: [u64; LAST_REFUSAL + 1],
}

/// Something that is not as it has to be.
pub struct Difference {
    /// Which of our sides: the C boundary, the same over structs, or the crate's owned values.
    pub side: &'static str,
    pub question: Question,
    pub expected: Reply,
    pub found: Reply,
    /// How many comparisons there were before it.
    pub after: u64,
}

/// A run under way.
pub struct Run {
    pub tallies: [Tally; CALLS.len()],
    pub intended: [u64; INTENDED.len()],
    pub differences: Vec<Difference>,
    /// Histories, their steps, and conclusions that did not hold.
    pub histories: u64,
    pub steps: u64,
    /// Histories of totals, and their changes.
    pub totals_histories: u64,
    pub changes: u64,
    pub broken: Vec<String>,
    pub progress: Progress,
    only: Option<Only>,
    enough: usize,
}

impl Run {
    /// A run that has compared nothing yet; it ends at the first difference, or at some hundred.
    pub fn new(only: Option<Only>, first: bool) -> Run {
        Run {
            tallies: [Tally::default(); CALLS.len()],
            intended: [0; INTENDED.len()],
            differences: Vec::new(),
            histories: 0,
            steps: 0,
            totals_histories: 0,
            changes: 0,
            broken: Vec::new(),
            progress: Progress::new(),
            only,
            enough: if first { 1 } else { ENOUGH },
        }
    }

    /// Whether the run has seen enough differences.
    pub fn over(&self) -> bool {
        self.differences.len() + self.broken.len() >= self.enough
    }

    /// All comparisons so far.
    pub fn compared(&self) -> u64 {
        self.tallies.iter().map(|tally| tally.compared).sum()
    }

    /// Compares what is asked at once, as far as its calls are asked for. The original is asked once.
    pub fn compare(&mut self, asked: Asked) {
        if !asked.numbers().into_iter().any(|number| self.wants(number)) {
            return;
        }
        for (question, expected) in expected_all(asked) {
            if self.wants(question.number()) {
                self.compare_with(&question, &expected);
            }
        }
    }

    /// Whether a call is asked for, and there may be more differences.
    pub fn wants(&self, number: usize) -> bool {
        !self.over() && self.only.is_none_or(|only| only == Only::Call(number))
    }

    /// Counts a comparison that was made elsewhere, and in which both sides agreed.
    pub fn agreed(&mut self, number: usize, refusal: u32) {
        let tally = &mut self.tallies[number - 1];
        tally.compared += 1;
        tally.by_refusal[refusal as usize] += 1;
        self.progress.compared(CALLS[number - 1]);
    }

    /// Whether histories are asked for.
    pub fn has_histories(&self) -> bool {
        self.only.is_none_or(|only| only == Only::Histories)
    }

    /// Compares one question, such as a step of a history.
    pub fn compare_step(&mut self, question: &Question) {
        if !self.over() {
            self.compare_with(question, &expected(question));
        }
    }

    /// Compares our answers to a question with what is expected.
    fn compare_with(&mut self, question: &Question, expected: &Expected) {
        let given = question.clone();
        let at_boundary = boundary::ask(&given);
        if given != *question {
            self.broken.push(format!("a call changed what it was given to read: {question:02x?} is now {given:02x?}"));
        }
        let by_owned = owned::ask(question);
        let tally = &mut self.tallies[question.number() - 1];
        tally.compared += 1;
        tally.owned += u64::from(by_owned.is_some());
        tally.by_refusal[expected.reply.refusal() as usize] += 1;
        if let Some(intended) = expected.intended {
            self.intended[intended.place()] += 1;
        }
        self.judge("the C boundary", question, &expected.reply, Some(at_boundary));
        self.judge("the crate's owned values", question, &expected.reply, by_owned);
        if let (Question::TotalsReplace(change), Reply::Totals { answer, table: _ }) = (question, &expected.reply) {
            self.compare_structs(question, change, answer, &expected.reply);
        }
        self.progress.compared(question.name());
    }

    /// Asks a change of totals over structs too. Where it is accepted, with a work area that just has room for the rows before and after, then
    /// with one that is a place short in one of its slices; where it is refused, without a work area, then with one that is longer than the table.
    fn compare_structs(&mut self, question: &Question, change: &Change, answer: &petasunok_count, expected: &Reply) {
        let places = |n| Rows { ids: vec![[0x5a; 32]; n], epochs: vec![0x5a5a; n], bytes: vec![0x5a5a; n] };
        if answer.refusal != 0 {
            self.judge_structs(question, change, &places(0), expected);
            self.judge_structs(question, change, &places(change.table.room() + 1), expected);
            return;
        }
        let enough = change.rows.max(answer.count as usize);
        let mut work = places(enough);
        self.judge_structs(question, change, &work, expected);
        if enough > 0 {
            match self.compared() % 3 {
                0 => work.ids.truncate(enough - 1),
                1 => work.epochs.truncate(enough - 1),
                _ => work.bytes.truncate(enough - 1),
            }
            let short = Reply::Totals { answer: petasunok_count { refusal: 10, count: 0 }, table: change.table.clone() };
            self.judge_structs(question, change, &work, &short);
        }
    }

    /// Notes a difference over structs, or a work area that is not left as it has to be.
    fn judge_structs(&mut self, question: &Question, change: &Change, work: &Rows<u64>, expected: &Reply) {
        let found = boundary::totals_replace_structs(change, work);
        if found.is_none() {
            self.broken.push(format!("a work area of {} places is not left as it has to be: {change:02x?}", work.room()));
        }
        self.judge("the C boundary over structs", question, expected, found);
    }

    /// Notes a difference of one side.
    fn judge(&mut self, side: &'static str, question: &Question, expected: &Reply, found: Option<Reply>) {
        if let Some(found) = found.filter(|found| found != expected) {
            let after = self.compared();
            self.differences.push(Difference { side, question: question.clone(), expected: expected.clone(), found, after });
        }
    }
}
