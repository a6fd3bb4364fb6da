//! The stored answers: a list of questions with the replies that they have to get, for crates/vectors.
use crate::blocks;
use crate::edges;
use crate::expected::{expected_all, Expected};
use crate::fields;
use crate::groups::{repairing, totals as of_totals, Boundaries, Randomly, BOUNDARIES, RANDOMLY};
use crate::marked;
use crate::question::{Question, CALLS};
use crate::random::Random;
use crate::repairs;
use crate::totals;
use std::collections::{BTreeMap, BTreeSet};

/// The most bytes of a stored question or reply.
const MOST_BYTES: usize = 600;

/// How many of a call's boundaries are stored, about.
const BOUNDARIES_OF_CALL: usize = 60;

/// How many random questions of a call with the same refusal, or none, are stored.
const OF_REFUSAL: usize = 24;

/// How many random questions are tried, of all calls of the original, of repairs and of totals.
const TRIES: usize = 120_000;
const TRIES_OF_REPAIRS: usize = 200;
const TRIES_OF_TOTALS: usize = 60;

/// The head of the list.
const HEAD: &str = "\
# Questions to the calls with the replies that they have to get, one a line.
# Made by `tools/differential vectors` from the original Rust, dashpay/grovedb at commit 0ea327d726, and its stand-ins (rust/standins).
# Refusals 9 to 11 come from document 01's rule and not from the Rust, which has none of them.
# For value splits of 4,294,967,293 to 4,294,967,295 of flags with records, where the Rust overflows, the replies to 26 come from a model over whole
# numbers, rust/differential/src/split_model.rs, as document 02 (v) wants it.
# The Rust has no repair: the replies to 23 come from a model of its own, rust/differential/src/repair_model.rs, written from document 02 (iv).
# The Rust has no totals: the replies to 24 come from a model of its own, rust/differential/src/totals_model.rs, written from document 02 (vii).
# A line: hex digits of the question, =, hex digits of the reply; blanks do not count; numbers are big-endian; u8 to u64 have 1, 2, 4, 8 bytes.
#   BYTES: u16 n, n bytes          HEAD: u8 kind, u16 base, 32 owner bytes, u16 records     TABLES: u16 n, n u16 epochs, u16 m, m u32 counts
#   FLAGS: HEAD TABLES             REMOVAL: u8 kind (0 none, 1 basic, 2 sectioned), u32 bytes, u16 rows
#   ROWTABLES: u16 n, n ids of 32 bytes, u16 m, m u16 epochs, u16 k, k u32 bytes            ROWS: REMOVAL ROWTABLES
#   OFFSETS: u16 n, n u16 (there are only questions whose offsets, also those lent, are below 65,536)
#   TOTALTABLES: u16 n, n owners of 32 bytes, u16 m, m u16 epochs, u16 k, k u64 totals
# The question is the call's u8 number, then (tables and bytes that are lent stand as they are before, in the reply as they are after):
#   1 deserialize, 2 deserialize_single_epoch, 3 deserialize_multi_epoch, 4 deserialize_single_epoch_owned, 5 deserialize_multi_epoch_owned:
#     BYTES, TABLES lent = u8 refusal, u8 present, HEAD, TABLES
#   6 serialize: FLAGS, BYTES lent = u8 refusal, u32 count, BYTES
#   7 serialized_size: FLAGS = u8 refusal, u32 count
#   8 approximate_size: u8 has_owner, u8 given, u16 changes, u8 size = u32
#   9 combine_owner_id: BYTES ours, BYTES theirs, u8 strategy = u8 refusal, u8 which, BYTES the part
#   10 combine_added_bytes: FLAGS ours, FLAGS theirs, u32 amount, u8 strategy, TABLES lent = as 1
#   11 optional_combine_added_bytes: u8 present, then as 10
#   12 combine_removed_bytes: FLAGS ours, FLAGS theirs, ROWS, u8 strategy, TABLES lent = as 1
#   13 optional_combine_removed_bytes: u8 present, then as 12
#   14 was the split of key and value bytes at once, and is not used again
#   15 add_assign: ROWS ours, ROWS rhs, u16 version = u8 refusal, REMOVAL, ROWTABLES ours
#   16 has_removal, 17 total_removed_bytes: ROWS = u8 refusal, u32 count
#   18 new_single_epoch: u16 epoch, u8 owned, 32 bytes = HEAD
#   19 set_owner_id: HEAD, 32 bytes = HEAD
#   20 base_epoch: HEAD = u16      21 owner_id: HEAD = u8 owned, 32 bytes     22 type_byte: HEAD = u8
#   23 repair: BYTES, BYTES out lent, OFFSETS lent, BYTES changes lent = u8 refusal, u16 bytes, u16 lines, BYTES out, OFFSETS, BYTES changes
#   24 totals_replace: u16 rows, TOTALTABLES, u8 old_present, FLAGS old, u8 new_present, FLAGS new = u8 refusal, u16 rows, TOTALTABLES
#   25 split_key_removed_bytes: FLAGS, u32 key, ROWTABLES lent = as 15
#   26 split_value_removed_bytes: FLAGS, u32 value, ROWTABLES lent = u8 refusal, REMOVAL, u16 visited, ROWTABLES
";

/// The lines of a list under way, by call.
#[derive(Default)]
struct List {
    lines: BTreeMap<usize, Vec<String>>,
    known: BTreeSet<String>,
}

/// The list that a seed gives.
pub fn list(seed: u64) -> String {
    let mut list = List::default();
    list.all(&Boundaries::Calls(marked::questions));
    list.all(&Boundaries::Calls(edges::questions));
    list.all(&Boundaries::Splits(edges::splits));
    list.boundaries(seed, &BOUNDARIES);
    list.random(seed, &RANDOMLY, TRIES);
    list.all(&Boundaries::Calls(blocks::questions));
    list.all(&Boundaries::Calls(repairs::questions));
    list.boundaries(seed, &[Boundaries::Calls(repairing::boundaries)]);
    list.random(seed, &[Randomly::Call(repairing::random)], TRIES_OF_REPAIRS);
    list.all(&Boundaries::Calls(totals::questions));
    list.boundaries(seed, &[Boundaries::Calls(of_totals::boundaries)]);
    list.random(seed, &[Randomly::Call(of_totals::random)], TRIES_OF_TOTALS);
    let mut text = HEAD.to_string();
    for (number, lines) in list.lines {
        text.push_str(&format!("# {number} {}\n", CALLS[number - 1]));
        for line in lines {
            text.push_str(&line);
            text.push('\n');
        }
    }
    text
}

/// So many sources of random numbers, each apart from the others.
fn own_randoms(seed: u64, many: usize) -> impl Iterator<Item = Random> {
    (0..many as u64).map(move |place| Random::new(seed.wrapping_add(place)))
}

impl List {
    /// Puts a question into the list, if the format has it and it is new; whether it was put there.
    fn add(&mut self, question: &Question, expected: &Expected) -> bool {
        let (Some(digits), Some(answer)) = (fields::question(question), fields::reply(&expected.reply)) else { return false };
        let long = [&digits, &answer].into_iter().any(|hex| hex.bytes().filter(|byte| *byte != b' ').count() > 2 * MOST_BYTES);
        if long || !self.known.insert(digits.clone()) {
            return false;
        }
        self.lines.entry(question.number()).or_default().push(format!("{digits} = {answer}"));
        true
    }

    /// All of some questions.
    fn all(&mut self, questions: &Boundaries) {
        questions.visit(&mut |asked| expected_all(asked).iter().for_each(|(question, expected)| _ = self.add(question, expected)));
    }

    /// Some of every call's boundaries, by chance. Each call has random numbers of its own, so that what changes of one leaves the others.
    fn boundaries(&mut self, seed: u64, of_groups: &[Boundaries]) {
        let mut numbers = [0; CALLS.len() + 1];
        for boundaries in of_groups {
            boundaries.visit(&mut |asked| asked.numbers().into_iter().for_each(|number| numbers[number] += 1));
        }
        let mut randoms: Vec<_> = own_randoms(seed, numbers.len()).collect();
        for boundaries in of_groups {
            boundaries.visit(&mut |asked| {
                let mut chosen = |number: usize| randoms[number].below(numbers[number]) < BOUNDARIES_OF_CALL;
                let chosen: Vec<_> = asked.numbers().into_iter().map(&mut chosen).collect();
                if chosen.contains(&true) {
                    let all = expected_all(asked).into_iter().zip(chosen).filter(|(_, chosen)| *chosen);
                    all.for_each(|((question, expected), _)| _ = self.add(&question, &expected));
                }
            });
        }
    }

    /// Random questions, some for each call and refusal. Each sort of them has random numbers of its own.
    fn random(&mut self, seed: u64, randomly: &[Randomly], tries: usize) {
        let mut stored: BTreeMap<(usize, u32), usize> = BTreeMap::new();
        let tries_of_one = tries / randomly.len();
        for (randomly, mut random) in randomly.iter().zip(own_randoms(seed, randomly.len())) {
            for (question, expected) in (0..tries_of_one).flat_map(|_| expected_all(randomly.ask(&mut random, 6))) {
                let stored = stored.entry((question.number(), expected.reply.refusal())).or_default();
                if *stored < OF_REFUSAL && self.add(&question, &expected) {
                    *stored += 1;
                }
            }
        }
    }
}
