//! The owner rule on two encodings.
use super::Visit;
use crate::convert::bytes;
use crate::generate::{encodings, numbers};
use crate::question::Question;
use crate::random::Random;

/// All pairs of: no bytes, each kind with each owner, and encodings that are refused with 1, 2 and 3; all strategies.
pub fn boundaries(visit: &mut Visit) {
    let mut some: Vec<Vec<u8>> =
        ["", "000005", "0100050007ac02", "04", "0005", "010005", "010005000501"].iter().map(|hex| bytes(hex)).collect();
    for owner in numbers::OWNERS {
        some.push([&[2][..], &owner, &[0, 5]].concat());
        some.push([&[3][..], &owner, &[0, 5, 0, 7, 1]].concat());
        some.push([&[2][..], &owner, &[0]].concat());
    }
    for ours in &some {
        for theirs in &some {
            for strategy in [0, 1, 2, 3, 255] {
                visit(Question::CombineOwnerId { ours: ours.clone(), theirs: theirs.clone(), strategy });
            }
        }
    }
}

/// Two random encodings.
pub fn random(random: &mut Random, most: usize) -> Question {
    let ours = encodings::any(random, most);
    let mut theirs = if random.one_in(4) { ours.clone() } else { encodings::any(random, most) };
    if random.one_in(8) {
        encodings::damage(random, &mut theirs);
    }
    let strategy = if random.one_in(24) { random.pick(&numbers::BAD_BYTES) } else { numbers::strategy(random) };
    Question::CombineOwnerId { ours, theirs, strategy }
}
