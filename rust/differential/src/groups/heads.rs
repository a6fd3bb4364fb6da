//! The calls on a head alone.
use super::Visit;
use crate::generate::numbers;
use crate::question::Question;
use crate::random::Random;
use crate::values::*;

/// All kinds, bases and owners.
pub fn boundaries(visit: &mut Visit) {
    for (base, owner) in numbers::EPOCHS.into_iter().flat_map(|base| numbers::OWNERS.map(|owner| (base, owner))) {
        for kind in 0..4 {
            let head = petasunok_head { kind, base, owner, records: usize::from(kind % 2) };
            all(head, numbers::OWNERS[usize::from(kind) + 1], visit);
        }
    }
}

/// All five calls on a head.
fn all(head: petasunok_head, owner: Id, visit: &mut Visit) {
    visit(Question::NewSingleEpoch { epoch: head.base, owned: head.kind / 2, owner });
    visit(Question::SetOwnerId { head, owner });
    visit(Question::BaseEpoch { head });
    visit(Question::OwnerId { head });
    visit(Question::TypeByte { head });
}

/// One of the five.
pub fn random(random: &mut Random, _most: usize) -> Question {
    let kind = random.below(4) as u8;
    let head = petasunok_head { kind, base: numbers::epoch(random), owner: numbers::owner(random), records: usize::from(kind % 2) };
    let owner = numbers::owner(random);
    let mut questions = Vec::new();
    all(head, owner, &mut |question| questions.push(question));
    questions.swap_remove(random.below(5))
}
