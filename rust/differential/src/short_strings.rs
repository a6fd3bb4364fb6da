//! All strings of up to 3 bytes, to all readers. There are many of them, so they are compared quickly: nothing is allocated on our side, and
//! only where the two sides are not alike is the usual comparison made, which then tells.
use crate::convert;
use crate::expected::reading::original;
use crate::groups::reading;
use crate::question::{Asked, Question, Reader, READERS};
use crate::run::Run;
use crate::values::*;
use petasunok::sys;

/// What stands in the lent tables before.
const JUNK: (u16, u32) = (0x5a5a, 0x5a5a_5a5a);

/// All strings of all lengths.
pub fn all(run: &mut Run) {
    run.progress.stage("strings of up to 3 bytes".into());
    let every: Vec<u8> = (0..=255).collect();
    for reader in READERS.into_iter().filter(|reader| run.wants(reader.number())).collect::<Vec<_>>() {
        for length in 0..=3 {
            reading::strings(&every, length, &mut |src| one(run, reader, src));
        }
    }
}

/// One string to one reader.
fn one(run: &mut Run, reader: Reader, src: &[u8]) {
    let expected = match original(reader, src) {
        Ok(None) => petasunok_flags::default(),
        // no string of 3 bytes has an owner or a record; one that had would not be alike
        Ok(Some(flags)) => {
            petasunok_flags { refusal: 0, present: 1, head: petasunok_head { base: *flags.base_epoch(), ..Default::default() } }
        }
        Err(error) => petasunok_flags { refusal: convert::number(&error), ..Default::default() },
    };
    if ours(reader, src) == Some(expected) {
        run.agreed(reader.number(), expected.refusal);
    } else {
        let lent = Tables { epochs: vec![JUNK.0], counts: vec![JUNK.1] };
        run.compare(Asked::Call(Question::Read { reader, src: src.to_vec(), lent }));
    }
}

/// Our answer; none where a lent table has changed.
fn ours(reader: Reader, src: &[u8]) -> Option<petasunok_flags> {
    let (mut epochs, mut counts) = ([JUNK.0], [JUNK.1]);
    let read = match reader {
        Reader::Any => sys::petasunok_deserialize,
        Reader::SingleEpoch => sys::petasunok_deserialize_single_epoch,
        Reader::MultiEpoch => sys::petasunok_deserialize_multi_epoch,
        Reader::SingleEpochOwned => sys::petasunok_deserialize_single_epoch_owned,
        Reader::MultiEpochOwned => sys::petasunok_deserialize_multi_epoch_owned,
    };
    // each pointer comes with the length of what it points to, and the tables are lent to this call alone
    let answer = unsafe { read(src.as_ptr(), src.len(), epochs.as_mut_ptr(), 1, counts.as_mut_ptr(), 1) };
    (epochs == [JUNK.0] && counts == [JUNK.1]).then_some(answer)
}
