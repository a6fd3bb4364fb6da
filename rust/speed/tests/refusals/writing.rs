use super::{ask, ask_at_random};
use differential::convert;
use differential::generate::{flags, lent};
use differential::values::Flags;
use speed::tasks::given;

/// Asks all programs to write.
fn write(flags: &Flags, out: &[u8]) -> u32 {
    ask(&out.to_vec(), &[], |program, out| (program.write)(given(flags), out))
}

#[test]
fn every_room() {
    for kind in 0..4 {
        let records = if kind % 2 == 1 { [(6, 0), (7, 127), (8, 128), (400, 2_097_151), (9_999, u32::MAX)].as_slice() } else { &[] };
        let flags = Flags::new(kind, 5, [kind; 32], records);
        let size = convert::flags(&flags).serialize().len();
        for room in 0..size + 20 {
            assert_eq!(write(&flags, &vec![0xa5; room]), if room < size { 10 } else { 0 });
        }
    }
}

#[test]
fn random_flags() {
    ask_at_random(3, &[0, 10, 11], |random| {
        let flags = flags::proper(random, 24);
        let out = lent::bytes(random, convert::flags(&flags).serialize().len());
        write(&flags::changed(random, flags), &out)
    });
}
