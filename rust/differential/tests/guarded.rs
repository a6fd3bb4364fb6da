//! A write beside what is lent is found.
use differential::guarded::Lent;

#[test]
fn a_write_beside_is_found() {
    for (place, kept) in [(-1, false), (0, true), (1, true), (2, false)] {
        let mut lent = Lent::new(&[7u16, 8], 9);
        // inside the guarded memory, at most one place beside what is lent
        unsafe { *lent.pointer().offset(place) = 5 };
        assert_eq!(lent.back().len() == 2, kept, "{place}");
    }
}

#[test]
fn nothing_is_lent_as_null() {
    assert!(Lent::<u8>::new(&[], 9).pointer().is_null());
    assert!(differential::guarded::given::<u8>(&[]).is_null());
}
