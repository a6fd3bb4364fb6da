//! Memory that is lent at the C boundary. It stands between guards, so that a write beside it is found; a slice without elements is given as
//! a null pointer.
use crate::values::*;

/// How many elements guard each end.
const GUARDS: usize = 3;

/// The pointer of a slice that is read.
pub fn given<T>(slice: &[T]) -> *const T {
    if slice.is_empty() {
        return std::ptr::null();
    }
    slice.as_ptr()
}

/// A lent slice between guards.
pub struct Lent<T> {
    all: Vec<T>,
    guard: T,
}

impl<T: Copy + PartialEq> Lent<T> {
    pub fn new(contents: &[T], guard: T) -> Lent<T> {
        let mut all = Vec::with_capacity(contents.len() + 2 * GUARDS);
        all.resize(GUARDS, guard);
        all.extend_from_slice(contents);
        all.resize(contents.len() + 2 * GUARDS, guard);
        Lent { all, guard }
    }

    /// How many elements are lent.
    #[allow(clippy::len_without_is_empty)]
    pub fn len(&self) -> usize {
        self.all.len() - 2 * GUARDS
    }

    /// Where they stand.
    pub fn pointer(&mut self) -> *mut T {
        if self.len() == 0 {
            return std::ptr::null_mut();
        }
        self.all[GUARDS..].as_mut_ptr()
    }

    /// What stands there now; with the guards where one of them was written to, so that it is no right answer.
    pub fn back(mut self) -> Vec<T> {
        let end = self.all.len() - GUARDS;
        if self.all[..GUARDS].iter().chain(&self.all[end..]).all(|element| *element == self.guard) {
            self.all.truncate(end);
            self.all.drain(..GUARDS);
        }
        self.all
    }
}

/// Lent tables of records.
pub struct LentTables {
    pub epochs: Lent<u16>,
    pub counts: Lent<u32>,
}

impl LentTables {
    pub fn new(tables: &Tables) -> Self {
        LentTables { epochs: Lent::new(&tables.epochs, 0xa5a5), counts: Lent::new(&tables.counts, 0xa5a5_a5a5) }
    }

    pub fn back(self) -> Tables {
        Tables { epochs: self.epochs.back(), counts: self.counts.back() }
    }
}

/// Lent tables of rows.
pub struct LentRows<T> {
    pub ids: Lent<Id>,
    pub epochs: Lent<u16>,
    pub bytes: Lent<T>,
}

impl<T: Copy + PartialEq> LentRows<T> {
    /// The rows' numbers stand between guards of their own type.
    pub fn new(rows: &Rows<T>, guard: T) -> Self {
        LentRows { ids: Lent::new(&rows.ids, [0xa5; 32]), epochs: Lent::new(&rows.epochs, 0xa5a5), bytes: Lent::new(&rows.bytes, guard) }
    }

    pub fn back(self) -> Rows<T> {
        Rows { ids: self.ids.back(), epochs: self.epochs.back(), bytes: self.bytes.back() }
    }
}
