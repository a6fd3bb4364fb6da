//! Stands for the crate intmap, which is not at hand: a map from small numbers. The original visits in no promised order; here the order
//! is ascending, or descending where a thread asks for that.
use std::cell::Cell;
use std::collections::BTreeMap;

thread_local! {
    static DESCENDING: Cell<bool> = const { Cell::new(false) };
}

/// Runs something with every map of this thread visited from its largest key down.
pub fn descending<T>(run: impl FnOnce() -> T) -> T {
    struct Back(bool);
    impl Drop for Back {
        fn drop(&mut self) {
            DESCENDING.set(self.0);
        }
    }
    let _back = Back(DESCENDING.replace(true));
    run()
}

/// A map, with the methods that the original uses. Keys are given by value.
#[derive(Clone, Debug, PartialEq, Eq)]
pub struct IntMap<K: Ord, V> {
    entries: BTreeMap<K, V>,
}

impl<K: Ord, V> Default for IntMap<K, V> {
    fn default() -> Self {
        IntMap { entries: BTreeMap::new() }
    }
}

impl<K: Ord + Copy, V> IntMap<K, V> {
    /// A map without entries.
    pub fn new() -> Self {
        Self::default()
    }

    /// How many entries there are.
    pub fn len(&self) -> usize {
        self.entries.len()
    }

    /// Whether there are none.
    pub fn is_empty(&self) -> bool {
        self.entries.is_empty()
    }

    /// The value of a key.
    pub fn get(&self, key: K) -> Option<&V> {
        self.entries.get(&key)
    }

    /// Gives a key a value; the one before it is handed back.
    pub fn insert(&mut self, key: K, value: V) -> Option<V> {
        self.entries.insert(key, value)
    }

    /// Takes a key out.
    pub fn remove(&mut self, key: K) -> Option<V> {
        self.entries.remove(&key)
    }

    /// The entries, in the thread's order.
    pub fn iter(&self) -> impl Iterator<Item = (K, &V)> {
        ordered(self.entries.iter().map(|(key, value)| (*key, value)))
    }

    /// The values, in the thread's order.
    pub fn values(&self) -> impl Iterator<Item = &V> {
        ordered(self.entries.values())
    }
}

/// What a thread visits, in its order.
fn ordered<'a, T: 'a>(ascending: impl DoubleEndedIterator<Item = T> + 'a) -> Box<dyn Iterator<Item = T> + 'a> {
    if DESCENDING.get() {
        return Box::new(ascending.rev());
    }
    Box::new(ascending)
}

impl<K: Ord + Copy + 'static, V: 'static> IntoIterator for IntMap<K, V> {
    type Item = (K, V);
    type IntoIter = Box<dyn Iterator<Item = (K, V)>>;

    fn into_iter(self) -> Self::IntoIter {
        ordered(self.entries.into_iter())
    }
}

impl<K: Ord, V> FromIterator<(K, V)> for IntMap<K, V> {
    fn from_iter<I: IntoIterator<Item = (K, V)>>(entries: I) -> Self {
        IntMap { entries: entries.into_iter().collect() }
    }
}
