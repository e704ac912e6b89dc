//! Stand-in for `ordermap` that hashes as the real one does: entries in insertion order with their
//! hashes, and a table of their places, probed from the hash on.

use std::hash::{BuildHasher, Hash};

#[derive(Debug, Clone)]
pub struct OrderMap<K, V, S> {
    entries: Vec<(u64, K, V)>,
    /// A place in `entries` plus 1, or 0; a power of two of them, at most half in use.
    slots: Vec<u32>,
    hasher: S,
}

impl<K: Eq + Hash, V, S: BuildHasher> OrderMap<K, V, S> {
    #[inline]
    fn find(&self, hash: u64, key: &K) -> Option<usize> {
        let mask = self.slots.len().checked_sub(1)?;
        let mut at = hash as usize & mask;
        while self.slots[at] != 0 {
            let place = self.slots[at] as usize - 1;
            let entry = &self.entries[place];
            if entry.0 == hash && entry.1 == *key {
                return Some(place);
            }
            at = (at + 1) & mask;
        }
        None
    }

    fn place(slots: &mut [u32], hash: u64, place: usize) {
        let mask = slots.len() - 1;
        let mut at = hash as usize & mask;
        while slots[at] != 0 {
            at = (at + 1) & mask;
        }
        slots[at] = place as u32 + 1;
    }

    fn grow(&mut self) {
        self.slots = vec![0; (self.slots.len() * 2).max(8)];
        for (place, entry) in self.entries.iter().enumerate() {
            Self::place(&mut self.slots, entry.0, place);
        }
    }

    #[inline]
    pub fn get_index_of(&self, key: &K) -> Option<usize> {
        match self.entries.as_slice() {
            [] => None,
            // The real one does not hash for a single entry either.
            [one] => (one.1 == *key).then_some(0),
            _ => self.find(self.hasher.hash_one(key), key),
        }
    }

    /// As the real one: a key that is there keeps its place and gets the new value.
    pub fn insert(&mut self, key: K, value: V) -> Option<V> {
        let hash = self.hasher.hash_one(&key);
        if let Some(i) = self.find(hash, &key) {
            return Some(std::mem::replace(&mut self.entries[i].2, value));
        }
        self.entries.push((hash, key, value));
        if 2 * self.entries.len() > self.slots.len() {
            self.grow();
        } else {
            Self::place(&mut self.slots, hash, self.entries.len() - 1);
        }
        None
    }
}

impl<K, V, S> OrderMap<K, V, S> {
    pub fn with_hasher(hasher: S) -> Self {
        Self { entries: Vec::new(), slots: Vec::new(), hasher }
    }

    pub fn len(&self) -> usize {
        self.entries.len()
    }

    pub fn is_empty(&self) -> bool {
        self.entries.is_empty()
    }

    pub fn iter(&self) -> impl Iterator<Item = (&K, &V)> {
        self.entries.iter().map(|(_, k, v)| (k, v))
    }
}

#[derive(Debug, Clone)]
pub struct OrderSet<T, S>(OrderMap<T, (), S>);

impl<T: Eq + Hash, S: BuildHasher> OrderSet<T, S> {
    #[inline]
    pub fn get_index_of(&self, value: &T) -> Option<usize> {
        self.0.get_index_of(value)
    }

    pub fn insert(&mut self, value: T) -> bool {
        self.0.insert(value, ()).is_none()
    }
}

impl<T, S> OrderSet<T, S> {
    pub fn with_hasher(hasher: S) -> Self {
        Self(OrderMap::with_hasher(hasher))
    }

    pub fn len(&self) -> usize {
        self.0.len()
    }

    pub fn is_empty(&self) -> bool {
        self.0.is_empty()
    }

    pub fn iter(&self) -> impl Iterator<Item = &T> {
        self.0.iter().map(|(value, _)| value)
    }
}
