//! Stand-in for `hashbrown`: `HashTable` with `new` and `entry(..).or_insert_with(..).get()`, by linear probing.

#[derive(Debug, Clone)]
pub struct HashTable<T> {
    slots: Vec<Option<(u64, T)>>, // a power of two, at most half of it in use
    len: usize,
}

impl<T> Default for HashTable<T> {
    fn default() -> Self { Self::new() }
}

impl<T> HashTable<T> {
    pub const fn new() -> Self {
        HashTable { slots: Vec::new(), len: 0 }
    }

    pub fn len(&self) -> usize { self.len }
    pub fn is_empty(&self) -> bool { self.len == 0 }

    fn grow(&mut self) {
        let size = (self.slots.len() * 2).max(16);
        let old = std::mem::take(&mut self.slots);
        self.slots.resize_with(size, || None);
        for (hash, value) in old.into_iter().flatten() {
            let mut at = hash as usize & (size - 1);
            while self.slots[at].is_some() { at = (at + 1) & (size - 1); }
            self.slots[at] = Some((hash, value));
        }
    }

    /// The third argument is the original's: hashes are kept here, so growing never asks for them again.
    pub fn entry(
        &mut self,
        hash: u64,
        mut eq: impl FnMut(&T) -> bool,
        _hasher: impl Fn(&T) -> u64,
    ) -> Entry<'_, T> {
        if 2 * (self.len + 1) > self.slots.len() { self.grow(); }
        let mask = self.slots.len() - 1;
        let mut at = hash as usize & mask;
        loop {
            match &self.slots[at] {
                None => return Entry { table: self, at, hash, vacant: true },
                Some((h, value)) if *h == hash && eq(value) => {
                    return Entry { table: self, at, hash, vacant: false };
                }
                Some(_) => at = (at + 1) & mask,
            }
        }
    }
}

pub struct Entry<'a, T> {
    table: &'a mut HashTable<T>,
    at: usize,
    hash: u64,
    vacant: bool,
}

impl<'a, T> Entry<'a, T> {
    pub fn or_insert_with(self, make: impl FnOnce() -> T) -> OccupiedEntry<'a, T> {
        if self.vacant {
            self.table.slots[self.at] = Some((self.hash, make()));
            self.table.len += 1;
        }
        OccupiedEntry { table: self.table, at: self.at }
    }
}

pub struct OccupiedEntry<'a, T> {
    table: &'a mut HashTable<T>,
    at: usize,
}

impl<T> OccupiedEntry<'_, T> {
    pub fn get(&self) -> &T {
        &self.table.slots[self.at].as_ref().unwrap().1
    }
}
