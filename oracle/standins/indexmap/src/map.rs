//! Entries stand in a vector; a table of open addressing holds their indices.

use std::borrow::Borrow;
use std::hash::{BuildHasher, Hash, RandomState};

const FREE: u32 = u32::MAX;

#[derive(Clone)]
struct Bucket<K, V> {
    hash: u64,
    key: K,
    value: V,
}

/// The table's length is 0 or a power of two, at least twice the entries.
#[derive(Clone)]
pub struct IndexMap<K, V> {
    entries: Vec<Bucket<K, V>>,
    table: Vec<u32>,
    hasher: RandomState,
}

impl<K, V> IndexMap<K, V> {
    pub fn new() -> Self {
        IndexMap { entries: Vec::new(), table: Vec::new(), hasher: RandomState::new() }
    }

    pub fn len(&self) -> usize {
        self.entries.len()
    }

    pub fn is_empty(&self) -> bool {
        self.entries.is_empty()
    }

    pub fn keys(&self) -> Keys<'_, K, V> {
        Keys(self.entries.iter())
    }

    pub fn iter(&self) -> Iter<'_, K, V> {
        Iter(self.entries.iter())
    }

    fn grow(&mut self) {
        let length = (self.table.len() * 2).max(8);
        self.table.clear();
        self.table.resize(length, FREE);
        for (index, bucket) in self.entries.iter().enumerate() {
            let mut slot = bucket.hash as usize & (length - 1);
            while self.table[slot] != FREE {
                slot = (slot + 1) & (length - 1);
            }
            self.table[slot] = index as u32;
        }
    }

    fn push(&mut self, hash: u64, key: K, value: V) -> usize {
        if (self.entries.len() + 1) * 2 > self.table.len() {
            self.grow();
        }
        let mask = self.table.len() - 1;
        let mut slot = hash as usize & mask;
        while self.table[slot] != FREE {
            slot = (slot + 1) & mask;
        }
        let index = self.entries.len();
        self.table[slot] = index as u32;
        self.entries.push(Bucket { hash, key, value });
        index
    }
}

impl<K: Hash + Eq, V> IndexMap<K, V> {
    fn find<Q>(&self, hash: u64, key: &Q) -> Option<usize>
    where
        K: Borrow<Q>,
        Q: ?Sized + Hash + Eq,
    {
        if self.table.is_empty() {
            return None;
        }
        let mask = self.table.len() - 1;
        let mut slot = hash as usize & mask;
        while self.table[slot] != FREE {
            let index = self.table[slot] as usize;
            let bucket = &self.entries[index];
            if bucket.hash == hash && bucket.key.borrow() == key {
                return Some(index);
            }
            slot = (slot + 1) & mask;
        }
        None
    }

    pub fn get<Q>(&self, key: &Q) -> Option<&V>
    where
        K: Borrow<Q>,
        Q: ?Sized + Hash + Eq,
    {
        let index = self.find(self.hasher.hash_one(key), key)?;
        Some(&self.entries[index].value)
    }

    pub fn contains_key<Q>(&self, key: &Q) -> bool
    where
        K: Borrow<Q>,
        Q: ?Sized + Hash + Eq,
    {
        self.get(key).is_some()
    }

    pub fn insert(&mut self, key: K, value: V) -> Option<V> {
        let hash = self.hasher.hash_one(&key);
        match self.find(hash, &key) {
            Some(index) => Some(std::mem::replace(&mut self.entries[index].value, value)),
            None => {
                self.push(hash, key, value);
                None
            }
        }
    }

    pub fn entry(&mut self, key: K) -> Entry<'_, K, V> {
        let hash = self.hasher.hash_one(&key);
        match self.find(hash, &key) {
            Some(index) => Entry::Occupied(OccupiedEntry { map: self, index }),
            None => Entry::Vacant(VacantEntry { map: self, hash, key }),
        }
    }
}

pub enum Entry<'a, K, V> {
    Occupied(OccupiedEntry<'a, K, V>),
    Vacant(VacantEntry<'a, K, V>),
}

pub struct OccupiedEntry<'a, K, V> {
    map: &'a mut IndexMap<K, V>,
    index: usize,
}

impl<K, V> OccupiedEntry<'_, K, V> {
    pub fn get_mut(&mut self) -> &mut V {
        &mut self.map.entries[self.index].value
    }
}

pub struct VacantEntry<'a, K, V> {
    map: &'a mut IndexMap<K, V>,
    hash: u64,
    key: K,
}

impl<'a, K, V> VacantEntry<'a, K, V> {
    pub fn insert(self, value: V) -> &'a mut V {
        let index = self.map.push(self.hash, self.key, value);
        &mut self.map.entries[index].value
    }
}

pub struct Keys<'a, K, V>(std::slice::Iter<'a, Bucket<K, V>>);

impl<'a, K, V> Iterator for Keys<'a, K, V> {
    type Item = &'a K;

    fn next(&mut self) -> Option<Self::Item> {
        self.0.next().map(|bucket| &bucket.key)
    }
}

pub struct Iter<'a, K, V>(std::slice::Iter<'a, Bucket<K, V>>);

impl<'a, K, V> Iterator for Iter<'a, K, V> {
    type Item = (&'a K, &'a V);

    fn next(&mut self) -> Option<Self::Item> {
        self.0.next().map(|bucket| (&bucket.key, &bucket.value))
    }
}

impl<'a, K, V> IntoIterator for &'a IndexMap<K, V> {
    type Item = (&'a K, &'a V);
    type IntoIter = Iter<'a, K, V>;

    fn into_iter(self) -> Self::IntoIter {
        self.iter()
    }
}
