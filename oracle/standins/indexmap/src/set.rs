//! A set is a map to nothing.

use crate::map::{IndexMap, Keys};
use std::hash::Hash;

#[derive(Clone)]
pub struct IndexSet<T>(IndexMap<T, ()>);

pub type Iter<'a, T> = Keys<'a, T, ()>;

impl<T> IndexSet<T> {
    pub fn new() -> Self {
        IndexSet(IndexMap::new())
    }

    pub fn len(&self) -> usize {
        self.0.len()
    }

    pub fn is_empty(&self) -> bool {
        self.0.is_empty()
    }

    pub fn iter(&self) -> Iter<'_, T> {
        self.0.keys()
    }
}

impl<T: Hash + Eq> IndexSet<T> {
    pub fn insert(&mut self, value: T) -> bool {
        self.0.insert(value, ()).is_none()
    }
}

impl<T: Hash + Eq> Extend<T> for IndexSet<T> {
    fn extend<I: IntoIterator<Item = T>>(&mut self, values: I) {
        for value in values {
            self.insert(value);
        }
    }
}

impl<'a, T> IntoIterator for &'a IndexSet<T> {
    type Item = &'a T;
    type IntoIter = Iter<'a, T>;

    fn into_iter(self) -> Self::IntoIter {
        self.iter()
    }
}
