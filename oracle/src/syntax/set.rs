//! Stand-in for set.rs: one set that keeps its order, one that has none.

use indexmap::IndexSet;
use std::borrow::Borrow;
use std::collections::HashSet;
use std::hash::Hash;

pub(crate) struct OrderedSet<T>(IndexSet<T>);

impl<T> OrderedSet<T> {
    pub(crate) fn new() -> Self {
        OrderedSet(IndexSet::new())
    }

    pub(crate) fn is_empty(&self) -> bool {
        self.0.is_empty()
    }

    pub(crate) fn iter(&self) -> indexmap::set::Iter<'_, T> {
        self.0.iter()
    }
}

impl<'a, T: ?Sized + Hash + Eq> OrderedSet<&'a T> {
    pub(crate) fn insert(&mut self, value: &'a T) -> bool {
        self.0.insert(value)
    }
}

impl<'s, 'a, T: ?Sized> IntoIterator for &'s OrderedSet<&'a T> {
    type Item = &'a T;
    type IntoIter = std::iter::Copied<indexmap::set::Iter<'s, &'a T>>;

    fn into_iter(self) -> Self::IntoIter {
        self.0.iter().copied()
    }
}

impl<'a, T: ?Sized> IntoIterator for OrderedSet<&'a T> {
    type Item = &'a T;
    type IntoIter = std::vec::IntoIter<&'a T>;

    fn into_iter(self) -> Self::IntoIter {
        self.0.iter().copied().collect::<Vec<_>>().into_iter()
    }
}

pub(crate) struct UnorderedSet<T>(HashSet<T>);

impl<T> UnorderedSet<T> {
    pub(crate) fn new() -> Self {
        UnorderedSet(HashSet::new())
    }
}

impl<T: Hash + Eq> UnorderedSet<T> {
    pub(crate) fn insert(&mut self, value: T) -> bool {
        self.0.insert(value)
    }

    pub(crate) fn contains<Q>(&self, value: &Q) -> bool
    where
        T: Borrow<Q>,
        Q: ?Sized + Hash + Eq,
    {
        self.0.contains(value)
    }

    pub(crate) fn retain(&mut self, keep: impl FnMut(&T) -> bool) {
        self.0.retain(keep);
    }
}
