//! Stand-in for map.rs: one map that keeps its order, one that has none.

pub(crate) use std::collections::hash_map::Entry;

use crate::syntax::set::UnorderedSet;
use indexmap::IndexMap;
use std::borrow::Borrow;
use std::collections::HashMap;
use std::hash::Hash;
use std::ops::Index;

pub(crate) struct OrderedMap<K, V>(IndexMap<K, V>);

impl<K, V> OrderedMap<K, V> {
    pub(crate) fn new() -> Self {
        OrderedMap(IndexMap::new())
    }

    pub(crate) fn keys(&self) -> indexmap::map::Keys<'_, K, V> {
        self.0.keys()
    }
}

impl<K: Hash + Eq, V> OrderedMap<K, V> {
    pub(crate) fn insert(&mut self, key: K, value: V) -> Option<V> {
        self.0.insert(key, value)
    }

    pub(crate) fn contains_key<Q>(&self, key: &Q) -> bool
    where
        K: Borrow<Q>,
        Q: ?Sized + Hash + Eq,
    {
        self.0.contains_key(key)
    }

    pub(crate) fn entry(&mut self, key: K) -> indexmap::map::Entry<'_, K, V> {
        self.0.entry(key)
    }
}

impl<'a, K, V> IntoIterator for &'a OrderedMap<K, V> {
    type Item = (&'a K, &'a V);
    type IntoIter = indexmap::map::Iter<'a, K, V>;

    fn into_iter(self) -> Self::IntoIter {
        self.0.iter()
    }
}

pub(crate) struct UnorderedMap<K, V>(HashMap<K, V>);

impl<K, V> UnorderedMap<K, V> {
    pub(crate) fn new() -> Self {
        UnorderedMap(HashMap::new())
    }
}

impl<K: Hash + Eq, V> UnorderedMap<K, V> {
    pub(crate) fn insert(&mut self, key: K, value: V) -> Option<V> {
        self.0.insert(key, value)
    }

    pub(crate) fn contains_key<Q>(&self, key: &Q) -> bool
    where
        K: Borrow<Q>,
        Q: ?Sized + Hash + Eq,
    {
        self.0.contains_key(key)
    }

    pub(crate) fn get<Q>(&self, key: &Q) -> Option<&V>
    where
        K: Borrow<Q>,
        Q: ?Sized + Hash + Eq,
    {
        self.0.get(key)
    }

    pub(crate) fn entry(&mut self, key: K) -> Entry<'_, K, V> {
        self.0.entry(key)
    }

    pub(crate) fn keys(&self) -> UnorderedSet<K>
    where
        K: Copy,
    {
        let mut set = UnorderedSet::new();
        for key in self.0.keys() {
            set.insert(*key);
        }
        set
    }
}

impl<K, Q, V> Index<&Q> for UnorderedMap<K, V>
where
    K: Borrow<Q> + Hash + Eq,
    Q: ?Sized + Hash + Eq,
{
    type Output = V;

    fn index(&self, key: &Q) -> &V {
        &self.0[key]
    }
}
