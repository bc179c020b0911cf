//! Stand-in for `vec_map`: values by small whole keys, walked from the lowest key up.

use std::collections::BTreeMap;

#[derive(Debug)]
pub struct VecMap<V>(BTreeMap<usize, V>);

impl<V> VecMap<V> {
    pub fn with_capacity(_capacity: usize) -> Self {
        VecMap(BTreeMap::new())
    }

    pub fn insert(&mut self, key: usize, value: V) -> Option<V> {
        self.0.insert(key, value)
    }

    pub fn remove(&mut self, key: usize) -> Option<V> {
        self.0.remove(&key)
    }

    pub fn get(&self, key: usize) -> Option<&V> {
        self.0.get(&key)
    }

    pub fn values(&self) -> impl Iterator<Item = &V> {
        self.0.values()
    }

    pub fn iter(&self) -> impl Iterator<Item = (usize, &V)> {
        self.0.iter().map(|(key, value)| (*key, value))
    }
}
