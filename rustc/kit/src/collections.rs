//! `BTreeMap`, with two levels. Rust's own can't report that it was refused memory.

use crate::alloc::{AllocError, Global};
use crate::vec::Vec;
use ::std::iter::Flatten;
use ::std::slice::Iter as Rows;

/// A leaf is cut in two when it has as many entries.
const FULL: usize = 512;

type Leaf<K, V> = Vec<(K, V)>;

/// Leaves in the order of their keys. No leaf is empty.
pub struct BTreeMap<K, V> {
    leaves: Vec<Leaf<K, V>>,
}

/// The entries in the order of their keys.
pub struct Iter<'a, K, V>(Flatten<Rows<'a, Leaf<K, V>>>);

impl<'a, K, V> Iterator for Iter<'a, K, V> {
    type Item = (&'a K, &'a V);

    fn next(&mut self) -> Option<(&'a K, &'a V)> {
        self.0.next().map(|(key, value)| (key, value))
    }
}

impl<K: Ord, V> BTreeMap<K, V> {
    pub fn new(alloc: Global) -> BTreeMap<K, V> {
        BTreeMap { leaves: Vec::new(alloc) }
    }

    /// The only leaf that may have the key: the last that doesn't begin above it.
    fn leaf_for(&self, key: &K) -> usize {
        self.leaves.partition_point(|leaf| leaf[0].0 <= *key).saturating_sub(1)
    }

    pub fn get(&self, key: &K) -> Option<&V> {
        let leaf = self.leaves.get(self.leaf_for(key))?;
        let at = leaf.binary_search_by(|entry| entry.0.cmp(key)).ok()?;
        Some(&leaf[at].1)
    }

    pub fn insert(&mut self, key: K, value: V) -> Result<Option<V>, AllocError> {
        if self.leaves.is_empty() {
            self.leaves.push(Vec::from_array(Global, [(key, value)])?)?;
            return Ok(None);
        }
        let number = self.leaf_for(&key);
        let leaf = &mut self.leaves[number];
        match leaf.binary_search_by(|entry| entry.0.cmp(&key)) {
            Ok(at) => return Ok(Some(::std::mem::replace(&mut leaf[at].1, value))),
            Err(at) => leaf.insert(at, (key, value))?,
        }
        if leaf.len() < FULL {
            return Ok(None);
        }
        self.leaves.reserve(1)?;
        let rest = self.leaves[number].split_off(FULL / 2)?;
        self.leaves.insert(number + 1, rest)?;
        Ok(None)
    }
}

impl<K, V> BTreeMap<K, V> {
    pub fn len(&self) -> usize {
        self.leaves.iter().map(|leaf| leaf.len()).sum()
    }

    pub fn iter(&self) -> Iter<'_, K, V> {
        Iter(self.leaves.iter().flatten())
    }
}

impl<'a, K, V> IntoIterator for &'a BTreeMap<K, V> {
    type Item = (&'a K, &'a V);
    type IntoIter = Iter<'a, K, V>;

    fn into_iter(self) -> Iter<'a, K, V> {
        self.iter()
    }
}
