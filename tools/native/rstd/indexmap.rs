//! Sets of names in order.

use crate::alloc::*;
use crate::vec::Vec;
use std::collections::HashMap;
pub struct IndexSet<T> {
    places: HashMap<std::vec::Vec<u8>, usize>,
    list: Vec<T>,
}
impl IndexSet<Vec<u8>> {
    pub fn new(alloc: Global) -> Self {
        IndexSet {
            places: HashMap::new(),
            list: Vec::new(alloc),
        }
    }
    pub fn len(&self) -> usize {
        self.list.len()
    }
    pub fn get_index_of(&self, n: &[u8]) -> Option<usize> {
        self.places.get(n).copied()
    }
    pub fn get_index(&self, i: usize) -> Option<&[u8]> {
        self.list.get(i).map(|v| &v[..])
    }
    pub fn contains(&self, n: &[u8]) -> bool {
        self.places.contains_key(n)
    }
    pub fn insert(&mut self, n: Vec<u8>) -> Result<bool, AllocError> {
        if self.contains(&n) {
            return Ok(false);
        }
        let key = Vec::from_slice(Global, &n)?.0;
        self.places.try_reserve(1).map_err(|_| AllocError)?;
        self.list.push(n)?;
        self.places.insert(key, self.list.len() - 1);
        Ok(true)
    }
}
