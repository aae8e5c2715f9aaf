//! Sets of numbers. The code doesn't ask for their order, so they are kept without.

use crate::alloc::*;
use std::collections::HashSet;
use std::hash::Hash;
pub struct BTreeSet<T>(HashSet<T>);
impl<T: Eq + Hash> BTreeSet<T> {
    pub fn new(_: Global) -> Self {
        BTreeSet(HashSet::new())
    }
    pub fn insert(&mut self, t: T) -> Result<bool, AllocError> {
        self.0.try_reserve(1).map_err(|_| AllocError)?;
        Ok(self.0.insert(t))
    }
    pub fn contains(&self, t: &T) -> bool {
        self.0.contains(t)
    }
    pub fn clear(&mut self) {
        self.0.clear()
    }
}
