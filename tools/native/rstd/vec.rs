//! Vectors whose growth answers as that of the kit does.

use crate::alloc::*;
use std::ops::{Deref, DerefMut};
use std::vec::Vec as V;
#[derive(Debug, PartialEq, Eq, Hash, PartialOrd, Ord)]
pub struct Vec<T>(pub V<T>);
type R<T> = Result<T, AllocError>;
impl<T> Vec<T> {
    pub fn new(_: Global) -> Self {
        Vec(V::new())
    }
    pub fn with_capacity(_: Global, n: usize) -> R<Self> {
        let mut v = V::new();
        v.try_reserve_exact(n).map_err(|_| AllocError)?;
        Ok(Vec(v))
    }
    #[cold]
    fn grow(&mut self, n: usize) -> R<()> {
        self.0.try_reserve(n).map_err(|_| AllocError)
    }
    #[inline]
    pub fn push(&mut self, t: T) -> R<()> {
        if self.0.len() == self.0.capacity() {
            self.grow(1)?;
        }
        self.0.push(t);
        Ok(())
    }
    pub fn pop(&mut self) -> Option<T> {
        self.0.pop()
    }
    pub fn insert(&mut self, i: usize, t: T) -> R<()> {
        self.grow(1)?;
        self.0.insert(i, t);
        Ok(())
    }
    pub fn remove(&mut self, i: usize) -> T {
        self.0.remove(i)
    }
    pub fn truncate(&mut self, n: usize) {
        self.0.truncate(n)
    }
    pub fn clear(&mut self) {
        self.0.clear()
    }
    pub fn len(&self) -> usize {
        self.0.len()
    }
    pub fn as_slice(&self) -> &[T] {
        &self.0
    }
    pub fn reserve(&mut self, n: usize) -> R<()> {
        self.grow(n)
    }
    pub fn capacity(&self) -> usize {
        self.0.capacity()
    }
    /// Sorts by a key; what has the same key stays in its order. With n items in m ascending runs, n log m.
    pub fn sort_by_key<K: Ord, F: FnMut(&T) -> K>(&mut self, mut f: F) -> R<()>
    where
        T: Copy,
    {
        if self.0.len() <= FEW {
            insertion_sort(&mut self.0, f);
            return Ok(());
        }
        let mut ends = ends_of_runs(&self.0, &mut f)?.0;
        let mut merged = Vec::with_capacity(Global, self.0.len())?.0;
        while ends.len() > 1 {
            merge_pairs(&self.0, &mut ends, &mut merged, &mut f);
            std::mem::swap(&mut self.0, &mut merged);
            merged.clear();
        }
        Ok(())
    }
    pub fn slice_mut(&mut self, r: std::ops::Range<usize>) -> &mut [T] {
        &mut self.0[r]
    }
    pub fn from_array<const N: usize>(alloc: Global, a: [T; N]) -> R<Self> {
        let mut v = Vec::with_capacity(alloc, N)?;
        v.0.extend(a);
        Ok(v)
    }
    /// Moves what is there to a smaller room, where one is given.
    pub fn shrink_to_fit(&mut self) {
        if let Ok(mut v) = Vec::with_capacity(Global, self.0.len()) {
            v.0.append(&mut self.0);
            self.0 = v.0;
        }
    }
    pub fn iter(&self) -> std::slice::Iter<'_, T> {
        self.0.iter()
    }
}
/// How many items are sorted without more memory.
const FEW: usize = 20;

fn insertion_sort<T, K: Ord>(items: &mut [T], mut f: impl FnMut(&T) -> K) {
    for end in 1..items.len() {
        let mut place = end;
        while place > 0 && f(&items[place - 1]) > f(&items[place]) {
            items.swap(place - 1, place);
            place -= 1;
        }
    }
}

/// The ends of the ascending runs that items are made of.
fn ends_of_runs<T, K: Ord>(items: &[T], f: &mut impl FnMut(&T) -> K) -> R<Vec<usize>> {
    let mut ends = Vec::new(Global);
    for place in 1..items.len() {
        if f(&items[place - 1]) > f(&items[place]) {
            ends.push(place)?;
        }
    }
    ends.push(items.len())?;
    Ok(ends)
}

/// Merges each two neighbouring runs into `merged`, which has room for all; `ends` becomes those of the runs there.
fn merge_pairs<T: Copy, K: Ord>(
    items: &[T],
    ends: &mut V<usize>,
    merged: &mut V<T>,
    f: &mut impl FnMut(&T) -> K,
) {
    let mut first = 0;
    for pair in 0..(ends.len() + 1) / 2 {
        let middle = ends[2 * pair];
        let last = *ends.get(2 * pair + 1).unwrap_or(&middle);
        let (mut left, mut right) = (first, middle);
        while left < middle && right < last {
            let at = if f(&items[right]) < f(&items[left]) {
                &mut right
            } else {
                &mut left
            };
            merged.push(items[*at]);
            *at += 1;
        }
        merged.extend_from_slice(&items[left..middle]);
        merged.extend_from_slice(&items[right..last]);
        ends[pair] = last;
        first = last;
    }
    ends.truncate((ends.len() + 1) / 2);
}
impl<T: Clone> Vec<T> {
    pub fn from_slice(alloc: Global, s: &[T]) -> R<Self> {
        let mut v = Vec::with_capacity(alloc, s.len())?;
        v.0.extend_from_slice(s);
        Ok(v)
    }
    pub fn from_elem(alloc: Global, t: T, n: usize) -> R<Self> {
        let mut v = Vec::with_capacity(alloc, n)?;
        v.0.resize(n, t);
        Ok(v)
    }
    pub fn resize(&mut self, n: usize, t: T) -> R<()> {
        self.grow(n.saturating_sub(self.0.len()))?;
        self.0.resize(n, t);
        Ok(())
    }
    pub fn extend_from_slice(&mut self, s: &[T]) -> R<()> {
        self.grow(s.len())?;
        self.0.extend_from_slice(s);
        Ok(())
    }
}
impl<T> Deref for Vec<T> {
    type Target = [T];
    #[inline]
    fn deref(&self) -> &[T] {
        &self.0
    }
}
impl<T> DerefMut for Vec<T> {
    #[inline]
    fn deref_mut(&mut self) -> &mut [T] {
        &mut self.0
    }
}
impl<T> IntoIterator for Vec<T> {
    type Item = T;
    type IntoIter = std::vec::IntoIter<T>;
    fn into_iter(self) -> Self::IntoIter {
        self.0.into_iter()
    }
}
impl<'a, T> IntoIterator for &'a Vec<T> {
    type Item = &'a T;
    type IntoIter = std::slice::Iter<'a, T>;
    fn into_iter(self) -> Self::IntoIter {
        self.0.iter()
    }
}
impl<'a, T> IntoIterator for &'a mut Vec<T> {
    type Item = &'a mut T;
    type IntoIter = std::slice::IterMut<'a, T>;
    fn into_iter(self) -> Self::IntoIter {
        self.0.iter_mut()
    }
}
impl std::borrow::Borrow<[u8]> for Vec<u8> {
    fn borrow(&self) -> &[u8] {
        &self.0
    }
}
