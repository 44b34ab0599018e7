//! `SmallVec` as spade uses it: a growing list. The inline capacity is not kept, but with the feature `inline`, for benchmarks.

use core::ops::{Deref, DerefMut};

#[cfg(feature = "inline")]
mod inline;

#[cfg(feature = "inline")]
use inline::List;

#[cfg(not(feature = "inline"))]
type List<A> = Vec<<A as Array>::Item>;

pub trait Array {
    type Item;
    const ROOM: usize;
}

impl<T, const N: usize> Array for [T; N] {
    type Item = T;
    const ROOM: usize = N;
}

pub struct SmallVec<A: Array>(List<A>);

impl<A: Array> SmallVec<A> {
    pub fn push(&mut self, value: A::Item) {
        self.0.push(value)
    }

    pub fn pop(&mut self) -> Option<A::Item> {
        self.0.pop()
    }
}

impl<A: Array> Default for SmallVec<A> {
    fn default() -> Self {
        SmallVec(List::<A>::new())
    }
}

impl<A: Array> Deref for SmallVec<A> {
    type Target = [A::Item];
    fn deref(&self) -> &[A::Item] {
        &self.0
    }
}

impl<A: Array> DerefMut for SmallVec<A> {
    fn deref_mut(&mut self) -> &mut [A::Item] {
        &mut self.0
    }
}

impl<A: Array> FromIterator<A::Item> for SmallVec<A> {
    fn from_iter<I: IntoIterator<Item = A::Item>>(items: I) -> Self {
        SmallVec(items.into_iter().collect())
    }
}

impl<A: Array> IntoIterator for SmallVec<A> {
    type Item = A::Item;
    type IntoIter = std::vec::IntoIter<A::Item>;
    fn into_iter(self) -> Self::IntoIter {
        self.0.into_iter()
    }
}
