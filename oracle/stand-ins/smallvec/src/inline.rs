//! A list whose first entries stand in itself, up to the array's length; all go to the heap once there are more.

use core::mem::MaybeUninit;
use core::ops::{Deref, DerefMut};
use core::slice;

use crate::Array;

pub struct List<A: Array> {
    room: MaybeUninit<A>,
    /// The entries in `room`; none where `heap` is in use.
    inline: usize,
    heap: Vec<A::Item>,
}

impl<A: Array> List<A> {
    #[inline]
    pub fn new() -> Self {
        List { room: MaybeUninit::uninit(), inline: 0, heap: Vec::new() }
    }

    #[inline]
    fn first(&mut self) -> *mut A::Item {
        self.room.as_mut_ptr().cast()
    }

    #[inline]
    pub fn push(&mut self, value: A::Item) {
        if self.heap.is_empty() && self.inline < A::ROOM {
            // an array's entries lie one after the other, and this one is within it
            unsafe { self.first().add(self.inline).write(value) };
            self.inline += 1;
        } else {
            self.spill();
            self.heap.push(value);
        }
    }

    fn spill(&mut self) {
        for i in 0..self.inline {
            // each is read once: none counts as inline afterwards
            let value = unsafe { self.first().add(i).read() };
            self.heap.push(value);
        }
        self.inline = 0;
    }

    #[inline]
    pub fn pop(&mut self) -> Option<A::Item> {
        if self.inline == 0 {
            return self.heap.pop();
        }
        self.inline -= 1;
        Some(unsafe { self.first().add(self.inline).read() })
    }
}

impl<A: Array> Drop for List<A> {
    fn drop(&mut self) {
        while self.pop().is_some() {}
    }
}

impl<A: Array> Deref for List<A> {
    type Target = [A::Item];

    fn deref(&self) -> &[A::Item] {
        if self.inline == 0 {
            return &self.heap;
        }
        unsafe { slice::from_raw_parts(self.room.as_ptr().cast(), self.inline) }
    }
}

impl<A: Array> DerefMut for List<A> {
    fn deref_mut(&mut self) -> &mut [A::Item] {
        if self.inline == 0 {
            return &mut self.heap;
        }
        unsafe { slice::from_raw_parts_mut(self.room.as_mut_ptr().cast(), self.inline) }
    }
}

impl<A: Array> FromIterator<A::Item> for List<A> {
    fn from_iter<I: IntoIterator<Item = A::Item>>(items: I) -> Self {
        let mut list = List::new();
        for item in items {
            list.push(item);
        }
        list
    }
}

impl<A: Array> IntoIterator for List<A> {
    type Item = A::Item;
    type IntoIter = std::vec::IntoIter<A::Item>;

    fn into_iter(mut self) -> Self::IntoIter {
        self.spill();
        core::mem::take(&mut self.heap).into_iter()
    }
}
