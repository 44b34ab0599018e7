//! The row of half-edges, from the start of a cache line on.

use std::ops::{Deref, DerefMut};

/// A half-edge: next, prev, face and origin.
type Entry = [u32; 4];

/// The bytes of a processor's cache line, which holds two edges.
const LINE: usize = 64;

/// So many entries may stand before the first.
const MOST_SKIPPED: usize = LINE / std::mem::size_of::<Entry>() - 1;

/// A row of half-edges. What a C library hands out starts 16 bytes past a line, and then every other edge would have its two halves in two
/// lines: in a mesh larger than the processor's caches each of them waits for memory.
#[derive(Default)]
pub struct HalfEdges {
    row: Vec<Entry>,
    first: usize,
    length: usize,
}

impl HalfEdges {
    /// A row of zeros that nobody touches before it is used.
    pub fn zeros(length: usize) -> HalfEdges {
        let row = vec![[0; 4]; length + MOST_SKIPPED];
        // an address that no whole number of entries takes to a line's start is left as it is
        let first = match row.as_ptr().align_offset(LINE) {
            skipped @ 0..=MOST_SKIPPED => skipped,
            _ => 0,
        };
        HalfEdges { row, first, length }
    }

    /// These, and zeros up to a length that is not below theirs.
    pub fn with(entries: &[Entry], length: usize) -> HalfEdges {
        let mut row = HalfEdges::zeros(length);
        row[..entries.len()].copy_from_slice(entries);
        row
    }
}

impl Clone for HalfEdges {
    fn clone(&self) -> HalfEdges {
        HalfEdges::with(self, self.length)
    }
}

impl Deref for HalfEdges {
    type Target = [Entry];

    fn deref(&self) -> &[Entry] {
        &self.row[self.first..self.first + self.length]
    }
}

impl DerefMut for HalfEdges {
    fn deref_mut(&mut self) -> &mut [Entry] {
        &mut self.row[self.first..self.first + self.length]
    }
}

#[cfg(test)]
mod tests {
    use super::*;

    #[test]
    fn both_halves_of_an_edge_are_in_one_line() {
        for length in [6, 7, 600, 600_000] {
            let row = HalfEdges::zeros(length);
            assert_eq!(row.len(), length);
            assert_eq!(row.as_ptr() as usize % LINE, 0, "{length} half-edges");
            assert!(row.iter().all(|e| *e == [0; 4]));
        }
    }

    #[test]
    fn what_is_put_in_stays() {
        let entries: Vec<Entry> = (0..10).map(|k| [k, k + 1, k + 2, k + 3]).collect();
        let row = HalfEdges::with(&entries, 13).clone();
        assert_eq!(row[..10], entries);
        assert_eq!(row[10..], [[0; 4]; 3]);
        assert!(HalfEdges::default().clone().is_empty());
    }
}
