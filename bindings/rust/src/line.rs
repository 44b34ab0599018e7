//! Points that make no triangle.

use std::fmt;

use crate::rows::Rows;

/// Points that make no triangle: several on one line, all at one place, or none. Each vertex is joined to the next in the order of x, then y.
///
/// Its links are a mesh's as far as they go: every half-edge is in face 0, and where the line ends next is the reverse. No call but a bulk
/// load knows lines: to go on, load all points again with the new ones.
#[derive(Clone, PartialEq, Eq)]
pub struct Line {
    pub(crate) rows: Rows,
}

impl Line {
    pub fn vertex_count(&self) -> usize {
        self.rows.counts.vertices as usize
    }

    /// One less than there are vertices; 0 where there is none.
    pub fn edge_count(&self) -> usize {
        self.rows.counts.edges as usize
    }

    pub fn positions(&self) -> &[[i32; 2]] {
        self.rows.positions()
    }

    /// The height of each vertex.
    pub fn heights(&self) -> &[i32] {
        self.rows.heights()
    }

    /// An out edge of each vertex; 0 where there is one alone, and no edge.
    pub fn outs(&self) -> &[u32] {
        self.rows.outs()
    }

    /// Next, prev, face and origin of each half-edge.
    pub fn halves(&self) -> &[[u32; 4]] {
        self.rows.halves()
    }

    /// A half-edge of the outer face, the only one: 0. Empty where there is no vertex.
    pub fn adjacent(&self) -> &[u32] {
        self.rows.adjacent()
    }

    /// The vertices along the line, in the order of x, then y.
    pub fn order(&self) -> Vec<u32> {
        let halves = self.halves();
        if halves.is_empty() {
            return (0..self.rows.counts.vertices).collect();
        }
        let next = |e: u32| halves[e as usize][0];
        let mut e = 0;
        while next(e) != e ^ 1 {
            e = next(e);
        }
        // from the end of the line that e leads to, back along it
        let along = std::iter::successors(Some(e ^ 1), |&e| Some(next(e)));
        let mut order: Vec<u32> = along.take(self.vertex_count()).map(|e| halves[e as usize][3]).collect();
        let at = |v: &u32| self.positions()[*v as usize];
        if order.first().map(at) > order.last().map(at) {
            order.reverse();
        }
        order
    }
}

impl fmt::Debug for Line {
    fn fmt(&self, f: &mut fmt::Formatter<'_>) -> fmt::Result {
        write!(f, "Line({} vertices)", self.vertex_count())
    }
}
