//! A bulk load through its export, on rows that hold anything.

use fithmoul::sys::{self, BulkLoadResult, Node};
use fithmoul::Point;

use crate::rows::{Rows, PAST};

/// A node that a call must not rely on.
pub const NOISE: Node = Node { angle: 7.0, edge: 7, left: 7, right: 7 };

/// Rows for so many points, as short as they may be, with what no call may rely on in every entry.
pub fn rows_for(points: usize, pending: usize) -> Rows {
    let n = points;
    Rows {
        counts: [0; 3],
        changes: 0,
        positions: vec![PAST; 2 * n],
        heights: vec![PAST; n],
        outs: vec![7; n],
        halves: vec![7; 24 * n],
        adjacent: vec![7; 2 * n],
        pending: vec![7; pending],
        nodes: vec![NOISE; n + 1],
        freed: vec![7; n + 1],
        buckets: vec![7; n.max(16)],
    }
}

/// x and y of each point, and their heights.
pub fn split(points: &[Point]) -> (Vec<i32>, Vec<i32>) {
    (points.iter().flat_map(|p| [p[0], p[1]]).collect(), points.iter().map(|p| p[2]).collect())
}

impl Rows {
    pub fn bulk_load(
        &mut self,
        points: &[i32],
        point_heights: &[i32],
        answers: &mut [u64],
    ) -> BulkLoadResult {
        let Rows { positions, heights, outs, halves, adjacent, nodes, freed, buckets, pending, .. } = self;
        unsafe {
            sys::fithmoul_bulk_load(
                positions.as_mut_ptr(),
                positions.len(),
                heights.as_mut_ptr(),
                heights.len(),
                outs.as_mut_ptr(),
                outs.len(),
                halves.as_mut_ptr(),
                halves.len(),
                adjacent.as_mut_ptr(),
                adjacent.len(),
                nodes.as_mut_ptr(),
                nodes.len(),
                freed.as_mut_ptr(),
                freed.len(),
                buckets.as_mut_ptr(),
                buckets.len(),
                pending.as_mut_ptr(),
                pending.len(),
                answers.as_mut_ptr(),
                answers.len(),
                points.as_ptr(),
                points.len(),
                point_heights.as_ptr(),
                point_heights.len(),
            )
        }
    }
}
