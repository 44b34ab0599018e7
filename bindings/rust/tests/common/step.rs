//! A step through its export, and a mesh on which one needs more pending entries than the least row has.

use fithmoul::sys::{self, StepResult};
use fithmoul::{Mesh, Point};

use crate::common::of_triangles;
use crate::rows::Rows;

impl Rows {
    pub fn step(&mut self, [cx, cy]: [f64; 2], [x, y, z]: Point) -> StepResult {
        let [v, e, f] = self.counts;
        let Rows { positions, heights, outs, halves, adjacent, nodes, freed, buckets, pending, .. } = self;
        unsafe {
            sys::fithmoul_step(
                v,
                e,
                f,
                positions.as_mut_ptr(),
                positions.len(),
                heights.as_mut_ptr(),
                heights.len(),
                outs.as_mut_ptr(),
                outs.len(),
                halves.as_mut_ptr(),
                halves.len(),
                adjacent.as_mut_ptr(),
                adjacent.len(),
                nodes.as_mut_ptr(),
                nodes.len(),
                freed.as_mut_ptr(),
                freed.len(),
                buckets.as_mut_ptr(),
                buckets.len(),
                pending.as_mut_ptr(),
                pending.len(),
                cx,
                cy,
                x,
                y,
                z,
            )
        }
    }
}

/// A fan about (0, 0) to points on a vertical line. The point (1, -1) is inside all its circles, so that all inner edges flip, and the pending list grows to
/// one more than there are triangles.
pub fn flat_fan(triangles: u32) -> Mesh {
    let line = (0..=triangles as i32).map(|i| [100, i, i - 4]);
    let points: Vec<Point> = [[0, 0, 9]].into_iter().chain(line).collect();
    let all: Vec<[u32; 3]> = (0..triangles).map(|i| [0, i + 1, i + 2]).collect();
    of_triangles(&points, &all)
}

pub const CENTER: [f64; 2] = [70.0, 3.0];
