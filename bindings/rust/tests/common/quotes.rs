//! An ask and a commit through their exports.

use fithmoul::sys::{self, AskResult, CommitResult, Quote};
use fithmoul::Point;

use crate::rows::Rows;

impl Rows {
    pub fn ask(&mut self, [cx, cy]: [f64; 2], [x, y, z]: Point) -> AskResult {
        let [v, e, f] = self.counts;
        let Rows { positions, heights, outs, halves, adjacent, nodes, freed, buckets, .. } = self;
        unsafe {
            sys::fithmoul_ask(
                v,
                e,
                f,
                self.changes,
                positions.as_ptr(),
                positions.len(),
                heights.as_ptr(),
                heights.len(),
                outs.as_ptr(),
                outs.len(),
                halves.as_ptr(),
                halves.len(),
                adjacent.as_ptr(),
                adjacent.len(),
                nodes.as_mut_ptr(),
                nodes.len(),
                freed.as_mut_ptr(),
                freed.len(),
                buckets.as_mut_ptr(),
                buckets.len(),
                cx,
                cy,
                x,
                y,
                z,
            )
        }
    }

    pub fn commit(&mut self, [cx, cy]: [f64; 2], [x, y, z]: Point, quote: Quote) -> CommitResult {
        let [v, e, f] = self.counts;
        let Rows { positions, heights, outs, halves, adjacent, nodes, freed, buckets, pending, .. } = self;
        unsafe {
            sys::fithmoul_commit(
                v,
                e,
                f,
                self.changes,
                positions.as_mut_ptr(),
                positions.len(),
                heights.as_mut_ptr(),
                heights.len(),
                outs.as_mut_ptr(),
                outs.len(),
                halves.as_mut_ptr(),
                halves.len(),
                adjacent.as_mut_ptr(),
                adjacent.len(),
                nodes.as_mut_ptr(),
                nodes.len(),
                freed.as_mut_ptr(),
                freed.len(),
                buckets.as_mut_ptr(),
                buckets.len(),
                pending.as_mut_ptr(),
                pending.len(),
                cx,
                cy,
                x,
                y,
                z,
                quote,
            )
        }
    }
}
