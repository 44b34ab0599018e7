//! Rows of given lengths through the exports: a pending row that is too short, and what is left in every entry.

use fithmoul::sys::{self, Node, RunResult};
use fithmoul::{Mesh, Point};

/// Past the counts, where nothing may be written.
pub const PAST: i32 = 77;

/// A mesh's rows with room for some vertices more, and a pending row of a given length.
#[derive(Clone, Debug, PartialEq)]
pub struct Rows {
    pub counts: [u32; 3],
    pub changes: u32,
    pub positions: Vec<i32>,
    pub heights: Vec<i32>,
    pub outs: Vec<u32>,
    pub halves: Vec<u32>,
    pub adjacent: Vec<u32>,
    pub pending: Vec<u32>,
    pub nodes: Vec<Node>,
    pub freed: Vec<u32>,
    pub buckets: Vec<u32>,
}

pub fn rows_of(mesh: &Mesh, more: usize, pending: usize) -> Rows {
    fn longer<T: Copy>(row: &[T], length: usize, past: T) -> Vec<T> {
        row.iter().copied().chain(std::iter::repeat(past)).take(length).collect()
    }
    let n = mesh.vertex_count() + more;
    Rows {
        counts: [mesh.vertex_count(), mesh.edge_count(), mesh.face_count()].map(|c| c as u32),
        changes: mesh.change_count(),
        positions: longer(mesh.positions().as_flattened(), 2 * n, PAST),
        heights: longer(mesh.heights(), n, PAST),
        outs: longer(mesh.outs(), n, 7),
        halves: longer(mesh.halves().as_flattened(), 24 * n, 7),
        adjacent: longer(mesh.adjacent(), 2 * n, 7),
        pending: vec![7; pending],
        nodes: vec![Node::default(); n + 1],
        freed: vec![7; n + 1],
        buckets: vec![7; n.max(16)],
    }
}

impl Rows {
    pub fn run(&mut self, [cx, cy]: [f64; 2], points: &[Point], answers: &mut [u64]) -> RunResult {
        let [v, e, f] = self.counts;
        let flat: Vec<i32> = points.iter().flat_map(|p| [p[0], p[1]]).collect();
        let point_heights: Vec<i32> = points.iter().map(|p| p[2]).collect();
        let Rows { positions, heights, outs, halves, adjacent, nodes, freed, buckets, pending, .. } = self;
        unsafe {
            sys::fithmoul_run(
                v,
                e,
                f,
                self.changes,
                positions.as_mut_ptr(),
                positions.len(),
                heights.as_mut_ptr(),
                heights.len(),
                outs.as_mut_ptr(),
                outs.len(),
                halves.as_mut_ptr(),
                halves.len(),
                adjacent.as_mut_ptr(),
                adjacent.len(),
                nodes.as_mut_ptr(),
                nodes.len(),
                freed.as_mut_ptr(),
                freed.len(),
                buckets.as_mut_ptr(),
                buckets.len(),
                pending.as_mut_ptr(),
                pending.len(),
                answers.as_mut_ptr(),
                answers.len(),
                cx,
                cy,
                flat.as_ptr(),
                flat.len(),
                point_heights.as_ptr(),
                point_heights.len(),
            )
        }
    }
}
