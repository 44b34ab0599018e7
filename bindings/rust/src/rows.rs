//! The rows that the library works on, and the calls, all but one on them. Every pointer and length comes from a vector, so what C cannot check holds.

use std::alloc::{self, Layout};

use crate::half_edges::HalfEdges;
use crate::refusal::Refusal;
use crate::sys::{self, AreaTotalResult, AskResult, BulkLoadResult, CheckResult, CommitResult, FinishResult};
use crate::sys::{LocateResult, Node, RunResult, SideQueryResult, StepResult, VolumeResult};
use crate::{Answer, Point, MOST_VERTICES};

#[derive(Clone, Copy, Debug, Default, PartialEq, Eq)]
pub struct Counts {
    pub vertices: u32,
    pub edges: u32,
    pub faces: u32,
    /// The change count.
    pub changes: u32,
}

/// The rows of a mesh or of a line, with room for at least one vertex more than are in use: an ask needs it and, since it changes nothing, cannot
/// make it.
#[derive(Clone, Default)]
pub struct Rows {
    pub counts: Counts,
    positions: Vec<[i32; 2]>,
    heights: Vec<i32>,
    outs: Vec<u32>,
    halves: HalfEdges,
    adjacent: Vec<u32>,
}

/// The words of an answer in the answers row.
const ANSWER_WORDS: usize = std::mem::size_of::<Answer>() / std::mem::size_of::<u64>();

/// The rows that hold nothing between calls.
pub struct Scratch {
    nodes: Vec<Node>,
    freed: Vec<u32>,
    buckets: Vec<u32>,
    pending: Vec<u32>,
}

impl Scratch {
    /// For a mesh of so many vertices at the end of the call.
    pub fn new(vertices: usize) -> Scratch {
        Scratch {
            nodes: zeros(vertices + 1),
            freed: vec![0; vertices + 1],
            buckets: vec![0; vertices.max(16)],
            pending: vec![0; vertices.max(4096)],
        }
    }
}

/// What is all zeros in memory too.
pub trait Zero: Copy {}

impl Zero for Node {}
impl Zero for Answer {}

/// A row of zeros that nobody touches before it is used.
pub fn zeros<T: Zero>(length: usize) -> Vec<T> {
    if length == 0 {
        return Vec::new();
    }
    let layout = Layout::array::<T>(length).expect("fewer bytes than there are addresses");
    // the layout has bytes, zeros are a T, and a vector of that capacity frees that layout
    unsafe {
        let row = alloc::alloc_zeroed(layout);
        if row.is_null() {
            alloc::handle_alloc_error(layout);
        }
        Vec::from_raw_parts(row.cast(), length, length)
    }
}

/// The positions and the heights of points: the library has them in two rows.
fn split(points: impl Iterator<Item = Point>) -> (Vec<[i32; 2]>, Vec<i32>) {
    points.map(|[x, y, z]| ([x, y], z)).unzip()
}

fn number(length: usize) -> Result<u32, Refusal> {
    u32::try_from(length).map_err(|_| Refusal::Count)
}

impl Rows {
    pub fn new(
        points: &[Point],
        outs: &[u32],
        halves: &[[u32; 4]],
        adjacent: &[u32],
    ) -> Result<Rows, Refusal> {
        let n = points.len();
        if !(3..=MOST_VERTICES).contains(&n) {
            return Err(Refusal::Count);
        }
        if outs.len() != n || halves.len() % 2 != 0 {
            return Err(Refusal::Rules);
        }
        let counts = Counts {
            vertices: number(n)?,
            edges: number(halves.len() / 2)?,
            faces: number(adjacent.len())?,
            changes: 0,
        };
        let (positions, heights) = split(points.iter().copied());
        let mut rows = Rows {
            counts,
            positions,
            heights,
            outs: outs.to_vec(),
            halves: HalfEdges::with(halves, halves.len()),
            adjacent: adjacent.to_vec(),
        };
        rows.grow(n + 1);
        Ok(rows)
    }

    fn grow(&mut self, vertices: usize) {
        // a new row of zeros is not touched by anybody before it is used
        fn grown<T: Copy>(row: &mut Vec<T>, length: usize, zeros: fn(usize) -> Vec<T>) {
            if row.len() < length {
                let old = std::mem::replace(row, zeros(length));
                row[..old.len()].copy_from_slice(&old);
            }
        }
        grown(&mut self.positions, vertices, |n| vec![[0; 2]; n]);
        grown(&mut self.heights, vertices, |n| vec![0; n]);
        grown(&mut self.outs, vertices, |n| vec![0; n]);
        if self.halves.len() < 6 * vertices {
            self.halves = HalfEdges::with(&self.halves, 6 * vertices);
        }
        grown(&mut self.adjacent, 2 * vertices, |n| vec![0; n]);
    }

    /// Room for so many vertices more, and one; how many there will be at most. Past the limit nothing is made: the call refuses.
    pub fn reserve(&mut self, more: usize) -> usize {
        let vertices = (self.counts.vertices as usize).saturating_add(more);
        if vertices > MOST_VERTICES {
            return 0;
        }
        self.grow(vertices + 1);
        vertices
    }

    pub fn positions(&self) -> &[[i32; 2]] {
        &self.positions[..self.counts.vertices as usize]
    }

    pub fn heights(&self) -> &[i32] {
        &self.heights[..self.counts.vertices as usize]
    }

    pub fn outs(&self) -> &[u32] {
        &self.outs[..self.counts.vertices as usize]
    }

    pub fn halves(&self) -> &[[u32; 4]] {
        &self.halves[..2 * self.counts.edges as usize]
    }

    pub fn adjacent(&self) -> &[u32] {
        &self.adjacent[..self.counts.faces as usize]
    }

    pub fn check(&self) -> CheckResult {
        let Counts { vertices, edges, faces, .. } = self.counts;
        unsafe {
            sys::fithmoul_check(
                vertices,
                edges,
                faces,
                self.positions.as_ptr().cast(),
                2 * self.positions.len(),
                self.heights.as_ptr(),
                self.heights.len(),
                self.outs.as_ptr(),
                self.outs.len(),
                self.halves.as_ptr().cast(),
                4 * self.halves.len(),
                self.adjacent.as_ptr(),
                self.adjacent.len(),
            )
        }
    }

    pub fn locate(&self, scratch: &mut Scratch, [x, y]: [f64; 2], angle: f64) -> LocateResult {
        let Counts { vertices, edges, faces, .. } = self.counts;
        unsafe {
            sys::fithmoul_locate(
                vertices,
                edges,
                faces,
                self.positions.as_ptr().cast(),
                2 * self.positions.len(),
                self.heights.as_ptr(),
                self.heights.len(),
                self.outs.as_ptr(),
                self.outs.len(),
                self.halves.as_ptr().cast(),
                4 * self.halves.len(),
                self.adjacent.as_ptr(),
                self.adjacent.len(),
                scratch.nodes.as_mut_ptr(),
                scratch.nodes.len(),
                scratch.freed.as_mut_ptr(),
                scratch.freed.len(),
                scratch.buckets.as_mut_ptr(),
                scratch.buckets.len(),
                x,
                y,
                angle,
            )
        }
    }

    pub fn step(&mut self, scratch: &mut Scratch, [x, y]: [f64; 2], point: Point) -> StepResult {
        let Counts { vertices, edges, faces, .. } = self.counts;
        let result = unsafe {
            sys::fithmoul_step(
                vertices,
                edges,
                faces,
                self.positions.as_mut_ptr().cast(),
                2 * self.positions.len(),
                self.heights.as_mut_ptr(),
                self.heights.len(),
                self.outs.as_mut_ptr(),
                self.outs.len(),
                self.halves.as_mut_ptr().cast(),
                4 * self.halves.len(),
                self.adjacent.as_mut_ptr(),
                self.adjacent.len(),
                scratch.nodes.as_mut_ptr(),
                scratch.nodes.len(),
                scratch.freed.as_mut_ptr(),
                scratch.freed.len(),
                scratch.buckets.as_mut_ptr(),
                scratch.buckets.len(),
                scratch.pending.as_mut_ptr(),
                scratch.pending.len(),
                x,
                y,
                point[0],
                point[1],
                point[2],
            )
        };
        let StepResult { vertices, edges, faces, .. } = result;
        self.counts = Counts { vertices, edges, faces, ..self.counts };
        result
    }

    pub fn finish(&mut self, scratch: &mut Scratch) -> FinishResult {
        let Counts { vertices, edges, faces, .. } = self.counts;
        let result = unsafe {
            sys::fithmoul_finish(
                vertices,
                edges,
                faces,
                self.positions.as_ptr().cast(),
                2 * self.positions.len(),
                self.heights.as_ptr(),
                self.heights.len(),
                self.outs.as_mut_ptr(),
                self.outs.len(),
                self.halves.as_mut_ptr().cast(),
                4 * self.halves.len(),
                self.adjacent.as_mut_ptr(),
                self.adjacent.len(),
                scratch.pending.as_mut_ptr(),
                scratch.pending.len(),
            )
        };
        let FinishResult { vertices, edges, faces, .. } = result;
        self.counts = Counts { vertices, edges, faces, ..self.counts };
        result
    }

    pub fn run(
        &mut self,
        scratch: &mut Scratch,
        answers: &mut [Answer],
        [x, y]: [f64; 2],
        points: &[Point],
    ) -> RunResult {
        let Counts { vertices, edges, faces, changes } = self.counts;
        let (points, point_heights) = split(points.iter().copied());
        let result = unsafe {
            sys::fithmoul_run(
                vertices,
                edges,
                faces,
                changes,
                self.positions.as_mut_ptr().cast(),
                2 * self.positions.len(),
                self.heights.as_mut_ptr(),
                self.heights.len(),
                self.outs.as_mut_ptr(),
                self.outs.len(),
                self.halves.as_mut_ptr().cast(),
                4 * self.halves.len(),
                self.adjacent.as_mut_ptr(),
                self.adjacent.len(),
                scratch.nodes.as_mut_ptr(),
                scratch.nodes.len(),
                scratch.freed.as_mut_ptr(),
                scratch.freed.len(),
                scratch.buckets.as_mut_ptr(),
                scratch.buckets.len(),
                scratch.pending.as_mut_ptr(),
                scratch.pending.len(),
                answers.as_mut_ptr().cast(),
                ANSWER_WORDS * answers.len(),
                x,
                y,
                points.as_ptr().cast(),
                2 * points.len(),
                point_heights.as_ptr(),
                point_heights.len(),
            )
        };
        let RunResult { vertices, edges, faces, changes, .. } = result;
        self.counts = Counts { vertices, edges, faces, changes };
        result
    }

    /// Into rows of which nothing is in use.
    pub fn bulk_load(
        &mut self,
        scratch: &mut Scratch,
        answers: &mut [Answer],
        points: impl Iterator<Item = Point>,
    ) -> BulkLoadResult {
        let (points, point_heights) = split(points);
        let result = unsafe {
            sys::fithmoul_bulk_load(
                self.positions.as_mut_ptr().cast(),
                2 * self.positions.len(),
                self.heights.as_mut_ptr(),
                self.heights.len(),
                self.outs.as_mut_ptr(),
                self.outs.len(),
                self.halves.as_mut_ptr().cast(),
                4 * self.halves.len(),
                self.adjacent.as_mut_ptr(),
                self.adjacent.len(),
                scratch.nodes.as_mut_ptr(),
                scratch.nodes.len(),
                scratch.freed.as_mut_ptr(),
                scratch.freed.len(),
                scratch.buckets.as_mut_ptr(),
                scratch.buckets.len(),
                scratch.pending.as_mut_ptr(),
                scratch.pending.len(),
                answers.as_mut_ptr().cast(),
                ANSWER_WORDS * answers.len(),
                points.as_ptr().cast(),
                2 * points.len(),
                point_heights.as_ptr(),
                point_heights.len(),
            )
        };
        let BulkLoadResult { vertices, edges, faces, changes, .. } = result;
        self.counts = Counts { vertices, edges, faces, changes };
        result
    }

    pub fn ask(&self, scratch: &mut Scratch, [x, y]: [f64; 2], point: Point) -> AskResult {
        let Counts { vertices, edges, faces, changes } = self.counts;
        unsafe {
            sys::fithmoul_ask(
                vertices,
                edges,
                faces,
                changes,
                self.positions.as_ptr().cast(),
                2 * self.positions.len(),
                self.heights.as_ptr(),
                self.heights.len(),
                self.outs.as_ptr(),
                self.outs.len(),
                self.halves.as_ptr().cast(),
                4 * self.halves.len(),
                self.adjacent.as_ptr(),
                self.adjacent.len(),
                scratch.nodes.as_mut_ptr(),
                scratch.nodes.len(),
                scratch.freed.as_mut_ptr(),
                scratch.freed.len(),
                scratch.buckets.as_mut_ptr(),
                scratch.buckets.len(),
                x,
                y,
                point[0],
                point[1],
                point[2],
            )
        }
    }

    pub fn commit(&mut self, scratch: &mut Scratch, [x, y]: [f64; 2], quote: sys::Quote) -> CommitResult {
        let Counts { vertices, edges, faces, changes } = self.counts;
        let result = unsafe {
            sys::fithmoul_commit(
                vertices,
                edges,
                faces,
                changes,
                self.positions.as_mut_ptr().cast(),
                2 * self.positions.len(),
                self.heights.as_mut_ptr(),
                self.heights.len(),
                self.outs.as_mut_ptr(),
                self.outs.len(),
                self.halves.as_mut_ptr().cast(),
                4 * self.halves.len(),
                self.adjacent.as_mut_ptr(),
                self.adjacent.len(),
                scratch.nodes.as_mut_ptr(),
                scratch.nodes.len(),
                scratch.freed.as_mut_ptr(),
                scratch.freed.len(),
                scratch.buckets.as_mut_ptr(),
                scratch.buckets.len(),
                scratch.pending.as_mut_ptr(),
                scratch.pending.len(),
                x,
                y,
                quote.x,
                quote.y,
                quote.z,
                quote,
            )
        };
        let CommitResult { vertices, edges, faces, changes, .. } = result;
        self.counts = Counts { vertices, edges, faces, changes };
        result
    }

    pub fn volume(&self, level: i32) -> VolumeResult {
        let Counts { vertices, edges, faces, .. } = self.counts;
        unsafe {
            sys::fithmoul_volume(
                vertices,
                edges,
                faces,
                self.positions.as_ptr().cast(),
                2 * self.positions.len(),
                self.heights.as_ptr(),
                self.heights.len(),
                self.outs.as_ptr(),
                self.outs.len(),
                self.halves.as_ptr().cast(),
                4 * self.halves.len(),
                self.adjacent.as_ptr(),
                self.adjacent.len(),
                level,
            )
        }
    }

    pub fn area_total(&self) -> AreaTotalResult {
        let Counts { vertices, edges, faces, .. } = self.counts;
        unsafe {
            sys::fithmoul_area_total(
                vertices,
                edges,
                faces,
                self.positions.as_ptr().cast(),
                2 * self.positions.len(),
                self.heights.as_ptr(),
                self.heights.len(),
                self.outs.as_ptr(),
                self.outs.len(),
                self.halves.as_ptr().cast(),
                4 * self.halves.len(),
                self.adjacent.as_ptr(),
                self.adjacent.len(),
            )
        }
    }
}

/// The same positions, heights and links. Change counts may differ.
impl PartialEq for Rows {
    fn eq(&self, other: &Rows) -> bool {
        self.positions() == other.positions()
            && self.heights() == other.heights()
            && self.outs() == other.outs()
            && self.halves() == other.halves()
            && self.adjacent() == other.adjacent()
    }
}

impl Eq for Rows {}

pub fn side_query(p1: [i32; 2], p2: [i32; 2], q: [i32; 2]) -> SideQueryResult {
    // numbers alone: the call reads and writes no memory of ours
    unsafe { sys::fithmoul_side_query(p1[0], p1[1], p2[0], p2[1], q[0], q[1]) }
}
