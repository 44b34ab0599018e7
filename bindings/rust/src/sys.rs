//! The exports of libfithmoul.a as they are: include/fithmoul.h says what each takes, refuses and leaves.

use crate::Answer;

/// One entry of the row of ring nodes, 24 bytes.
#[repr(C)]
#[derive(Clone, Copy, Debug, Default, PartialEq)]
pub struct Node {
    pub angle: f64,
    pub edge: u32,
    pub left: u32,
    pub right: u32,
}

#[repr(C)]
#[derive(Clone, Copy, Debug, Default, PartialEq, Eq)]
pub struct CheckResult {
    pub refusal: u32,
    pub place: u32,
}

#[repr(C)]
#[derive(Clone, Copy, Debug, Default, PartialEq, Eq)]
pub struct LocateResult {
    pub refusal: u32,
    pub place: u32,
    pub edge: u32,
    pub passed: u32,
}

#[repr(C)]
#[derive(Clone, Copy, Debug, Default, PartialEq, Eq)]
pub struct StepResult {
    pub refusal: u32,
    pub place: u32,
    pub vertices: u32,
    pub edges: u32,
    pub faces: u32,
    pub answer: Answer,
}

/// What a point would do, 32 bytes. It goes to a commit by value.
#[repr(C)]
#[derive(Clone, Copy, Debug, Default, PartialEq, Eq)]
pub struct Quote {
    pub changes: u32,
    pub x: i32,
    pub y: i32,
    pub z: i32,
    pub fate: u64,
    pub faces: u64,
}

#[repr(C)]
#[derive(Clone, Copy, Debug, Default, PartialEq, Eq)]
pub struct AskResult {
    pub refusal: u32,
    pub place: u32,
    pub quote: Quote,
}

#[repr(C)]
#[derive(Clone, Copy, Debug, Default, PartialEq, Eq)]
pub struct CommitResult {
    pub refusal: u32,
    pub place: u32,
    pub vertices: u32,
    pub edges: u32,
    pub faces: u32,
    pub changes: u32,
    pub answer: Answer,
}

#[repr(C)]
#[derive(Clone, Copy, Debug, Default, PartialEq, Eq)]
pub struct FinishResult {
    pub refusal: u32,
    pub place: u32,
    pub vertices: u32,
    pub edges: u32,
    pub faces: u32,
    pub faces_added: u32,
    pub convex_flips: u64,
    pub closing_flips: u64,
}

#[repr(C)]
#[derive(Clone, Copy, Debug, Default, PartialEq, Eq)]
pub struct RunResult {
    pub refusal: u32,
    pub place: u32,
    pub vertices: u32,
    pub edges: u32,
    pub faces: u32,
    pub changes: u32,
    pub faces_added: u32,
    pub convex_flips: u64,
    pub closing_flips: u64,
}

#[repr(C)]
#[derive(Clone, Copy, Debug, Default, PartialEq, Eq)]
pub struct BulkLoadResult {
    pub refusal: u32,
    pub place: u32,
    pub vertices: u32,
    pub edges: u32,
    pub faces: u32,
    pub changes: u32,
    pub line: u32,
    pub faces_added: u32,
    pub convex_flips: u64,
    pub closing_flips: u64,
}

#[repr(C)]
#[derive(Clone, Copy, Debug, Default, PartialEq, Eq)]
pub struct VolumeResult {
    pub refusal: u32,
    pub place: u32,
    pub six_volumes_high: u64,
    pub six_volumes_low: u64,
    pub cubic_metres: i64,
}

#[repr(C)]
#[derive(Clone, Copy, Debug, Default, PartialEq, Eq)]
pub struct AreaTotalResult {
    pub refusal: u32,
    pub place: u32,
    pub area_total_high: u64,
    pub area_total_low: u64,
}

#[repr(C)]
#[derive(Clone, Copy, Debug, Default, PartialEq, Eq)]
pub struct SideQueryResult {
    pub refusal: u32,
    pub place: u32,
    pub doubled_area: i64,
}

extern "C" {
    pub fn fithmoul_check(
        vertices: u32,
        edges: u32,
        faces: u32,
        positions: *const i32,
        positions_length: usize,
        heights: *const i32,
        heights_length: usize,
        outs: *const u32,
        outs_length: usize,
        halves: *const u32,
        halves_length: usize,
        adjacent: *const u32,
        adjacent_length: usize,
    ) -> CheckResult;

    pub fn fithmoul_locate(
        vertices: u32,
        edges: u32,
        faces: u32,
        positions: *const i32,
        positions_length: usize,
        heights: *const i32,
        heights_length: usize,
        outs: *const u32,
        outs_length: usize,
        halves: *const u32,
        halves_length: usize,
        adjacent: *const u32,
        adjacent_length: usize,
        nodes: *mut Node,
        nodes_length: usize,
        freed: *mut u32,
        freed_length: usize,
        buckets: *mut u32,
        buckets_length: usize,
        center_x: f64,
        center_y: f64,
        angle: f64,
    ) -> LocateResult;

    pub fn fithmoul_step(
        vertices: u32,
        edges: u32,
        faces: u32,
        positions: *mut i32,
        positions_length: usize,
        heights: *mut i32,
        heights_length: usize,
        outs: *mut u32,
        outs_length: usize,
        halves: *mut u32,
        halves_length: usize,
        adjacent: *mut u32,
        adjacent_length: usize,
        nodes: *mut Node,
        nodes_length: usize,
        freed: *mut u32,
        freed_length: usize,
        buckets: *mut u32,
        buckets_length: usize,
        pending: *mut u32,
        pending_length: usize,
        center_x: f64,
        center_y: f64,
        x: i32,
        y: i32,
        z: i32,
    ) -> StepResult;

    pub fn fithmoul_finish(
        vertices: u32,
        edges: u32,
        faces: u32,
        positions: *const i32,
        positions_length: usize,
        heights: *const i32,
        heights_length: usize,
        outs: *mut u32,
        outs_length: usize,
        halves: *mut u32,
        halves_length: usize,
        adjacent: *mut u32,
        adjacent_length: usize,
        pending: *mut u32,
        pending_length: usize,
    ) -> FinishResult;

    pub fn fithmoul_run(
        vertices: u32,
        edges: u32,
        faces: u32,
        changes: u32,
        positions: *mut i32,
        positions_length: usize,
        heights: *mut i32,
        heights_length: usize,
        outs: *mut u32,
        outs_length: usize,
        halves: *mut u32,
        halves_length: usize,
        adjacent: *mut u32,
        adjacent_length: usize,
        nodes: *mut Node,
        nodes_length: usize,
        freed: *mut u32,
        freed_length: usize,
        buckets: *mut u32,
        buckets_length: usize,
        pending: *mut u32,
        pending_length: usize,
        answers: *mut u64,
        answers_length: usize,
        center_x: f64,
        center_y: f64,
        points: *const i32,
        points_length: usize,
        point_heights: *const i32,
        point_heights_length: usize,
    ) -> RunResult;

    pub fn fithmoul_bulk_load(
        positions: *mut i32,
        positions_length: usize,
        heights: *mut i32,
        heights_length: usize,
        outs: *mut u32,
        outs_length: usize,
        halves: *mut u32,
        halves_length: usize,
        adjacent: *mut u32,
        adjacent_length: usize,
        nodes: *mut Node,
        nodes_length: usize,
        freed: *mut u32,
        freed_length: usize,
        buckets: *mut u32,
        buckets_length: usize,
        pending: *mut u32,
        pending_length: usize,
        answers: *mut u64,
        answers_length: usize,
        points: *const i32,
        points_length: usize,
        point_heights: *const i32,
        point_heights_length: usize,
    ) -> BulkLoadResult;

    pub fn fithmoul_ask(
        vertices: u32,
        edges: u32,
        faces: u32,
        changes: u32,
        positions: *const i32,
        positions_length: usize,
        heights: *const i32,
        heights_length: usize,
        outs: *const u32,
        outs_length: usize,
        halves: *const u32,
        halves_length: usize,
        adjacent: *const u32,
        adjacent_length: usize,
        nodes: *mut Node,
        nodes_length: usize,
        freed: *mut u32,
        freed_length: usize,
        buckets: *mut u32,
        buckets_length: usize,
        center_x: f64,
        center_y: f64,
        x: i32,
        y: i32,
        z: i32,
    ) -> AskResult;

    pub fn fithmoul_commit(
        vertices: u32,
        edges: u32,
        faces: u32,
        changes: u32,
        positions: *mut i32,
        positions_length: usize,
        heights: *mut i32,
        heights_length: usize,
        outs: *mut u32,
        outs_length: usize,
        halves: *mut u32,
        halves_length: usize,
        adjacent: *mut u32,
        adjacent_length: usize,
        nodes: *mut Node,
        nodes_length: usize,
        freed: *mut u32,
        freed_length: usize,
        buckets: *mut u32,
        buckets_length: usize,
        pending: *mut u32,
        pending_length: usize,
        center_x: f64,
        center_y: f64,
        x: i32,
        y: i32,
        z: i32,
        quote: Quote,
    ) -> CommitResult;

    pub fn fithmoul_volume(
        vertices: u32,
        edges: u32,
        faces: u32,
        positions: *const i32,
        positions_length: usize,
        heights: *const i32,
        heights_length: usize,
        outs: *const u32,
        outs_length: usize,
        halves: *const u32,
        halves_length: usize,
        adjacent: *const u32,
        adjacent_length: usize,
        level: i32,
    ) -> VolumeResult;

    pub fn fithmoul_area_total(
        vertices: u32,
        edges: u32,
        faces: u32,
        positions: *const i32,
        positions_length: usize,
        heights: *const i32,
        heights_length: usize,
        outs: *const u32,
        outs_length: usize,
        halves: *const u32,
        halves_length: usize,
        adjacent: *const u32,
        adjacent_length: usize,
    ) -> AreaTotalResult;

    pub fn fithmoul_side_query(p1x: i32, p1y: i32, p2x: i32, p2y: i32, qx: i32, qy: i32) -> SideQueryResult;
}
