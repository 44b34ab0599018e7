//! Milliseconds that `volume` and `area_total` take on a mesh of 1,000,000 vertices: this library's (`libfithmoul.a`), which checks the mesh first, beside the same in plain Rust,
//! a check and then a loop that adds in i128, on the same rows, in turn. What the volume or the total itself takes is the call less a `check`.
//! The mesh is that of benches/check: a grid of 1,000 by 1,000, its numbers in the grid's order, and again numbered at random. Every answer is compared.
//! `bench_volume [WIDTH [TURNS]]` has a grid of another size, or another number of turns than 21.
#[path = "../check/plain.rs"]
mod plain;

use plain::{check, half, meshes, Mesh};
use std::hint::black_box;
use std::time::Instant;

extern "C" {
    fn fithmoul_check(
        vertices: u32, edges: u32, faces: u32,
        positions: *const i32, positions_len: usize,
        heights: *const i32, heights_len: usize,
        outs: *const u32, outs_len: usize,
        halves: *const u32, halves_len: usize,
        stored: *const u32, stored_len: usize,
    ) -> CheckResult;

    fn fithmoul_volume(
        vertices: u32, edges: u32, faces: u32,
        positions: *const i32, positions_len: usize,
        heights: *const i32, heights_len: usize,
        outs: *const u32, outs_len: usize,
        halves: *const u32, halves_len: usize,
        stored: *const u32, stored_len: usize,
        level: i32,
    ) -> VolumeResult;

    fn fithmoul_area_total(
        vertices: u32, edges: u32, faces: u32,
        positions: *const i32, positions_len: usize,
        heights: *const i32, heights_len: usize,
        outs: *const u32, outs_len: usize,
        halves: *const u32, halves_len: usize,
        stored: *const u32, stored_len: usize,
    ) -> AreaTotalResult;
}

#[repr(C)]
struct CheckResult {
    refusal: u32,
    place: u32,
}

#[repr(C)]
struct VolumeResult {
    refusal: u32,
    place: u32,
    six_volumes_high: u64,
    six_volumes_low: u64,
    cubic_metres: i64,
}

#[repr(C)]
struct AreaTotalResult {
    refusal: u32,
    place: u32,
    area_total_high: u64,
    area_total_low: u64,
}

fn our_check(m: &Mesh) -> u32 {
    let r = unsafe {
        fithmoul_check(
            m.vertices, m.edges, m.faces,
            m.positions.as_ptr(), m.positions.len(),
            m.heights.as_ptr(), m.heights.len(),
            m.outs.as_ptr(), m.outs.len(),
            m.halves.as_ptr(), m.halves.len(),
            m.stored.as_ptr(), m.stored.len(),
        )
    };
    r.refusal + r.place
}

/// Six times the volume, and the cubic metres.
fn our_volume(m: &Mesh, level: i32) -> (i128, i64) {
    let r = unsafe {
        fithmoul_volume(
            m.vertices, m.edges, m.faces,
            m.positions.as_ptr(), m.positions.len(),
            m.heights.as_ptr(), m.heights.len(),
            m.outs.as_ptr(), m.outs.len(),
            m.halves.as_ptr(), m.halves.len(),
            m.stored.as_ptr(), m.stored.len(),
            level,
        )
    };
    assert!(r.refusal == 0, "refusal {} at {}", r.refusal, r.place);
    (((r.six_volumes_high as u128) << 64 | r.six_volumes_low as u128) as i128, r.cubic_metres)
}

fn our_area(m: &Mesh) -> i128 {
    let r = unsafe {
        fithmoul_area_total(
            m.vertices, m.edges, m.faces,
            m.positions.as_ptr(), m.positions.len(),
            m.heights.as_ptr(), m.heights.len(),
            m.outs.as_ptr(), m.outs.len(),
            m.halves.as_ptr(), m.halves.len(),
            m.stored.as_ptr(), m.stored.len(),
        )
    };
    assert!(r.refusal == 0, "refusal {} at {}", r.refusal, r.place);
    ((r.area_total_high as u128) << 64 | r.area_total_low as u128) as i128
}

/// The area total of a mesh that was checked.
#[inline(never)]
fn area(m: &Mesh) -> i128 {
    let h = m.halves.as_chunks().0;
    let at = |v: u32| (m.positions[2 * v as usize] as i64, m.positions[2 * v as usize + 1] as i64);
    let mut sum = 0i128;
    for f in 1..m.faces {
        let [b, _, _, u] = half(h, m.stored[f as usize]);
        let [c, _, _, v] = half(h, b);
        let (p, q, r) = (at(u), at(v), at(half(h, c)[3]));
        sum += ((q.0 - p.0) * (r.1 - p.1) - (q.1 - p.1) * (r.0 - p.0)) as i128;
    }
    sum
}

/// Both numbers of a volume, of a mesh that was checked.
#[inline(never)]
fn volume(m: &Mesh, level: i32) -> (i128, i64) {
    let h = m.halves.as_chunks().0;
    let at = |v: u32| (m.positions[2 * v as usize] as i64, m.positions[2 * v as usize + 1] as i64);
    let mut sum = 0i128;
    for f in 1..m.faces {
        let [b, _, _, u] = half(h, m.stored[f as usize]);
        let [c, _, _, v] = half(h, b);
        let w = half(h, c)[3];
        let (p, q, r) = (at(u), at(v), at(w));
        let area = (q.0 - p.0) * (r.1 - p.1) - (q.1 - p.1) * (r.0 - p.0);
        let heights: i64 = [u, v, w].iter().map(|&v| m.heights[v as usize] as i64).sum();
        sum += area as i128 * (heights - 3 * level as i64) as i128;
    }
    let (whole, rest) = (sum.abs() / 6_000_000_000, sum.abs() % 6_000_000_000);
    let up = rest > 3_000_000_000 || (rest == 3_000_000_000 && whole % 2 == 1);
    (sum, (sum.signum() * (whole + i128::from(up))) as i64)
}

/// What a work makes, and its milliseconds kept where they are the least so far.
fn least<T>(best: &mut f64, work: impl FnOnce() -> T) -> T {
    let t = Instant::now();
    let made = black_box(work());
    *best = best.min(t.elapsed().as_secs_f64() * 1e3);
    made
}

/// A row of the table: ours with its check, our check, the plain loop, and the plain check and loop; `turn` has their answers.
fn row<T: PartialEq>(
    name: &str,
    m: &Mesh,
    turns: usize,
    ours: impl Fn(&Mesh, usize) -> T,
    plain: impl Fn(&Mesh, usize) -> T,
) {
    let ([mut whole, mut checked, mut looped, mut both], mut unlike) = ([f64::MAX; 4], 0);
    for turn in 0..turns {
        let m = black_box(m);
        let x = least(&mut whole, || ours(m, turn));
        let refusal = least(&mut checked, || our_check(m));
        let y = least(&mut looped, || plain(m, turn));
        let (refused, z) = least(&mut both, || (check(m), plain(m, turn)));
        unlike += (x != y || x != z || refusal != 0 || refused != 0) as u32;
    }
    let own = whole - checked;
    println!(
        "| {name} | {whole:.1} | {checked:.1} | {own:.1} | {looped:.1} | {:.2} | {both:.1} | {:.2} | {unlike} |",
        own / looped,
        whole / both
    );
}

fn main() {
    let words: Vec<usize> = std::env::args().skip(1).map(|w| w.parse().expect("a number")).collect();
    let (width, turns) = (words.first().copied().unwrap_or(1000), words.get(1).copied().unwrap_or(21));
    println!("| mesh | call (ms) | check (ms) | call less check | plain loop (ms) | ratio | plain check and loop (ms) | call / that | unlike |");
    println!("|---|---|---|---|---|---|---|---|---|");
    for (name, m) in meshes(width) {
        let level = |turn: usize| [0, 1_048_576, -1_048_576, 77][turn % 4];
        row(&format!("volume, {name}"), &m, turns, |m, turn| our_volume(m, level(turn)), |m, turn| volume(m, level(turn)));
        row(&format!("area total, {name}"), &m, turns, |m, _| our_area(m), |m, _| area(m));
    }
}
