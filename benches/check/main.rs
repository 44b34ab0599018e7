//! Milliseconds that `check` takes on a mesh of 1,000,000 vertices: this library's (`libfithmoul.a`) beside the same sweep in plain Rust, on the same rows, in turn.
//! The mesh is a grid of 1,000 by 1,000, its numbers in the grid's order, and again with vertices, edges and faces numbered at random. Every answer is compared.
mod plain;

use plain::{check, meshes, refused, Mesh};
use std::hint::black_box;
use std::time::Instant;

extern "C" {
    fn fithmoul_check(
        vertices: u32, edges: u32, faces: u32,
        positions: *const i32, positions_len: usize,
        heights: *const i32, heights_len: usize,
        outs: *const u32, outs_len: usize,
        halves: *const u32, halves_len: usize,
        stored: *const u32, stored_len: usize,
    ) -> CheckResult;
}

#[repr(C)]
struct CheckResult {
    refusal: u32,
    place: u32,
}

fn ours(m: &Mesh) -> u64 {
    let r = unsafe {
        fithmoul_check(
            m.vertices, m.edges, m.faces,
            m.positions.as_ptr(), m.positions.len(),
            m.heights.as_ptr(), m.heights.len(),
            m.outs.as_ptr(), m.outs.len(),
            m.halves.as_ptr(), m.halves.len(),
            m.stored.as_ptr(), m.stored.len(),
        )
    };
    refused(r.refusal.into(), r.place.into())
}

fn main() {
    println!("| mesh | check (ms) | plain Rust (ms) | check / plain | unlike |\n|---|---|---|---|---|");
    for (name, m) in meshes(1000) {
        let (mut a, mut b, mut unlike) = (f64::MAX, f64::MAX, 0);
        for _ in 0..21 {
            let t = Instant::now();
            let x = black_box(ours(black_box(&m)));
            a = a.min(t.elapsed().as_secs_f64() * 1e3);
            let t = Instant::now();
            let y = black_box(check(black_box(&m)));
            b = b.min(t.elapsed().as_secs_f64() * 1e3);
            unlike += (x != y || x != 0) as u32;
        }
        println!("| {name} | {a:.1} | {b:.1} | {:.2} | {unlike} |", a / b);
    }
}
