//! Seconds that `finish` takes on a mesh of 1,000,000 vertices: this library's (`libfithmoul.a`), refusals 1 to 5 and 10, convexity passes and closing pass together.
//! The mesh is a grid of 1,000 by 1,000, each vertex moved at random and each cell cut along the same diagonal, so that the boundary has left corners to close and
//! many edges break the circle rule; its numbers in the grid's order, and again vertices, edges and faces numbered at random. Then the same mesh once more, finished.
use std::time::Instant;

extern "C" {
    fn fithmoul_finish(
        vertices: u32, edges: u32, faces: u32,
        positions: *const i32, positions_len: usize,
        heights: *const i32, heights_len: usize,
        outs: *mut u32, outs_len: usize,
        halves: *mut u32, halves_len: usize,
        stored: *mut u32, stored_len: usize,
        pending: *mut u32, pending_len: usize,
    ) -> FinishResult;
}

#[repr(C)]
struct FinishResult {
    refusal: u32,
    place: u32,
    vertices: u32,
    edges: u32,
    faces: u32,
    faces_added: u32,
    convex_flips: u64,
    closing_flips: u64,
}

struct Mesh {
    vertices: u32,
    edges: u32,
    faces: u32,
    positions: Vec<i32>,
    heights: Vec<i32>,
    outs: Vec<u32>,
    halves: Vec<u32>,
    stored: Vec<u32>,
}

/// The faces added, and the flips.
fn finish(m: &mut Mesh, pending: &mut [u32]) -> [u64; 2] {
    let r = unsafe {
        fithmoul_finish(
            m.vertices, m.edges, m.faces,
            m.positions.as_ptr(), m.positions.len(),
            m.heights.as_ptr(), m.heights.len(),
            m.outs.as_mut_ptr(), m.outs.len(),
            m.halves.as_mut_ptr(), m.halves.len(),
            m.stored.as_mut_ptr(), m.stored.len(),
            pending.as_mut_ptr(), pending.len(),
        )
    };
    assert!(r.refusal == 0, "refusal {} at {}", r.refusal, r.place);
    assert!(r.vertices == m.vertices);
    m.edges = r.edges;
    m.faces = r.faces;
    [r.faces_added.into(), r.convex_flips + r.closing_flips]
}

/// A grid of w by w vertices, each moved by up to `shake` of 32, each cell two triangles that turn left; `number` gives vertices, edges and faces their numbers
/// (face 0 stays).
fn grid(w: usize, shake: i32, random: &mut dyn FnMut(usize) -> usize, number: &mut dyn FnMut(usize) -> Vec<u32>) -> Mesh {
    let n = w * w;
    let count = 3 * n - 4 * w + 1;
    let faces = 2 * (w - 1) * (w - 1) + 1;
    let (vs, es, fs) = (number(n), number(count), number(faces - 1));
    let mut positions = vec![0i32; 2 * n];
    for v in 0..n {
        positions[2 * vs[v] as usize] = (v % w) as i32 * 32 + random(2 * shake as usize + 1) as i32 - shake;
        positions[2 * vs[v] as usize + 1] = (v / w) as i32 * 32 + random(2 * shake as usize + 1) as i32 - shake;
    }
    let mut edge = std::collections::HashMap::new();
    let mut made = 0;
    let mut halves = vec![0u32; 24 * n];
    let mut outs = vec![0u32; n];
    let mut stored = vec![0u32; 2 * n];
    let mut half_of = |a: usize, b: usize| -> u32 {
        if let Some(e) = edge.get(&(b, a)) {
            return e ^ 1;
        }
        *edge.entry((a, b)).or_insert_with(|| {
            made += 1;
            2 * es[made - 1]
        })
    };
    let mut f = 0;
    for y in 0..w - 1 {
        for x in 0..w - 1 {
            let c = [y * w + x, y * w + x + 1, (y + 1) * w + x + 1, (y + 1) * w + x];
            for t in [[c[0], c[1], c[2]], [c[0], c[2], c[3]]] {
                let e = [half_of(t[0], t[1]), half_of(t[1], t[2]), half_of(t[2], t[0])];
                let face = fs[f] + 1;
                f += 1;
                stored[face as usize] = e[0];
                for k in 0..3 {
                    let i = 4 * e[k] as usize;
                    halves[i..i + 4].copy_from_slice(&[e[(k + 1) % 3], e[(k + 2) % 3], face, vs[t[k]]]);
                    outs[vs[t[k]] as usize] = e[k];
                }
            }
        }
    }
    // the boundary against the triangles' sense: up, right, down, left
    let mut rim: Vec<usize> = (0..w - 1).map(|y| y * w).collect();
    rim.extend((0..w - 1).map(|x| (w - 1) * w + x));
    rim.extend((1..w).rev().map(|y| y * w + w - 1));
    rim.extend((1..w).rev());
    let around: Vec<u32> = (0..rim.len()).map(|k| half_of(rim[k], rim[(k + 1) % rim.len()])).collect();
    for k in 0..rim.len() {
        let i = 4 * around[k] as usize;
        let (before, after) = (around[(k + rim.len() - 1) % rim.len()], around[(k + 1) % rim.len()]);
        halves[i..i + 4].copy_from_slice(&[after, before, 0, vs[rim[k]]]);
    }
    stored[0] = around[0];
    assert_eq!(made, count);
    Mesh { vertices: n as u32, edges: count as u32, faces: faces as u32, positions, heights: vec![0; n], outs, halves, stored }
}

fn main() {
    let mut state = 88172645463325252u64;
    let mut random = move |below: usize| {
        state ^= state << 13;
        state ^= state >> 7;
        state ^= state << 17;
        (state % below as u64) as usize
    };
    let mut mix = 2463534242u64;
    let mut shuffled = |n: usize| {
        let mut p: Vec<u32> = (0..n as u32).collect();
        for i in (1..n).rev() {
            mix ^= mix << 13;
            mix ^= mix >> 7;
            mix ^= mix << 17;
            p.swap(i, (mix % (i as u64 + 1)) as usize);
        }
        p
    };
    let mut ordered = |n: usize| (0..n as u32).collect();
    let mut pending = vec![0u32; 4096];
    println!("| mesh | finish (s) | faces added | flips | once more (s) | faces added | flips |\n|---|---|---|---|---|---|---|");
    for (name, mut m) in [
        ("grid's order", grid(1000, 7, &mut random, &mut ordered)),
        ("numbered at random", grid(1000, 7, &mut random, &mut shuffled)),
    ] {
        let t = Instant::now();
        let first = finish(&mut m, &mut pending);
        let a = t.elapsed().as_secs_f64();
        let t = Instant::now();
        let second = finish(&mut m, &mut pending);
        let b = t.elapsed().as_secs_f64();
        let [[faces, flips], [no_faces, no_flips]] = [first, second];
        println!("| {name} | {a:.2} | {faces} | {flips} | {b:.2} | {no_faces} | {no_flips} |");
    }
}
