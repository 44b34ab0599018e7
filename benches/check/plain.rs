//! A mesh to measure on, and the library's `check` in plain Rust: benches/check and benches/volume have both.

pub struct Mesh {
    pub vertices: u32,
    pub edges: u32,
    pub faces: u32,
    pub positions: Vec<i32>,
    pub heights: Vec<i32>,
    pub outs: Vec<u32>,
    pub halves: Vec<u32>,
    pub stored: Vec<u32>,
}

/// Next, prev, face and origin of a half-edge, with one test of the index.
pub fn half(h: &[[u32; 4]], e: u32) -> [u32; 4] {
    h[e as usize]
}

pub fn refused(number: u64, place: u64) -> u64 {
    number << 32 | place
}

/// The same sweep as `check` of the library: ranges of coordinates and heights, of the links, and the links of each half-edge; the stored edges of the faces, the
/// boundary's length, a turn about each vertex, the faces' orientation.
#[inline(never)]
pub fn check(m: &Mesh) -> u64 {
    let n = m.vertices as usize;
    if n < 3 || n > 1_000_000 {
        return refused(1, 0);
    }
    if m.positions.len() < 2 * n || m.heights.len() < n || m.outs.len() < n || m.halves.len() < 24 * n || m.stored.len() < 2 * n {
        return refused(2, 0);
    }
    let inside = |c: i32| (-16_777_216..=16_777_216).contains(&c);
    for v in 0..n {
        if !inside(m.positions[2 * v]) || !inside(m.positions[2 * v + 1]) {
            return refused(3, v as u64);
        }
    }
    // all of them, so that several can be tested at a time
    if m.heights[..n].iter().fold(false, |outside, z| outside | !(-1_048_576..=1_048_576).contains(z)) {
        return refused(10, 0);
    }
    if !rules(m) {
        return refused(4, 0);
    }
    let h = m.halves.as_chunks().0;
    let at = |e: u32| {
        let v = half(h, e)[3] as usize;
        (m.positions[2 * v] as i64, m.positions[2 * v + 1] as i64)
    };
    for f in 1..m.faces {
        let a = m.stored[f as usize];
        let b = half(h, a)[0];
        let (p, q, r) = (at(a), at(b), at(half(h, b)[0]));
        if (q.0 - p.0) * (r.1 - p.1) - (q.1 - p.1) * (r.0 - p.0) <= 0 {
            return refused(5, f as u64);
        }
    }
    0
}

/// How many steps lead from a back to a.
fn walk(a: u32, step: impl Fn(u32) -> u32) -> u64 {
    let (mut e, mut k) = (step(a), 1);
    while e != a {
        e = step(e);
        k += 1;
    }
    k
}

fn rules(m: &Mesh) -> bool {
    let (v, e, f) = (m.vertices as u64, m.edges as u64, m.faces as u64);
    if f == 0 || v + f != e + 2 || e > 3 * v || f > 2 * v {
        return false;
    }
    let ends = 2 * m.edges;
    let h = m.halves.as_chunks().0;
    for e in 0..ends {
        let [next, prev, face, origin] = half(h, e);
        if next >= ends || prev >= ends || face >= m.faces || origin >= m.vertices {
            return false;
        }
        let (after, other) = (half(h, next), half(h, e ^ 1));
        if after[1] != e || half(h, prev)[0] != e || after[2] != face || after[3] != other[3] || (face == 0 && other[2] == 0) {
            return false;
        }
    }
    let next = |e: u32| half(h, e)[0];
    let turn = |e: u32| half(h, e)[1] ^ 1;
    let outer = m.stored[0];
    if outer >= ends || half(h, outer)[2] != 0 || next(outer) == outer || next(next(outer)) == outer {
        return false;
    }
    if walk(outer, next) + 3 * f != 2 * e + 3 {
        return false;
    }
    for f in 1..m.faces {
        let a = m.stored[f as usize];
        if a >= ends || half(h, a)[2] != f || next(a) == a || next(next(next(a))) != a {
            return false;
        }
    }
    let mut total = 0;
    for v in 0..m.vertices {
        let a = m.outs[v as usize];
        if a >= ends || half(h, a)[3] != v {
            return false;
        }
        total += walk(a, turn);
    }
    total == 2 * e
}

/// A grid of w by w vertices at mixed heights, each cell two triangles that turn left; `number` gives vertices, edges and faces their numbers (face 0 stays).
pub fn grid(w: usize, number: &mut dyn FnMut(usize) -> Vec<u32>) -> Mesh {
    let n = w * w;
    let count = 3 * n - 4 * w + 1;
    let faces = 2 * (w - 1) * (w - 1) + 1;
    let (vs, es, fs) = (number(n), number(count), number(faces - 1));
    let (mut positions, mut heights) = (vec![0i32; 2 * n], vec![0i32; n]);
    for v in 0..n {
        heights[vs[v] as usize] = (v as i32).wrapping_mul(0x9e37_79b9u32 as i32) % 1_048_577;
        positions[2 * vs[v] as usize] = (v % w) as i32 * 10;
        positions[2 * vs[v] as usize + 1] = (v / w) as i32 * 10;
    }
    let mut edge = std::collections::HashMap::new();
    let mut made = 0;
    let mut halves = vec![0u32; 24 * n];
    let mut outs = vec![0u32; n];
    let mut stored = vec![0u32; 2 * n];
    let mut half_of = |a: usize, b: usize| -> u32 {
        if let Some(e) = edge.get(&(b, a)) {
            return e ^ 1;
        }
        *edge.entry((a, b)).or_insert_with(|| {
            made += 1;
            2 * es[made - 1]
        })
    };
    let mut f = 0;
    for y in 0..w - 1 {
        for x in 0..w - 1 {
            let c = [y * w + x, y * w + x + 1, (y + 1) * w + x + 1, (y + 1) * w + x];
            for t in [[c[0], c[1], c[2]], [c[0], c[2], c[3]]] {
                let e = [half_of(t[0], t[1]), half_of(t[1], t[2]), half_of(t[2], t[0])];
                let face = fs[f] + 1;
                f += 1;
                stored[face as usize] = e[0];
                for k in 0..3 {
                    let i = 4 * e[k] as usize;
                    halves[i..i + 4].copy_from_slice(&[e[(k + 1) % 3], e[(k + 2) % 3], face, vs[t[k]]]);
                    outs[vs[t[k]] as usize] = e[k];
                }
            }
        }
    }
    // the boundary against the triangles' sense: up, right, down, left
    let mut rim: Vec<usize> = (0..w - 1).map(|y| y * w).collect();
    rim.extend((0..w - 1).map(|x| (w - 1) * w + x));
    rim.extend((1..w).rev().map(|y| y * w + w - 1));
    rim.extend((1..w).rev());
    let around: Vec<u32> = (0..rim.len()).map(|k| half_of(rim[k], rim[(k + 1) % rim.len()])).collect();
    for k in 0..rim.len() {
        let i = 4 * around[k] as usize;
        let (before, after) = (around[(k + rim.len() - 1) % rim.len()], around[(k + 1) % rim.len()]);
        halves[i..i + 4].copy_from_slice(&[after, before, 0, vs[rim[k]]]);
    }
    stored[0] = around[0];
    assert_eq!(made, count);
    Mesh { vertices: n as u32, edges: count as u32, faces: faces as u32, positions, heights, outs, halves, stored }
}

/// The grid of w by w in its two numberings.
pub fn meshes(w: usize) -> [(&'static str, Mesh); 2] {
    let mut state = 88172645463325252u64;
    let mut random = move |below: usize| {
        state ^= state << 13;
        state ^= state >> 7;
        state ^= state << 17;
        (state % below as u64) as usize
    };
    let mut shuffled = |n: usize| {
        let mut p: Vec<u32> = (0..n as u32).collect();
        for i in (1..n).rev() {
            p.swap(i, random(i + 1));
        }
        p
    };
    let mut ordered = |n: usize| (0..n as u32).collect();
    [("grid's order", grid(w, &mut ordered)), ("numbered at random", grid(w, &mut shuffled))]
}
