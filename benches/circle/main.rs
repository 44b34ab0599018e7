//! Nanoseconds a call of the circle test and of the side test: this library's (`libmath_c.a`, `libfithmoul.a`) beside the same tests in Rust with i128 and i64, on the same inputs, in one run.
//! Every call tests that its coordinates are in range, here and there, and every answer is compared.
use std::hint::black_box;
use std::time::Instant;

extern "C" {
    fn math_contained_in_circumference(v1x: i32, v1y: i32, v2x: i32, v2y: i32, v3x: i32, v3y: i32, px: i32, py: i32) -> u8;
    fn fithmoul_side_query(p1x: i32, p1y: i32, p2x: i32, p2y: i32, qx: i32, qy: i32) -> Side;
}

/// A doubled area, or refusal 3 and the first of the three points that is out of range.
#[repr(C)]
#[derive(Clone, Copy, PartialEq)]
struct Side {
    refusal: u32,
    place: u32,
    doubled_area: i64,
}

type Quad = [i32; 8];

fn in_range(c: &[i32]) -> bool {
    c.iter().all(|&v| (-16_777_216..=16_777_216).contains(&v))
}

/// Shewchuk's determinant, reduced to 3x3, in i128.
#[inline(never)]
extern "C" fn circle_i128(ax: i32, ay: i32, bx: i32, by: i32, cx: i32, cy: i32, dx: i32, dy: i32) -> u8 {
    if !in_range(&[ax, ay, bx, by, cx, cy, dx, dy]) {
        return 2;
    }
    let row = |x: i32, y: i32| {
        let (x, y) = (x as i128 - dx as i128, y as i128 - dy as i128);
        (x, y, x * x + y * y)
    };
    let (a, b, c) = (row(ax, ay), row(bx, by), row(cx, cy));
    let det = a.2 * (b.0 * c.1 - b.1 * c.0) + b.2 * (c.0 * a.1 - c.1 * a.0) + c.2 * (a.0 * b.1 - a.1 * b.0);
    (det > 0) as u8
}

/// The same with each factor in i64 and only the three products in i128: the fastest plain form we know.
#[inline(never)]
extern "C" fn circle_mixed(ax: i32, ay: i32, bx: i32, by: i32, cx: i32, cy: i32, dx: i32, dy: i32) -> u8 {
    if !in_range(&[ax, ay, bx, by, cx, cy, dx, dy]) {
        return 2;
    }
    let row = |x: i32, y: i32| {
        let (x, y) = (x as i64 - dx as i64, y as i64 - dy as i64);
        (x, y, x * x + y * y)
    };
    let (a, b, c) = (row(ax, ay), row(bx, by), row(cx, cy));
    let det = a.2 as i128 * (b.0 * c.1 - b.1 * c.0) as i128 + b.2 as i128 * (c.0 * a.1 - c.1 * a.0) as i128 + c.2 as i128 * (a.0 * b.1 - a.1 * b.0) as i128;
    (det > 0) as u8
}

#[inline(never)]
extern "C" fn side_i64(ax: i32, ay: i32, bx: i32, by: i32, cx: i32, cy: i32) -> Side {
    for (place, point) in [[ax, ay], [bx, by], [cx, cy]].iter().enumerate() {
        if !in_range(point) {
            return Side { refusal: 3, place: place as u32, doubled_area: 0 };
        }
    }
    let doubled_area = (bx as i64 - ax as i64) * (cy as i64 - ay as i64) - (by as i64 - ay as i64) * (cx as i64 - ax as i64);
    Side { refusal: 0, place: 0, doubled_area }
}

struct Random(u64);

impl Random {
    fn next(&mut self) -> u64 {
        self.0 ^= self.0 << 13;
        self.0 ^= self.0 >> 7;
        self.0 ^= self.0 << 17;
        self.0
    }
    fn within(&mut self, r: i32) -> i32 {
        (self.next() % (2 * r as u64 + 1)) as i32 - r
    }
}

/// Points within r of a centre; every eighth quadruple lies on one circle, where the determinant is 0.
fn quads(random: &mut Random, r: i32, n: usize) -> Vec<Quad> {
    let room = 16_777_216 - r;
    (0..n)
        .map(|i| {
            let (x, y) = (random.within(room), random.within(room));
            let mut q = [0; 8];
            for k in 0..4 {
                q[2 * k] = x + random.within(r);
                q[2 * k + 1] = y + random.within(r);
            }
            if i % 8 == 0 {
                let (u, v) = (random.within(r), random.within(r));
                q = [x + u, y + v, x - v, y + u, x - u, y - v, x + v, y - u];
            }
            q
        })
        .collect()
}

/// Nanoseconds a call, over all quadruples sixteen times.
fn round(quads: &[Quad], f: &dyn Fn(&[Quad]) -> u64) -> f64 {
    let start = Instant::now();
    for _ in 0..16 {
        black_box(f(black_box(quads)));
    }
    start.elapsed().as_nanos() as f64 / (16 * quads.len()) as f64
}

fn main() {
    let mut random = Random(0x9e37_79b9_7f4a_7c15);
    println!("{:>14} | {:>7} {:>7} {:>7} | {:>7} {:>7} | {:>7}", "differences", "circle", "i128", "mixed", "side", "i64", "unlike");
    for r in [100, 4_000, 16_000, 100_000, 1_000_000, 8_000_000] {
        let quads = quads(&mut random, r, 16_384);
        let ours = |q: &Quad| unsafe { math_contained_in_circumference(q[0], q[1], q[2], q[3], q[4], q[5], q[6], q[7]) };
        let wide = |q: &Quad| circle_i128(q[0], q[1], q[2], q[3], q[4], q[5], q[6], q[7]);
        let mixed = |q: &Quad| circle_mixed(q[0], q[1], q[2], q[3], q[4], q[5], q[6], q[7]);
        let side = |q: &Quad| unsafe { fithmoul_side_query(q[0], q[1], q[2], q[3], q[4], q[5]) };
        let plain = |q: &Quad| side_i64(q[0], q[1], q[2], q[3], q[4], q[5]);
        let unlike = quads.iter().filter(|q| ours(q) != wide(q) || ours(q) != mixed(q) || side(q) != plain(q)).count();
        // the five take turns, so that a busy moment of the machine falls on all of them; the best of 61 turns counts
        let all: [&dyn Fn(&[Quad]) -> u64; 5] = [
            &|qs| qs.iter().map(|q| black_box(ours(q)) as u64).sum(),
            &|qs| qs.iter().map(|q| black_box(wide(q)) as u64).sum(),
            &|qs| qs.iter().map(|q| black_box(mixed(q)) as u64).sum(),
            &|qs| qs.iter().fold(0, |sum: u64, q| sum.wrapping_add(black_box(side(q)).doubled_area as u64)),
            &|qs| qs.iter().fold(0, |sum: u64, q| sum.wrapping_add(black_box(plain(q)).doubled_area as u64)),
        ];
        let mut best = [f64::MAX; 5];
        for _ in 0..61 {
            for (b, f) in best.iter_mut().zip(all) {
                *b = b.min(round(&quads, f));
            }
        }
        println!("{:>14} | {:>7.2} {:>7.2} {:>7.2} | {:>7.2} {:>7.2} | {:>7}", format!("up to {}", 2 * r), best[0], best[1], best[2], best[3], best[4], unlike);
    }
}
