//! The points of a benchmark: the same numbers give the same points.

use fithmoul::{by_distance, middle, side_query, Mesh, Point, HEIGHT_RANGE};

/// A seed triangle, a centre in it, and the points to run.
pub struct Input {
    pub corners: [Point; 3],
    pub center: [f64; 2],
    pub points: Vec<Point>,
    /// The same without heights, which the Rust and CGAL take.
    pub flat_corners: [[i32; 2]; 3],
    pub flat: Vec<[i32; 2]>,
}

/// Points alone: in the order in which they go in, and as they are made.
pub struct Bare {
    pub points: Vec<Point>,
    pub flat: Vec<[i32; 2]>,
    pub made: Vec<Point>,
    pub made_flat: Vec<[i32; 2]>,
}

impl Bare {
    /// What one side takes, and no more.
    pub fn only(self, side: &str) -> Bare {
        let mut kept = Bare { points: Vec::new(), flat: Vec::new(), made: Vec::new(), made_flat: Vec::new() };
        match side {
            "load_ours" => kept.points = self.points,
            "load_rust" => kept.flat = self.flat,
            "sorted_ours" => kept.made = self.made,
            _ => kept.made_flat = self.made_flat,
        }
        kept
    }
}

fn flat([x, y, _]: Point) -> [i32; 2] {
    [x, y]
}

/// Those that are sorted as `bulk_load` sorts them, the first three spread over an area and the others along lines; and others.
pub const SORTED: [&str; 7] =
    ["uniform", "clustered", "gridded", ALONG, "one line", "one slanted line", "two parallel lines"];
pub const ALONG: &str = "along lines";
pub const OTHERS: [&str; 4] = ["spiral", "random order", LAST[0].0, LAST[1].0];

/// Uniform points, sorted, of which so many tenths come last.
const LAST: [(&str, u64); 2] = [("a tenth last", 1), ("nine tenths last", 9)];

struct Random(u64);

impl Random {
    fn next(&mut self) -> u64 {
        self.0 ^= self.0 << 13;
        self.0 ^= self.0 >> 7;
        self.0 ^= self.0 << 17;
        self.0
    }

    /// From -r to r.
    fn within(&mut self, r: i32) -> i32 {
        (self.next() % (2 * r as u64 + 1)) as i32 - r
    }
}

const REACH: i32 = 8_000_000;

fn clustered(random: &mut Random, count: usize) -> Vec<[i32; 2]> {
    let middles: Vec<[i32; 2]> = (0..64).map(|_| [random.within(REACH), random.within(REACH)]).collect();
    let near = |random: &mut Random| (0..4).map(|_| random.within(60_000)).sum::<i32>();
    (0..count)
        .map(|i| {
            let [x, y] = middles[i % 64];
            [x + near(random), y + near(random)]
        })
        .collect()
}

fn gridded(count: usize) -> Vec<[i32; 2]> {
    let side = (count as f64).sqrt().ceil() as usize;
    let place = |k: usize| (k as i32 - side as i32 / 2) * 1_000;
    (0..count).map(|i| [place(i % side), place(i / side)]).collect()
}

/// Profiles: thirty lines in all directions, each with as many points.
fn along_lines(random: &mut Random, count: usize) -> Vec<[i32; 2]> {
    let lines: Vec<[i32; 4]> = (0..30)
        .map(|_| [random.within(REACH / 2), random.within(REACH / 2), random.within(20), random.within(20)])
        .collect();
    (0..count)
        .map(|i| {
            let [x, y, dx, dy] = lines[i % 30];
            let t = random.within(REACH / 40);
            [x + t * dx, y + t * dy]
        })
        .collect()
}

/// Points at even distances along a line through the origin, the last of them beside its middle: one point is enough for a triangle.
fn one_line(count: usize, [dx, dy]: [i32; 2]) -> Vec<[i32; 2]> {
    let last = count as i32 - 1;
    let on_line = (0..last).map(|i| i - last / 2).map(|k| [k * dx, k * dy]);
    on_line.chain([[dx / 2 - dy, dy / 2 + dx]]).collect()
}

/// The two kerbs of a road: every other point on each, ten apart.
fn two_parallel_lines(count: usize, [dx, dy]: [i32; 2]) -> Vec<[i32; 2]> {
    let pairs = count as i32 / 2;
    (0..count as i32)
        .map(|i| {
            let (k, [x, y]) = (i / 2 - pairs / 2, [[0, 0], [-9, 4]][i as usize % 2]);
            [x + k * dx, y + k * dy]
        })
        .collect()
}

/// Along Archimedes' spiral, at even distances.
fn spiral(count: usize) -> Vec<[i32; 2]> {
    let turn = std::f64::consts::TAU;
    (0..count)
        .map(|i| {
            let angle = (2.0 * turn * (i as f64 + 1.0)).sqrt();
            let radius = 3_000.0 * angle / turn;
            [(radius * angle.cos()).round() as i32, (radius * angle.sin()).round() as i32]
        })
        .collect()
}

/// The points of a kind as they are made, at heights of all sizes.
pub fn unsorted(kind: &str, count: usize) -> Vec<Point> {
    let height = |i: u32| i.wrapping_mul(0x9e37_79b9) as i32 % (HEIGHT_RANGE + 1);
    (0..).zip(positions(kind, count)).map(|(i, [x, y])| [x, y, height(i)]).collect()
}

fn positions(kind: &str, count: usize) -> Vec<[i32; 2]> {
    let random = &mut Random(0x9e37_79b9_7f4a_7c15);
    match kind {
        "clustered" => clustered(random, count),
        "gridded" => gridded(count),
        ALONG => along_lines(random, count),
        "one line" => one_line(count, [32, 0]),
        "one slanted line" => one_line(count, [12, 28]),
        "two parallel lines" => two_parallel_lines(count, [27, 63]),
        "spiral" => spiral(count),
        _ => (0..count).map(|_| [random.within(REACH), random.within(REACH)]).collect(),
    }
}

/// Some of the points come last, in random order: they are inside the mesh by then, so that their steps skip them.
fn put_last(order: Vec<usize>, tenths: u64) -> Vec<usize> {
    let random = &mut Random(0xd1b5_4a32_d192_ed03);
    let (mut last, mut first): (Vec<usize>, Vec<usize>) =
        order.into_iter().partition(|_| random.next() % 10 < tenths);
    for i in (1..last.len()).rev() {
        last.swap(i, (random.next() % (i as u64 + 1)) as usize);
    }
    first.append(&mut last);
    first
}

/// The same in the order in which the Rust's `bulk_load` takes them, nearest first; those in random order stay as they are made.
pub fn bare(kind: &str, count: usize) -> Bare {
    let made = unsorted(kind, count);
    let points: Vec<Point> = match kind {
        "random order" => made.clone(),
        _ => by_distance(&made).into_iter().map(|i| made[i]).collect(),
    };
    let [flat, made_flat] = [&points, &made].map(|list| list.iter().map(|&p| flat(p)).collect());
    Bare { points, flat, made, made_flat }
}

/// The first three of an order that are not on one line, turning left, with a middle from which a sweep can start.
fn seed_of(points: &[Point], order: &[usize]) -> Option<[usize; 3]> {
    let &a = order.first()?;
    let &b = order.iter().find(|&&i| flat(points[i]) != flat(points[a]))?;
    let turned = |&c: &usize| match side_query(flat(points[a]), flat(points[b]), flat(points[c])).ok()? {
        0 => None,
        1.. => Some([a, b, c]),
        _ => Some([a, c, b]),
    };
    let starts = |seed: &[usize; 3]| {
        let corners = seed.map(|i| points[i]);
        Mesh::triangle(corners).is_ok_and(|mesh| mesh.locate(middle(corners), 0.0).is_ok())
    };
    order.iter().filter_map(turned).find(starts)
}

/// The same with a seed and a centre: as `bulk_load` sorts them, but for the spiral, the random order and what comes last.
pub fn make(kind: &str, count: usize) -> Input {
    let all = unsorted(kind, count);
    let sorted = by_distance(&all);
    let seed = seed_of(&all, &sorted).expect("three points that are not on one line");
    let order = match LAST.iter().find(|(name, _)| *name == kind) {
        Some(&(_, tenths)) => put_last(sorted, tenths),
        None if matches!(kind, "spiral" | "random order") => (0..count).collect(),
        None => sorted,
    };
    let corners = seed.map(|i| all[i]);
    let points: Vec<Point> = order.into_iter().filter(|i| !seed.contains(i)).map(|i| all[i]).collect();
    let (flat_corners, flat) = (corners.map(flat), points.iter().map(|&p| flat(p)).collect());
    Input { corners, center: middle(corners), points, flat_corners, flat }
}
