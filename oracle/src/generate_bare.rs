//! Lists of bare points from fixed seeds. List `number` of a `seed` is always the same, whatever else is made.
//!
//! A seed grows for as long as the middle of its last three vertices is strictly inside no triangle. That is
//! seldom: on lines, about the origin, where the middle may lie on an edge through it, and at the range's end,
//! where the Rust's third of 1 is so much too large that the middle may fall outside. Some kinds are made for it.

use crate::mesh::{Position, RANGE};
use crate::random::Random;

/// Half the side of the square that a list's coordinates come from.
const SPREADS: [i32; 10] = [1, 2, 4, 8, 20, 100, 3_000, 100_000, 4_000_000, RANGE];

const KINDS: u64 = 14;

/// The kind goes by the number, so that each has its share.
pub fn points(seed: u64, number: u64, most: u64) -> Vec<Position> {
    let random = &mut Random::new(seed ^ 0x6261_7265, number);
    let spread = *random.pick(&SPREADS);
    let count = random.below(most + 1) as usize;
    let mut points = match number % KINDS {
        0 => few(random, spread),
        1 => square(random, spread, count),
        2 => square(random, 1 + (spread % 3), count),
        3 => grid(random, spread, count),
        4 => clusters(random, spread, count),
        5 => line(random, spread, count),
        6 => vec![within(random, spread); count],
        7 => far_apart(random, count),
        8 => line_and_others(random, spread, count),
        9 => at_the_end(random, count),
        10 => strip(random, count),
        11 => opposite(random, spread, count),
        12 => circle(random, spread, count),
        _ => lines_first(random, spread, count),
    };
    if random.one_in(4) && !points.is_empty() {
        repeat(random, &mut points);
    }
    points
}

fn clamped(x: i64, y: i64) -> Position {
    [x, y].map(|c| c.clamp(-i64::from(RANGE), i64::from(RANGE)) as i32)
}

fn moved(p: Position, q: Position) -> Position {
    clamped(i64::from(p[0]) + i64::from(q[0]), i64::from(p[1]) + i64::from(q[1]))
}

fn within(random: &mut Random, spread: i32) -> Position {
    [random.between(-spread, spread), random.between(-spread, spread)]
}

/// Some of the points once more, at any place.
fn repeat(random: &mut Random, points: &mut Vec<Position>) {
    for _ in 0..1 + random.below(4) {
        let again = *random.pick(points);
        let at = random.below(points.len() as u64 + 1) as usize;
        points.insert(at, again);
    }
}

/// No point, or up to five.
fn few(random: &mut Random, spread: i32) -> Vec<Position> {
    (0..random.below(6)).map(|_| within(random, spread)).collect()
}

/// Anywhere in a square; now and then the square lies at the range's end.
fn square(random: &mut Random, spread: i32, count: usize) -> Vec<Position> {
    let middle = if random.one_in(3) { within(random, RANGE) } else { [0, 0] };
    (0..count).map(|_| moved(middle, within(random, spread))).collect()
}

/// All points of a grid, row by row, in spirals of squares, or in any order.
fn grid(random: &mut Random, spread: i32, count: usize) -> Vec<Position> {
    let side = (count as f64).sqrt() as i32;
    let step = (spread / side.max(1)).max(1);
    let middle = within(random, spread);
    let cell = |i: i32| [i % side.max(1) - side / 2, i / side.max(1) - side / 2];
    let mut cells: Vec<Position> = (0..side * side).map(cell).collect();
    match random.below(3) {
        0 => {}
        1 => cells.sort_by_key(|c| c[0].abs().max(c[1].abs())),
        _ => random.shuffle(&mut cells),
    }
    let middle = if random.one_in(2) { [0, 0] } else { middle };
    cells.into_iter().map(|[x, y]| moved(middle, [x * step, y * step])).collect()
}

fn clusters(random: &mut Random, spread: i32, count: usize) -> Vec<Position> {
    let hubs: Vec<Position> = (0..3).map(|_| within(random, spread)).collect();
    let near = |random: &mut Random| {
        let hub = *random.pick(&hubs);
        moved(hub, within(random, (spread / 16).max(1)))
    };
    (0..count).map(|_| near(random)).collect()
}

/// Two clusters at opposite ends of the range: one first, by turns, or in any order.
fn far_apart(random: &mut Random, count: usize) -> Vec<Position> {
    let hub = *random.pick(&[[RANGE, RANGE], [RANGE, 0], [0, -RANGE], [-RANGE, RANGE - 5], [RANGE / 2, 7]]);
    let hubs = [hub, hub.map(|c| -c)];
    let size = *random.pick(&[1, 2, 6, 300]);
    let order = random.below(3);
    let chosen = |random: &mut Random, i: usize| match order {
        0 => hubs[usize::from(2 * i >= count)],
        1 => hubs[i % 2],
        _ => *random.pick(&hubs),
    };
    let at = |random: &mut Random, i: usize| {
        let hub = chosen(random, i);
        moved(hub, within(random, size))
    };
    (0..count).map(|i| at(random, i)).collect()
}

/// A point of a line and its direction: level, upright, slanted, or through the origin.
fn direction(random: &mut Random, spread: i32) -> [Position; 2] {
    let start = if random.one_in(3) { [0, 0] } else { within(random, spread) };
    let way = match random.below(4) {
        0 => [1, 0],
        1 => [0, 1],
        _ => within(random, (spread / 9).max(1)),
    };
    [start, if way == [0, 0] { [1, -1] } else { way }]
}

/// A point on a line, not moved off it where it would pass the range's end.
fn on_line(random: &mut Random, [start, way]: [Position; 2], count: usize) -> Position {
    let reach = *random.pick(&[2, 9, 2 * count as i32 + 1]);
    loop {
        let k = i64::from(random.between(-reach, reach));
        let at = [0, 1].map(|i| i64::from(start[i]) + k * i64::from(way[i]));
        if at.iter().all(|c| c.abs() <= i64::from(RANGE)) {
            return at.map(|c| c as i32);
        }
    }
}

/// All on one line; the order is any, or along it.
fn line(random: &mut Random, spread: i32, count: usize) -> Vec<Position> {
    let along = direction(random, spread);
    let mut points: Vec<Position> = (0..count).map(|_| on_line(random, along, count)).collect();
    match random.below(4) {
        0 => points.sort_unstable(),
        1 => points.sort_unstable_by(|a, b| b.cmp(a)),
        _ => {}
    }
    points
}

/// A line, and one point off it or some: before it, after it or within it, on either side.
fn line_and_others(random: &mut Random, spread: i32, count: usize) -> Vec<Position> {
    let along = direction(random, spread);
    let mut points: Vec<Position> = (0..count).map(|_| on_line(random, along, count)).collect();
    let others = *random.pick(&[1, 1, 1, 2, 5]);
    for _ in 0..others {
        let reach = *random.pick(&[1, 3, spread]);
        let off = within(random, reach);
        let near = if points.is_empty() { along[0] } else { *random.pick(&points) };
        let at = match random.below(4) {
            0 => 0,
            1 => points.len(),
            2 => points.len() / 2,
            _ => random.below(points.len() as u64 + 1) as usize,
        };
        points.insert(at, moved(near, off));
    }
    points
}

/// Within a few millimetres of a corner of the range, or of the middle of a side: the middle of three is moved
/// out by about half.
fn at_the_end(random: &mut Random, count: usize) -> Vec<Position> {
    let far = random.between(RANGE - 20, RANGE);
    let [sx, sy] = [(); 2].map(|()| *random.pick(&[-1, 0, 1, 1]));
    let hub = [sx * far, sy * far];
    let size = *random.pick(&[1, 1, 2, 3, 8]);
    (0..count).map(|_| moved(hub, within(random, size))).collect()
}

/// Two columns at the range's end, after a line that may lead there from far away: a seed that grows on, since the
/// middle of its last three vertices is moved out of it.
fn strip(random: &mut Random, count: usize) -> Vec<Position> {
    let turned = random.below(4);
    let tall = *random.pick(&[3, 12, 60, 1_000, 1_000_000]);
    let mut points = Vec::new();
    let from_afar = random.one_in(2);
    for _ in 0..random.below(count as u64 / 2 + 1) {
        let k = random.between(0, tall);
        points.push(if from_afar { [RANGE - k, 0] } else { [RANGE, k] });
    }
    if from_afar {
        points.extend([[RANGE - 1, 0], [RANGE, 0]]);
    }
    while points.len() < count {
        let i = points.len() as i32;
        let back = i32::from(i % 3 == 0 && !random.one_in(3));
        points.push([RANGE - back, random.between(-tall / 4, tall)]);
    }
    let turn = |[x, y]: Position| match turned {
        0 => [x, y],
        1 => [-x, y],
        2 => [y, x],
        _ => [y, -x],
    };
    points.into_iter().map(turn).collect()
}

/// The origin, then points and their opposites, so that the middle of three often lies on an edge from the origin.
fn opposite(random: &mut Random, spread: i32, count: usize) -> Vec<Position> {
    let spread = *random.pick(&[1, 2, 3, spread]);
    let mut points = vec![[0, 0]];
    while points.len() < count {
        let p = within(random, spread);
        points.extend([p, p.map(|c| -c)]);
        if random.one_in(3) {
            points.push(within(random, spread));
        }
    }
    points.truncate(count);
    points
}

/// About circles, sorted by angle or not: many on one circle.
fn circle(random: &mut Random, spread: i32, count: usize) -> Vec<Position> {
    let [x, y] = within(random, spread);
    let far = f64::from(spread);
    let middle = if random.one_in(2) { [0, 0] } else { within(random, spread / 3) };
    let exact = random.one_in(2);
    let at = |random: &mut Random, i: usize| {
        if exact {
            let [x, y] = if random.one_in(2) { [x, y] } else { [y, x] };
            let [sx, sy] = [(); 2].map(|()| *random.pick(&[-1, 1]));
            return moved(middle, [sx * x, sy * y]);
        }
        let angle = i as f64 * std::f64::consts::TAU / count as f64;
        let part = 0.9 + 0.1 * random.unit();
        moved(middle, [(far * part * angle.cos()).round() as i32, (far * part * angle.sin()).round() as i32])
    };
    (0..count).map(|i| at(random, i)).collect()
}

/// A line through the origin whose last two points are opposite, then points off it: the middle of these lies on
/// the edge from the origin.
fn lines_first(random: &mut Random, spread: i32, count: usize) -> Vec<Position> {
    let way = within(random, (spread / 8).max(1));
    let way = if way == [0, 0] { [0, 1] } else { way };
    let on = |k: i32| way.map(|c| k * c);
    let mut points = vec![[0, 0]];
    for _ in 0..random.below(4) {
        points.push(on(random.between(-4, 4)));
    }
    let k = random.between(5, 8);
    points.extend([on(k), on(-k)]);
    while points.len() < count {
        points.push(within(random, spread));
    }
    points
}
