//! Inputs from fixed seeds. Case `number` of a `seed` is always the same input, whatever else is made.

use crate::case::Case;
use crate::driver::{boundary_angles, built, is_strict, refusal, Sweep};
use crate::mesh::{orient, Mesh, Position, RANGE};
use crate::random::Random;
use crate::Point2;

/// Half the side of the square that a case's coordinates come from.
const SPREADS: [i32; 9] = [2, 4, 8, 20, 100, 3_000, 100_000, 4_000_000, RANGE];

/// The case's number goes with its seed, so that the same numbers of two seeds differ. Every third case
/// is one of many skipped points.
pub fn case(seed: u64, number: u64, most_points: u64) -> Case {
    match number % 3 {
        2 => filling(seed, number, most_points),
        _ => sweeping(seed, number, most_points),
    }
}

/// A case whose points are placed about the seed, as in a sweep.
pub fn sweeping(seed: u64, number: u64, most_points: u64) -> Case {
    drawn(seed, number, |random, spread| {
        let (seed, centre) = seed_and_centre(random, spread)?;
        let points = points(random, &seed, centre, spread, most_points);
        Some((seed, centre, points))
    })
}

/// A case whose points lie in the seed, on its edges and its vertices, and between it and the centre.
pub fn filling(seed: u64, number: u64, most_points: u64) -> Case {
    drawn(!seed, number, |random, spread| {
        // By the number, so that a kind that is often refused keeps its share.
        let ((seed, centre), first) = match number / 3 % 6 {
            0 | 1 => (centre_outside(random, spread)?, None),
            2 => pinwheel(random, spread)?,
            3 => (quilt(random, spread)?, None),
            _ => (seed_and_centre(random, spread)?, None),
        };
        let mut points = points_within(random, &seed, centre, spread, most_points);
        points.splice(0..0, first);
        if random.one_in(2) {
            points = skipped_alone(&seed, centre, points)?;
        }
        Some((seed, centre, points))
    })
}

type Drawn = (Mesh, [f64; 2], Vec<Position>);

/// The first case that is not refused.
fn drawn(seed: u64, number: u64, mut draw: impl FnMut(&mut Random, i32) -> Option<Drawn>) -> Case {
    let mut random = Random::new(seed, number);
    loop {
        let spread = *random.pick(&SPREADS);
        let Some((seed, centre, points)) = draw(&mut random, spread) else { continue };
        let case = Case { number, seed, centre, points };
        if refusal(&case).is_none() {
            return case;
        }
    }
}

fn within(random: &mut Random, spread: i32) -> Position {
    [random.between(-spread, spread), random.between(-spread, spread)]
}

/// A position from numbers that may lie outside the range, or lie between whole ones.
fn rounded(x: f64, y: f64) -> Position {
    [x, y].map(|c| c.round().clamp(-f64::from(RANGE), f64::from(RANGE)) as i32)
}

// Seeds

fn seed_and_centre(random: &mut Random, spread: i32) -> Option<(Mesh, [f64; 2])> {
    match random.below(10) {
        0..=2 => {
            let mesh = triangle(random, spread)?;
            let centre = centre_near(random, &mesh, spread);
            Some((mesh, centre))
        }
        // The centre anywhere: outside the triangle where its ring is strict.
        3 => {
            let mesh = triangle(random, spread)?;
            let part = f64::from(random.between(0, 1)) / 2.0;
            Some((mesh, within(random, spread).map(|c| f64::from(c) + part)))
        }
        // The centre near a corner of the square, and the triangle about it.
        4 => {
            let [sx, sy] = [(); 2].map(|()| if random.one_in(2) { -spread } else { spread });
            let [a, b, c] = [(); 3].map(|()| {
                let [x, y] = within(random, (spread / 4).max(2));
                rounded(f64::from(sx) + f64::from(x), f64::from(sy) + f64::from(y))
            });
            let [b, c] = if orient(a, b, c) > 0 { [b, c] } else { [c, b] };
            let mesh = Mesh::triangle([a, b, c]);
            let centre = centre_near(random, &mesh, spread);
            Some((mesh, centre))
        }
        5 | 6 => swept_mesh(random, spread),
        7 => star(random, spread),
        8 => grid(random),
        _ => {
            let (mesh, centre) = swept_mesh(random, spread)?;
            let near = centre_near(random, &mesh, spread);
            Some((mesh, if random.one_in(2) { centre } else { near }))
        }
    }
}

/// A triangle of the square or, as in a sweep, a small one near its middle.
fn triangle(random: &mut Random, spread: i32) -> Option<Mesh> {
    let spread = if random.one_in(2) { spread } else { (spread / 8).max(2) };
    let [a, b, c] = [(); 3].map(|()| within(random, spread));
    match orient(a, b, c) {
        0 => None,
        turn if turn > 0 => Some(Mesh::triangle([a, b, c])),
        _ => Some(Mesh::triangle([a, c, b])),
    }
}

/// What a sweep leaves before its convexity pass, with its centre; often renumbered, with some edges
/// flipped at will and some boundary triangles taken away.
fn swept_mesh(random: &mut Random, spread: i32) -> Option<(Mesh, [f64; 2])> {
    let start = triangle(random, spread)?;
    let centre = centre_near(random, &start, spread);
    let count = 3 + random.below(14);
    let points = points(random, &start, centre, spread, count);
    let case = Case { number: 0, seed: start.clone(), centre, points };
    if refusal(&case).is_some() {
        return None;
    }
    let mut sweep = Sweep::new(&start, centre).ok()?;
    let mut mesh = start;
    for &position in &case.points {
        match sweep.step(position) {
            Ok([1, ..]) => mesh = sweep.rows(),
            Ok(_) | Err(crate::case::reason::AT_CENTRE) => {}
            Err(_) => break,
        }
    }
    if random.one_in(3) {
        return Some((mesh, centre));
    }
    let positions = mesh.positions.clone();
    let mut triangles = mesh.triangles();
    flip_at_will(random, &positions, &mut triangles);
    take_away(random, &positions, &mut triangles);
    Some((Mesh::of_triangles(&positions, &triangles, random)?, centre))
}

/// Flips diagonals of quadrilaterals that turn left at every corner.
fn flip_at_will(random: &mut Random, positions: &[Position], triangles: &mut [[u32; 3]]) {
    for _ in 0..random.below(4 * triangles.len() as u64) {
        let [i, j] = [(); 2].map(|()| random.below(triangles.len() as u64) as usize);
        for turn in 0..9 {
            let [a, b, c] = [0, 1, 2].map(|k| triangles[i][(k + turn % 3) % 3]);
            let [b2, a2, d] = [0, 1, 2].map(|k| triangles[j][(k + turn / 3) % 3]);
            let left = |t: [u32; 3]| {
                let [a, b, c] = t.map(|v| positions[v as usize]);
                orient(a, b, c) > 0
            };
            if i != j && a == a2 && b == b2 && left([c, a, d]) && left([d, b, c]) {
                triangles[i] = [c, a, d];
                triangles[j] = [d, b, c];
                break;
            }
        }
    }
}

/// Takes triangles away, where the mesh rules stay met.
fn take_away(random: &mut Random, positions: &[Position], triangles: &mut Vec<[u32; 3]>) {
    for _ in 0..random.below(2 + triangles.len() as u64 / 2) {
        if triangles.len() < 2 {
            return;
        }
        let at = random.below(triangles.len() as u64) as usize;
        let taken = triangles.swap_remove(at);
        if Mesh::of_triangles(positions, triangles, &mut Random::new(0, 0)).is_none() {
            triangles.push(taken);
        }
    }
}

/// A hub and a boundary about it that goes in and out.
fn star(random: &mut Random, spread: i32) -> Option<(Mesh, [f64; 2])> {
    let count = 3 + random.below(12) as usize;
    let mut positions = vec![[0, 0]];
    for i in 0..count {
        let angle = (i as f64 + 0.8 * random.unit()) * std::f64::consts::TAU / count as f64;
        let length = f64::from(spread) * if i % 2 == 0 { 1.0 } else { 0.1 + 0.9 * random.unit() };
        positions.push(rounded(length * angle.cos(), length * angle.sin()));
    }
    let count = count as u32;
    let mut triangles: Vec<[u32; 3]> = (0..count).map(|i| [0, i + 1, (i + 1) % count + 1]).collect();
    if random.one_in(2) {
        flip_at_will(random, &positions, &mut triangles);
    }
    let mesh = Mesh::of_triangles(&positions, &triangles, random)?;
    let centre = if random.one_in(2) { [0.0, 0.0] } else { centre_near(random, &mesh, spread) };
    Some((mesh, centre))
}

/// Squares with either diagonal: four corners on one circle everywhere.
fn grid(random: &mut Random) -> Option<(Mesh, [f64; 2])> {
    let side = 1 + random.below(4) as i32;
    let step = *random.pick(&[1, 3, 1000, RANGE / 4]);
    let corner = |x: i32, y: i32| (y * (side + 1) + x) as u32;
    let mut positions = Vec::new();
    let mut triangles = Vec::new();
    for y in 0..=side {
        for x in 0..=side {
            positions.push([x * step, y * step]);
            if x == side || y == side {
                continue;
            }
            let [a, b, c, d] = [corner(x, y), corner(x + 1, y), corner(x + 1, y + 1), corner(x, y + 1)];
            triangles.extend(match random.below(2) {
                0 => [[a, b, c], [a, c, d]],
                _ => [[b, c, d], [b, d, a]],
            });
        }
    }
    flip_at_will(random, &positions, &mut triangles);
    take_away(random, &positions, &mut triangles);
    let mesh = Mesh::of_triangles(&positions, &triangles, random)?;
    let centre = centre_near(random, &mesh, side * step);
    Some((mesh, centre))
}

/// A mesh, and a centre outside it, which sees the boundary go round once all the same where its ring
/// is strict: at most 3/4 of the angles between two of them are without a vertex.
fn centre_outside(random: &mut Random, spread: i32) -> Option<(Mesh, [f64; 2])> {
    let mesh = match random.below(4) {
        0 => swept_mesh(random, spread)?.0,
        _ => triangle(random, spread)?,
    };
    let [a, b] = {
        let e = *random.pick(&mesh.boundary());
        [e, mesh.next(e)].map(|e| mesh.position(e).map(f64::from))
    };
    // Beside a boundary edge, on its left: the boundary has the mesh on its right.
    let [along, off] = [random.unit(), 0.5 * random.unit()];
    let [dx, dy] = [b[0] - a[0], b[1] - a[1]];
    let centre = [a[0] + along * dx - off * dy, a[1] + along * dy + off * dx];
    let centre = if random.one_in(2) { centre.map(f64::round) } else { centre };
    let angles = boundary_angles(&built(&mesh), Point2::new(centre[0], centre[1]));
    is_strict(&angles).then_some((mesh, centre))
}

/// Three blades about a triangle, and a point in that triangle on the line of one of its spokes. Where
/// the search comes along that spoke, it turns off and goes round the blades for ever.
fn pinwheel(random: &mut Random, spread: i32) -> Option<((Mesh, [f64; 2]), Option<Position>)> {
    let size = f64::from(spread.clamp(18, RANGE)) / 18.0;
    let bend = *random.pick(&[0.0, 0.0, 0.3]);
    let turned = random.one_in(2);
    let place = |[x, y]: [f64; 2]| {
        let [x, y] = [x, y].map(|c| size * c);
        if turned {
            rounded(-y, x)
        } else {
            rounded(x, y)
        }
    };
    let positions = BLADES.map(|[x, y]| {
        // The spoke stays on its line.
        let bend = if y == 0 { 0.0 } else { bend };
        let [dx, dy] = [(); 2].map(|()| bend * (2.0 * random.unit() - 1.0));
        place([f64::from(x) + dx, f64::from(y) + dy])
    });
    let first = place([-1.2 + random.unit(), 0.0]);
    let mut triangles = PINWHEEL;
    if random.one_in(4) {
        flip_at_will(random, &positions, &mut triangles);
    }
    let mesh = Mesh::of_triangles(&positions, &triangles, random)?;
    let centre = centre_near(random, &mesh, spread);
    Some(((mesh, centre), Some(first)))
}

/// The pinwheel as it is, numbered so that the search for its point goes round for ever.
pub fn going_round() -> Case {
    let mut seed = Mesh::of_triangles(&BLADES, &PINWHEEL, &mut Random::new(0, 0)).unwrap();
    let at = |position: Position| seed.positions.iter().position(|&p| p == position).unwrap() as u32;
    let [from, to] = [at([-2, 0]), at([-8, 0])];
    let spoke =
        (0..seed.half_edges.len() as u32).find(|&e| seed.origin(e) == from && seed.origin(e ^ 1) == to);
    seed.out_edges[from as usize] = spoke.unwrap();
    Case { number: 0, seed, centre: [-0.5, 0.0], points: vec![[-1, 0]] }
}

/// So many triangles about (0,0), and a point that flips all their edges one after the other.
pub fn fan(count: u32) -> Case {
    let rim = (0..=count as i32).map(|i| [-4 * i, 40]);
    let positions: Vec<Position> = [[0, 0]].into_iter().chain(rim).collect();
    let triangles: Vec<[u32; 3]> = (0..count).map(|i| [0, i + 1, i + 2]).collect();
    let seed = Mesh::of_triangles(&positions, &triangles, &mut Random::new(0, 0)).unwrap();
    Case { number: 0, seed, centre: [-6.0, 30.0], points: vec![[1, 6]] }
}

const BLADES: [Position; 9] =
    [[4, 7], [-8, 0], [1, -1], [1, 1], [4, -7], [10, -15], [-18, -1], [-2, 0], [8, 16]];

const PINWHEEL: [[u32; 3]; 13] = [
    [2, 7, 4],
    [1, 6, 5],
    [7, 2, 3],
    [1, 7, 3],
    [3, 8, 6],
    [1, 5, 7],
    [4, 5, 8],
    [3, 2, 4],
    [3, 0, 8],
    [0, 3, 4],
    [1, 3, 6],
    [5, 4, 7],
    [8, 0, 4],
];

/// A square of bent squares, its boundary straight and so without a left corner, its edges flipped at
/// will: convex and unsettled.
fn quilt(random: &mut Random, spread: i32) -> Option<(Mesh, [f64; 2])> {
    let side = 2 + random.below(4) as i32;
    let step = (spread / side).max(1);
    let inner = |k: i32| 0 < k && k < side;
    let mut positions = Vec::new();
    for y in 0..=side {
        for x in 0..=side {
            let [dx, dy] = within(random, step / 3);
            let [dx, dy] = if inner(x) && inner(y) { [dx, dy] } else { [0, 0] };
            positions.push([x * step + dx, y * step + dy]);
        }
    }
    let corner = |x: i32, y: i32| (y * (side + 1) + x) as u32;
    let squares = (0..side * side).map(|i| (i % side, i / side));
    let mut triangles: Vec<[u32; 3]> = squares
        .flat_map(|(x, y)| {
            let [a, b, c, d] = [corner(x, y), corner(x + 1, y), corner(x + 1, y + 1), corner(x, y + 1)];
            [[a, b, c], [a, c, d]]
        })
        .collect();
    for _ in 0..3 {
        flip_at_will(random, &positions, &mut triangles);
    }
    let mesh = Mesh::of_triangles(&positions, &triangles, random)?;
    // A straight corner seen from inside has an angle of its own.
    let centre = centre_near(random, &mesh, side * step);
    Some((mesh, centre))
}

// Centres

/// A point inside a triangle of the mesh, whole or not, or near the mesh.
fn centre_near(random: &mut Random, mesh: &Mesh, spread: i32) -> [f64; 2] {
    let triangle = *random.pick(&mesh.triangles());
    let corners = triangle.map(|v| mesh.positions[v as usize].map(f64::from));
    let middle = [0, 1].map(|i| (corners[0][i] + corners[1][i] + corners[2][i]) / 3.0);
    match random.below(8) {
        0 | 1 => middle,
        2 | 3 => middle.map(f64::round),
        4 => middle.map(|c| (c * 4.0).round() / 4.0),
        5 => {
            let [u, v] = [random.unit(), random.unit()];
            let [u, v] = if u + v > 1.0 { [1.0 - u, 1.0 - v] } else { [u, v] };
            let [a, b, c] = corners;
            [0, 1].map(|i| a[i] + u * (b[i] - a[i]) + v * (c[i] - a[i]))
        }
        // Beside a whole point by too little to count in many a difference.
        6 => {
            let tiny = *random.pick(&[1e-3, 2f64.powi(-30), 2f64.powi(-40), -2f64.powi(-40)]);
            let along = random.below(2) as usize;
            let mut centre = middle.map(f64::round);
            centre[along] += tiny;
            centre
        }
        _ => within(random, spread).map(f64::from),
    }
}

// Points

fn points(random: &mut Random, seed: &Mesh, centre: [f64; 2], spread: i32, most: u64) -> Vec<Position> {
    let count = random.below(most + 1) as usize;
    let mut points = placed(random, seed, centre, spread, count);
    if random.one_in(4) {
        repeat_some(random, seed, &mut points);
    }
    let distance = |p: &Position| {
        let [dx, dy] = [f64::from(p[0]) - centre[0], f64::from(p[1]) - centre[1]];
        dx * dx + dy * dy
    };
    match random.below(5) {
        // As the Rust's own wrapper has them.
        0..=2 => points.sort_by(|p, q| distance(p).total_cmp(&distance(q))),
        3 => points.sort_by(|p, q| distance(q).total_cmp(&distance(p))),
        _ => {}
    }
    points
}

/// Points of the seed: in its triangles, on its edges and vertices, beside them, towards the centre; and
/// some elsewhere, often before all others, so that the others are skipped and the mesh is larger.
fn points_within(
    random: &mut Random,
    seed: &Mesh,
    centre: [f64; 2],
    spread: i32,
    most: u64,
) -> Vec<Position> {
    let count = random.below(most + 1) as usize;
    let elsewhere = if random.one_in(2) { 0 } else { random.below(1 + count as u64 / 2) as usize };
    let mut points = placed(random, seed, centre, spread, elsewhere);
    let kinds = 1 + random.below(63);
    while points.len() < count {
        let kind = random.below(6);
        if kinds >> kind & 1 == 1 {
            let point = point_within(random, seed, centre, kind);
            points.push(point);
        }
    }
    if random.one_in(3) {
        repeat_some(random, seed, &mut points);
    }
    if random.one_in(3) {
        random.shuffle(&mut points);
    }
    points
}

/// The points that a step from the seed skips: they go into the seed as it stands.
fn skipped_alone(seed: &Mesh, centre: [f64; 2], points: Vec<Position>) -> Option<Vec<Position>> {
    let case = Case { number: 0, seed: seed.clone(), centre, points };
    if refusal(&case).is_some() {
        return None;
    }
    let skipped = |&position: &Position| {
        let step = Sweep::new(seed, centre).and_then(|mut sweep| sweep.step(position));
        matches!(step, Ok([3, ..]))
    };
    Some(case.points.into_iter().filter(skipped).collect())
}

fn point_within(random: &mut Random, seed: &Mesh, centre: [f64; 2], kind: u64) -> Position {
    let e = random.below(seed.half_edges.len() as u64) as u32;
    let [a, b, c] = [e, seed.next(e), seed.prev(e)].map(|e| seed.position(e));
    let between = |p: Position, q: [f64; 2], part: f64| {
        let [x, y] = [0, 1].map(|i| f64::from(p[i]) + part * (q[i] - f64::from(p[i])));
        rounded(x, y)
    };
    match kind {
        0 => a,
        // On the edge, where it has a grid point between its ends.
        1 => {
            let [dx, dy] = [b[0] - a[0], b[1] - a[1]];
            let parts = greatest_divisor(dx.abs(), dy.abs()).max(1);
            let k = random.between(0, parts);
            [a[0] + dx / parts * k, a[1] + dy / parts * k]
        }
        // On the line between the edge and the far vertex, or the next but one of the boundary.
        2 => {
            let [u, v] = [random.unit(), random.unit()];
            let q = between(b, c.map(f64::from), u).map(f64::from);
            between(a, q, v)
        }
        // Towards the centre, up to a little beyond it.
        3 => {
            let [u, v] = [random.unit(), 1.25 * random.unit()];
            between(between(a, b.map(f64::from), u), centre, v)
        }
        // Beyond the edge's first end, in its line or beside it.
        4 => {
            let [u, v] = [-2.0 * random.unit(), if random.one_in(2) { 0.0 } else { random.unit() - 0.5 }];
            let [dx, dy] = [b[0] - a[0], b[1] - a[1]].map(f64::from);
            rounded(f64::from(a[0]) + u * (dx - v * dy), f64::from(a[1]) + u * (dy + v * dx))
        }
        // Beside the edge.
        _ => {
            let [u, v] = [random.unit(), 0.25 * random.unit()];
            let [dx, dy] = [b[0] - a[0], b[1] - a[1]].map(f64::from);
            rounded(f64::from(a[0]) + u * dx - v * dy, f64::from(a[1]) + u * dy + v * dx)
        }
    }
}

fn greatest_divisor(a: i32, b: i32) -> i32 {
    if b == 0 {
        a
    } else {
        greatest_divisor(b, a % b)
    }
}

/// Sets points to others of the list, or to vertices of the seed.
fn repeat_some(random: &mut Random, seed: &Mesh, points: &mut [Position]) {
    for i in 0..points.len() {
        match random.below(6) {
            0 => points[i] = *random.pick(points),
            1 => points[i] = *random.pick(&seed.positions),
            _ => {}
        }
    }
}

fn placed(random: &mut Random, seed: &Mesh, centre: [f64; 2], spread: i32, count: usize) -> Vec<Position> {
    let far = f64::from(spread);
    let [cx, cy] = centre;
    match random.below(12) {
        // Anywhere in the square.
        0 | 1 => (0..count).map(|_| within(random, spread)).collect(),
        // Clusters.
        2 => {
            let hubs: Vec<Position> = (0..3).map(|_| within(random, spread)).collect();
            let near = |random: &mut Random| {
                let [hub, off] = [*random.pick(&hubs), within(random, (spread / 16).max(1))];
                rounded(f64::from(hub[0]) + f64::from(off[0]), f64::from(hub[1]) + f64::from(off[1]))
            };
            (0..count).map(|_| near(random)).collect()
        }
        // On a few lines.
        3 => {
            let lines: Vec<[Position; 2]> =
                (0..2).map(|_| [within(random, spread), within(random, (spread / 9).max(1))]).collect();
            let on = |random: &mut Random| {
                let [start, way] = *random.pick(&lines);
                let k = f64::from(random.between(-9, 9));
                rounded(
                    f64::from(start[0]) + k * f64::from(way[0]),
                    f64::from(start[1]) + k * f64::from(way[1]),
                )
            };
            (0..count).map(|_| on(random)).collect()
        }
        // On a grid.
        4 => {
            let step = (spread / 3).max(1);
            let k = |random: &mut Random| random.between(-3, 3) * step;
            (0..count).map(|_| [k(random), k(random)]).collect()
        }
        // On rays from the centre, and on rays through the seed's vertices.
        5 => {
            let mut ways: Vec<[f64; 2]> =
                (0..3).map(|_| within(random, (spread / 8).max(1)).map(f64::from)).collect();
            ways.extend(seed.positions.iter().map(|p| [f64::from(p[0]) - cx, f64::from(p[1]) - cy]));
            let on = |random: &mut Random| {
                let [x, y] = *random.pick(&ways);
                let k = f64::from(random.between(-2, 9));
                rounded(cx + k * x, cy + k * y)
            };
            (0..count).map(|_| on(random)).collect()
        }
        // Level with the centre and above it: the angles 0.0, 0.25, 0.5, 0.75 and 1.0.
        6 => {
            let on = |random: &mut Random| {
                let k = far * (2.0 * random.unit() - 1.0);
                if random.one_in(2) {
                    rounded(cx + k, cy)
                } else {
                    rounded(cx, cy + k)
                }
            };
            (0..count).map(|_| on(random)).collect()
        }
        // Far away in nearly one direction: angles that rounding makes equal, or nearly.
        7 => {
            let [sx, sy] = [(); 2].map(|()| if random.one_in(2) { -1.0 } else { 1.0 });
            let swapped = random.one_in(2);
            let on = |random: &mut Random| {
                let n = 2.0 * far - f64::from(random.between(0, 6));
                let m = n - f64::from(random.between(0, 2));
                let [x, y] = if swapped { [n, m] } else { [m, n] };
                rounded(cx + sx * x, cy + sy * y)
            };
            (0..count).map(|_| on(random)).collect()
        }
        // Far west and east, level with the centre or beside that: the angles about 0.0, 0.5 and 1.0.
        8 => {
            let on = |random: &mut Random| {
                let x = far * if random.one_in(4) { 1.0 } else { -1.0 };
                let [k, l] = [(); 2].map(|()| f64::from(random.between(-2, 2)));
                rounded(cx + x + k, cy + l)
            };
            (0..count).map(|_| on(random)).collect()
        }
        // About circles: many on one circle, or nearly.
        9 => {
            let corner = within(random, spread);
            let [x, y] = corner.map(f64::from);
            let on = |random: &mut Random| {
                let [x, y] = if random.one_in(2) { [x, y] } else { [y, x] };
                let [sx, sy] = [(); 2].map(|()| if random.one_in(2) { -1.0 } else { 1.0 });
                let k = f64::from(random.between(1, 2));
                rounded(cx + sx * x / k, cy + sy * y / k)
            };
            (0..count).map(|_| on(random)).collect()
        }
        // A great ring of nodes, then a few points far outside it that take many of its edges.
        10 => {
            let at = |random: &mut Random, i: usize| {
                let part = if i + 6 < count { 0.3 + 0.02 * random.unit() } else { 0.5 + random.unit() };
                let angle = random.unit() * std::f64::consts::TAU;
                rounded(cx + far * part * angle.cos(), cy + far * part * angle.sin())
            };
            (0..count).map(|i| at(random, i)).collect()
        }
        // Round and round, outward.
        _ => {
            let turns = 1.0 + 3.0 * random.unit();
            let at = |i: usize| {
                let part = (i + 1) as f64 / count as f64;
                let angle = turns * part * std::f64::consts::TAU;
                rounded(cx + far * part * angle.cos(), cy + far * part * angle.sin())
            };
            (0..count).map(at).collect()
        }
    }
}
