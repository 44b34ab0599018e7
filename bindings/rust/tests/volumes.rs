//! Volumes beside the same sum in i128: as large as they can be, at exact halves, at the limits of heights and levels, and of random meshes.

mod common;

use common::{of_triangles, Random};
use fithmoul::{Mesh, Point, Refusal, Volume, HEIGHT_RANGE, MOST_VERTICES, RANGE};

/// The definition, triangle by triangle, and the nearest whole number of cubic metres.
fn expected(mesh: &Mesh, level: i32) -> Volume {
    let mut six_volumes = 0i128;
    for corners in mesh.triangles() {
        let [a, b, c] = corners.map(|v| mesh.positions()[v as usize].map(i128::from));
        let doubled_area = (b[0] - a[0]) * (c[1] - a[1]) - (b[1] - a[1]) * (c[0] - a[0]);
        let heights: i128 = corners.iter().map(|&v| i128::from(mesh.heights()[v as usize])).sum();
        six_volumes += doubled_area * (heights - 3 * i128::from(level));
    }
    // the whole number below, and the next one where that is nearer, or as near and even
    let (below, rest) = (six_volumes.div_euclid(6_000_000_000), six_volumes.rem_euclid(6_000_000_000));
    let up = rest > 3_000_000_000 || (rest == 3_000_000_000 && below % 2 != 0);
    let cubic_metres = i64::try_from(below + i128::from(up)).expect("a number of 64 bits");
    Volume { six_volumes, cubic_metres }
}

fn agrees(mesh: &Mesh, level: i32) -> Volume {
    let volume = mesh.volume(level).expect("a good mesh");
    assert_eq!(volume, expected(mesh, level), "level {level}");
    volume
}

/// The same mesh at other heights.
fn raised(mesh: &Mesh, mut height: impl FnMut() -> i32) -> Mesh {
    let points: Vec<Point> = mesh.positions().iter().map(|&[x, y]| [x, y, height()]).collect();
    Mesh::from_rows(&points, mesh.outs(), mesh.halves(), mesh.adjacent()).expect("a good mesh")
}

/// At both limits in height and level, so that every triangle counts as much as it can, up or down; and at heights that go up and down.
fn at_the_limits(mesh: &Mesh, doubled_area: i128) {
    for (height, level) in [(HEIGHT_RANGE, -HEIGHT_RANGE), (-HEIGHT_RANGE, HEIGHT_RANGE)] {
        let six_volumes = agrees(&raised(mesh, || height), level).six_volumes;
        assert_eq!(six_volumes, doubled_area * 3 * i128::from(height - level));
    }
    let random = &mut Random(0x9e37_79b9_7f4a_7c15);
    let mixed = raised(mesh, || [-HEIGHT_RANGE, HEIGHT_RANGE][random.below(2) as usize]);
    for level in [0, -HEIGHT_RANGE, HEIGHT_RANGE] {
        agrees(&mixed, level);
    }
}

const CORNERS: [[i32; 2]; 4] = [[RANGE, RANGE], [-RANGE, RANGE], [-RANGE, -RANGE], [RANGE, -RANGE]];

/// No volume is larger. With V vertices, F triangles and B half-edges round the outside F = 2V - 2 - B. The doubled areas total at most F * 4R^2, R being the
/// greatest coordinate; and they total the cross products of B pairs of neighbours, each at most 2R^2. Twice the second and the first together: three times
/// the total is at most (2V - 2) * 4R^2. Squares as large as the range, all joined at one corner, have three vertices and two triangles each, and reach that.
#[test]
fn as_large_as_can_be() {
    let squares = (MOST_VERTICES as u32 - 1) / 3;
    let mut points = vec![[RANGE, RANGE, 0]];
    let mut triangles = Vec::new();
    for i in 0..squares {
        points.extend(CORNERS[1..].iter().map(|&[x, y]| [x, y, 0]));
        let [a, b, c] = [1, 2, 3].map(|k| 3 * i + k);
        triangles.extend([[0, a, b], [0, b, c]]);
    }
    let mesh = of_triangles(&points, &triangles);
    assert_eq!(mesh.vertex_count(), MOST_VERTICES);
    let most = (2 * MOST_VERTICES as i128 - 2) * (4 * i128::from(RANGE).pow(2));
    assert_eq!(most % 3, 0);
    at_the_limits(&mesh, most / 3);
}

/// About the centre of the range, over its corners: 249,999 times round. Three vertices that are left over are in the middle of sides.
#[test]
fn many_times_round() {
    let rim = MOST_VERTICES as u32 - 1;
    let mut points = vec![[0, 0, 0]];
    for i in 0..rim / 4 * 4 {
        let ([x, y], [u, v]) = (CORNERS[i as usize % 4], CORNERS[(i as usize + 1) % 4]);
        points.push([x, y, 0]);
        if i < rim % 4 {
            points.push([(x + u) / 2, (y + v) / 2, 0]);
        }
    }
    assert_eq!(points.len(), MOST_VERTICES);
    let triangles: Vec<[u32; 3]> = (0..rim).map(|i| [0, i + 1, (i + 1) % rim + 1]).collect();
    let mesh = of_triangles(&points, &triangles);
    at_the_limits(&mesh, i128::from(rim / 4) * (8 * i128::from(RANGE).pow(2)));
}

/// A triangle of this doubled area at most 2^50, and of these heights.
fn triangle(doubled_area: i64, heights: [i32; 3]) -> Mesh {
    // width * height - u, of corners (0, 0), (width, u) and (1, height) moved to a corner of the range
    let width = 2 * i64::from(RANGE);
    let height = (doubled_area + width - 1) / width;
    let u = width * height - doubled_area;
    let corners = [[0, 0], [width, u], [1, height]].map(|p| p.map(|c| (c - i64::from(RANGE)) as i32));
    let points = [0, 1, 2].map(|k| [corners[k][0], corners[k][1], heights[k]]);
    Mesh::triangle(points).expect("it turns left")
}

/// Three heights of this sum.
fn heights_of(sum: i32) -> [i32; 3] {
    [0, 1, 2].map(|k| (sum + k * sum.signum()) / 3)
}

#[test]
fn exact_halves() {
    let half = 3_000_000_000;
    // 0.5, 1.5, 2.5 and 3.5 cubic metres, and next to them
    for (doubled_area, metres) in [
        (half, 0),
        (half - 1, 0),
        (half + 1, 1),
        (3 * half - 1, 1),
        (3 * half, 2),
        (3 * half + 1, 2),
        (5 * half - 1, 2),
        (5 * half, 2),
        (5 * half + 1, 3),
        (7 * half - 1, 3),
        (7 * half, 4),
        (7 * half + 1, 4),
    ] {
        for sign in [1, -1] {
            let volume = agrees(&triangle(doubled_area, [0, sign, 0]), 0);
            assert_eq!(volume.six_volumes, i128::from(doubled_area) * i128::from(sign));
            assert_eq!(volume.cubic_metres, metres * i64::from(sign));
            // the same against a level
            assert_eq!(agrees(&triangle(doubled_area, [-sign, -sign, 0]), -sign), volume);
        }
    }
    // large ones: an odd number of halves
    let random = &mut Random(0x2545_f491_4f6c_dd1d);
    for _ in 0..2_000 {
        let doubled_area = half * (2 * random.below(187_000) as i64 + 1);
        let sum = 2 * random.within(3 * HEIGHT_RANGE / 2 - 1) + 1;
        let volume = agrees(&triangle(doubled_area, heights_of(sum)), 0);
        assert_eq!(volume.six_volumes.abs() % (2 * i128::from(half)), i128::from(half));
        let off = i128::from(volume.cubic_metres) * 2 * i128::from(half) - volume.six_volumes;
        assert_eq!((off.abs(), volume.cubic_metres % 2), (i128::from(half), 0));
    }
}

#[test]
fn limits_of_levels_and_heights() {
    let r = HEIGHT_RANGE;
    let mesh = Mesh::triangle([[0, 0, r], [9, 0, -r], [0, 9, r]]).expect("heights at the limits");
    for level in [r, -r] {
        agrees(&mesh, level);
    }
    for level in [r + 1, -r - 1, i32::MAX, i32::MIN] {
        assert_eq!(mesh.volume(level).unwrap_err(), Refusal::Height);
    }
    for beyond in [r + 1, -r - 1, i32::MAX, i32::MIN] {
        for k in 0..3 {
            let mut corners = [[0, 0, r], [9, 0, -r], [0, 9, r]];
            corners[k][2] = beyond;
            assert_eq!(Mesh::triangle(corners).unwrap_err(), Refusal::Height);
            // a coordinate comes first, of whichever vertex
            corners[2][0] = RANGE + 1;
            assert_eq!(Mesh::triangle(corners).unwrap_err(), Refusal::Coordinate { vertex: 2 });
        }
    }
}

/// Points in a square, most of them in the mesh.
fn random_points(random: &mut Random, count: u64, reach: i32, rise: i32) -> Vec<Point> {
    (0..count).map(|_| [random.within(reach), random.within(reach), random.within(rise)]).collect()
}

#[test]
fn random_meshes() {
    let random = &mut Random(0x0123_4567_89ab_cdef);
    for (count, reach, rise) in [(9, 4, 3), (40, 50, 9), (300, 100_000, 5_000), (3_000, RANGE, HEIGHT_RANGE)]
    {
        for _ in 0..12 {
            let loaded = Mesh::bulk_load(&random_points(random, count, reach, rise)).expect("accepted");
            let mesh = loaded.shape.into_mesh().expect("a triangle");
            let level = random.within(rise);
            let above = agrees(&mesh, level).six_volumes;
            // a level higher takes a layer over the boundary's area away
            let boundary = mesh.boundary();
            let layer: i128 = (0..boundary.len())
                .map(|k| {
                    // clockwise, so backwards
                    let [b, a] = [k, (k + 1) % boundary.len()]
                        .map(|k| mesh.positions()[boundary[k] as usize].map(i128::from));
                    a[0] * b[1] - a[1] * b[0]
                })
                .sum();
            if level < HEIGHT_RANGE {
                assert_eq!(above - agrees(&mesh, level + 1).six_volumes, 3 * layer);
            }
        }
    }
}
