//! Doubled areas beside the same in i128: of triangles, up to the limits of the range, and of meshes in total, past 64 bits; and that they are refused
//! where they should be, an area total exactly as a check.

mod common;

use common::{of_triangles, Random};
use fithmoul::sys::{self, AreaTotalResult, SideQueryResult};
use fithmoul::{side_query, Mesh, Point, Refusal, MOST_VERTICES, RANGE};

/// The doubled area of one triangle.
fn expected(corners: [[i32; 2]; 3]) -> i128 {
    let [a, b, c] = corners.map(|p| p.map(i128::from));
    (b[0] - a[0]) * (c[1] - a[1]) - (b[1] - a[1]) * (c[0] - a[0])
}

/// Each triangle's, and all of them: what they total.
fn agrees(mesh: &Mesh) -> i128 {
    let mut total = 0;
    for (face, corners) in (1..).zip(mesh.triangles()) {
        let area = expected(corners.map(|v| mesh.positions()[v as usize]));
        assert_eq!(mesh.doubled_area(face).map(i128::from), Some(area), "face {face}");
        total += area;
    }
    assert_eq!(mesh.area_total(), Ok(total));
    assert_eq!(mesh.doubled_area(0), None);
    for beyond in [mesh.face_count() as u32, u32::MAX] {
        assert_eq!(mesh.doubled_area(beyond), None);
    }
    total
}

#[test]
fn left_is_positive() {
    let [west, east] = [[-3, 1], [5, 1]];
    assert_eq!(side_query(west, east, [0, 2]), Ok(8));
    assert_eq!(side_query(west, east, [0, 0]), Ok(-8));
    assert_eq!(side_query(east, west, [0, 2]), Ok(-8));
    for on_line in [west, east, [0, 1], [900, 1]] {
        assert_eq!(side_query(west, east, on_line), Ok(0));
    }
}

#[test]
fn at_the_limits_of_the_range() {
    let r = RANGE;
    // half the square is the most, either way round
    assert_eq!(side_query([-r, -r], [r, -r], [r, r]), Ok(1 << 50));
    assert_eq!(side_query([-r, -r], [r, r], [r, -r]), Ok(-(1 << 50)));
    // and a triangle over the whole square can hardly have any
    assert_eq!(side_query([-r, -r], [r, r], [r - 1, r - 1]), Ok(0));
    assert_eq!(side_query([-r, -r], [r, r], [r - 1, r]), Ok(2 * i64::from(r)));
    assert_eq!(side_query([-r, -r], [r, r - 1], [0, 0]), Ok(i64::from(r)));
    let random = &mut Random(0x9e37_79b9_7f4a_7c15);
    for _ in 0..100_000 {
        let reach = [2, 50, r][random.below(3) as usize];
        let corners = [(); 3].map(|_| [random.within(reach), random.within(reach)]);
        let [p1, p2, q] = corners;
        assert_eq!(side_query(p1, p2, q).map(i128::from), Ok(expected(corners)));
    }
}

#[test]
fn the_first_point_out_of_range() {
    for beyond in [RANGE + 1, -RANGE - 1, i32::MAX, i32::MIN] {
        for first in 0..3 {
            for axis in 0..2 {
                let mut points = [[0, 0], [RANGE, 0], [0, -RANGE]];
                points[first][axis] = beyond;
                let [p1, p2, q] = points;
                let refused = Refusal::Coordinate { vertex: first as u32 };
                assert_eq!(side_query(p1, p2, q), Err(refused));
                // whatever the points after it are
                points[first + 1..].fill([beyond; 2]);
                let [p1, p2, q] = points;
                let result = unsafe { sys::fithmoul_side_query(p1[0], p1[1], p2[0], p2[1], q[0], q[1]) };
                assert_eq!(result, SideQueryResult { refusal: 3, place: first as u32, doubled_area: 0 });
            }
        }
    }
}

/// So many squares as large as the range, all joined at one corner: they lie on each other.
fn squares(count: u32) -> Mesh {
    let corners = [[-RANGE, RANGE, 0], [-RANGE, -RANGE, 0], [RANGE, -RANGE, 0]];
    let mut points = vec![[RANGE, RANGE, 0]];
    let mut triangles = Vec::new();
    for i in 0..count {
        points.extend(corners);
        let [a, b, c] = [1, 2, 3].map(|k| 3 * i + k);
        triangles.extend([[0, a, b], [0, b, c]]);
    }
    of_triangles(&points, &triangles)
}

#[test]
fn past_64_bits() {
    // 2^51 each
    for (count, total) in
        [(4_095, (1 << 63) - (1 << 51)), (4_096, 1 << 63), (8_191, (1 << 64) - (1 << 51)), (8_192, 1 << 64)]
    {
        assert_eq!(agrees(&squares(count)), total);
    }
    let most = squares((MOST_VERTICES as u32 - 1) / 3);
    assert_eq!(most.vertex_count(), MOST_VERTICES);
    assert_eq!(agrees(&most), 333_333 << 51);
}

#[test]
fn random_meshes() {
    let random = &mut Random(0x0123_4567_89ab_cdef);
    for (count, reach) in [(9, 4), (40, 50), (300, 100_000), (3_000, RANGE)] {
        for _ in 0..12 {
            let points: Vec<Point> =
                (0..count).map(|_| [random.within(reach), random.within(reach), random.within(9)]).collect();
            let loaded = Mesh::bulk_load(&points).expect("accepted");
            let mesh = loaded.shape.into_mesh().expect("a triangle");
            let boundary = mesh.boundary();
            // clockwise, so backwards
            let round: i128 = (0..boundary.len())
                .map(|k| {
                    let [b, a] = [k, (k + 1) % boundary.len()];
                    expected([
                        [0, 0],
                        mesh.positions()[boundary[a] as usize],
                        mesh.positions()[boundary[b] as usize],
                    ])
                })
                .sum();
            assert_eq!(agrees(&mesh), round);
        }
    }
}

/// A mesh of four vertices, with one or two numbers of its rows or counts changed: an area total answers what a check does.
#[test]
fn refused_as_a_check_is() {
    let random = &mut Random(0x2545_f491_4f6c_dd1d);
    let corners = [[0, 0, 1], [4, 0, 2], [0, 4, 3], [4, 4, 4]];
    let good = of_triangles(&corners, &[[0, 1, 2], [1, 3, 2]]);
    let mut seen = [0; 11];
    for _ in 0..60_000 {
        let mut counts = [4, 5, 3];
        let mut positions = good.positions().concat();
        let mut heights = good.heights().to_vec();
        let mut outs = good.outs().to_vec();
        let mut halves = good.halves().concat();
        let mut adjacent = good.adjacent().to_vec();
        halves.resize(24 * 4, 0);
        adjacent.resize(2 * 4, 0);
        for _ in 0..random.below(3) {
            let small = random.below(11) as u32;
            let place = random.below(40) as usize;
            match random.below(9) {
                0 => counts[place % 3] = small,
                1 => positions[place % 8] = random.within(6),
                2 => positions[place % 8] = RANGE + 1,
                3 => heights[place % 4] = [0, i32::MIN][place % 2],
                4 => outs[place % 4] = small,
                5 | 6 => halves[place] = small,
                7 => adjacent[place % 3] = small,
                _ => halves.truncate(95),
            }
        }
        let [v, e, f] = counts;
        let (p, pl, z, zl) = (positions.as_ptr(), positions.len(), heights.as_ptr(), heights.len());
        let (o, ol, h, hl) = (outs.as_ptr(), outs.len(), halves.as_ptr(), halves.len());
        let (a, al) = (adjacent.as_ptr(), adjacent.len());
        let check = unsafe { sys::fithmoul_check(v, e, f, p, pl, z, zl, o, ol, h, hl, a, al) };
        let total = unsafe { sys::fithmoul_area_total(v, e, f, p, pl, z, zl, o, ol, h, hl, a, al) };
        assert_eq!((total.refusal, total.place), (check.refusal, check.place));
        if check.refusal != 0 {
            let none = AreaTotalResult { area_total_high: 0, area_total_low: 0, ..total };
            assert_eq!(total, none);
        } else {
            assert!(total.area_total_high == 0 && total.area_total_low > 0);
        }
        seen[check.refusal as usize] += 1;
    }
    assert!([0, 1, 2, 3, 4, 5, 10].iter().all(|&k| seen[k] > 0), "{seen:?}");
}
