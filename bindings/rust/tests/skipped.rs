//! The points that a run's steps skip go in after the convexity passes: each fate, the heights that fate 9 gives, refusal 9 while a point
//! goes in, and that no point is ever missing.

mod common;
#[path = "common/rows.rs"]
mod rows;

use std::collections::{HashMap, HashSet};

use common::{of_triangles, Random};
use fithmoul::{Fate, Mesh, Point, Shape};
use rows::{rows_of, PAST};

/// Every fate of a run, with its faces and flips (examples/fates.txt).
#[test]
fn every_fate() {
    let seed = Mesh::triangle([[1, 3, 1], [2, 4, 2], [-6, 0, 3]]).unwrap();
    let (center, at) =
        ([-5.0, 4.0], [[3, 4], [9, 4], [-8, -9], [-3, 4], [1, 3], [-6, -4], [-5, 4], [-3, 4], [-4, -2]]);
    let points: Vec<Point> = (10..).zip(at).map(|(z, [x, y])| [x, y, z]).collect();
    let mut mesh = seed;
    let run = mesh.run(center, &points).unwrap();
    let answers: Vec<(Fate, u64, u64)> = run.answers.iter().map(|a| (a.fate(), a.faces, a.flips)).collect();
    assert_eq!(
        answers,
        [
            (Fate::Added(3), 1, 0),
            (Fate::Outside(5), 1, 1),
            (Fate::Added(4), 1, 0),
            (Fate::Outside(6), 1, 1),
            (Fate::Dropped, 0, 0),
            (Fate::InTriangle(7), 2, 1),
            (Fate::Outside(8), 1, 0),
            (Fate::OnVertex(6), 0, 0),
            (Fate::OnEdge(9), 2, 2),
        ]
    );
    let vertices: Vec<Option<u32>> = answers.iter().map(|a| a.0.vertex()).collect();
    assert_eq!(vertices, [3, 5, 4, 6, 0, 7, 8, 6, 9].map(|v| (v != 0).then_some(v)));
    assert_eq!(run.totals.faces, 1);
    // vertex 6 has the height of the later of the two points at its place, vertex 0 its own
    assert_eq!(mesh.heights(), [1, 2, 3, 10, 12, 11, 17, 15, 16, 18]);
}

/// What a lone step skips, and a run puts in.
#[test]
fn skipped_and_put_in() {
    let [seed, thin] = [[[0, 0, 0], [4, 0, 0], [0, 4, 0]], [[0, 0, 0], [0, -1, 0], [1, 1, 0]]];
    for (corners, center, point, alone, run) in [
        (seed, [1.0, 1.0], [2, 1, 0], Fate::NotLeft, Fate::InTriangle(3)),
        (seed, [1.0, 1.0], [2, 2, 0], Fate::NotLeft, Fate::OnEdge(3)),
        (seed, [1.0, 1.0], [1, 1, 0], Fate::AtCenter, Fate::InTriangle(3)),
        (thin, [1.0, -1.0], [-2, -1, 0], Fate::Unsound, Fate::Outside(3)),
    ] {
        let mut mesh = Mesh::triangle(corners).unwrap();
        assert_eq!(mesh.step(center, point).unwrap().fate(), alone);
        assert_eq!(mesh, Mesh::triangle(corners).unwrap());
        assert_eq!(mesh.run(center, &[point]).unwrap().answers[0].fate(), run);
        assert_eq!(mesh.positions()[3], point[..2]);
    }
}

/// Each point on a vertex gives its height in list order: to a corner of the seed, to a vertex of a step, also of a later one, and to one
/// that was put in.
#[test]
fn heights_in_list_order() {
    let seed = Mesh::triangle([[0, 0, 1], [40, 0, 2], [0, 40, 3]]).unwrap();
    let (inner, outer) = ([10, 10], [60, 60]);
    let lists: [(&[[i32; 2]], &[i32]); 4] = [
        (&[inner, inner, inner], &[1, 2, 3, 102]),
        (&[inner, outer, inner, outer], &[1, 2, 3, 101, 102]),
        (&[[12, 0], inner, [12, 0], inner, [12, 0]], &[1, 2, 3, 104, 103]),
        (&[[20, 20], [60, 60], [20, 20], [5, 5], [20, 20], [5, 5]], &[1, 2, 3, 101, 104, 105]),
    ];
    for (at, heights) in lists {
        let points: Vec<Point> = (100..).zip(at).map(|(z, &[x, y])| [x, y, z]).collect();
        let mut mesh = seed.clone();
        let answers = mesh.run([11.0, 12.0], &points).unwrap().answers;
        assert_eq!(mesh.heights(), heights, "{at:?}: {answers:?}");
        let mut last = HashMap::new();
        for (point, answer) in points.iter().zip(&answers) {
            match answer.fate() {
                Fate::Dropped => {} // leaves no height
                fate => drop(last.insert(fate.vertex().unwrap(), point[2])),
            }
        }
        assert!(last.iter().all(|(&v, &z)| mesh.heights()[v as usize] == z));
    }
    // far from every boundary edge at its angle: a corner of the seed that the mesh has grown over
    let far = [[-50, -30, 5], [30, -50, 6], [90, 90, 7], [-30, 90, 8], [-60, 20, 9]];
    let mut mesh = seed.clone();
    let answers =
        mesh.run([11.0, 12.0], &[&far[..], &[[0, 0, 50], [0, 0, 51], [40, 0, 52]]].concat()).unwrap().answers;
    let fates: Vec<Fate> = answers[5..].iter().map(|a| a.fate()).collect();
    assert_eq!(fates, [Fate::OnVertex(0), Fate::OnVertex(0), Fate::OnVertex(1)]);
    assert_eq!(mesh.heights()[..3], [51, 52, 3]);
}

/// A fan about (0, 0) to points on a vertical line, in a hull of four sides. A point in the fan is inside its circles, so that its inner
/// edges flip one after the other; a point left of (0, 0) is in none of them.
fn flat_fan(triangles: u32) -> Mesh {
    let line = (0..=triangles as i32).map(|i| [100, i, i - 4]);
    let points: Vec<Point> = [[0, 0, 9], [-100, 100, 8], [-100, -100, 7]].into_iter().chain(line).collect();
    let fan = (3..triangles + 3).map(|i| [0, i, i + 1]);
    let all: Vec<[u32; 3]> = [[0, 1, 2], [2, 3, 0], [0, triangles + 3, 1]].into_iter().chain(fan).collect();
    of_triangles(&points, &all)
}

/// Added, put in, on a vertex, put into the fan, on a vertex, added, dropped, put in.
const AT: [[i32; 2]; 8] = [[300, 5], [-80, 3], [100, 6], [22, 1], [100, 6], [301, 9], [301, 9], [-80, 40]];

#[test]
fn an_insertion_refused_9() {
    let fan = flat_fan(20);
    let n = fan.vertex_count() as u64;
    let points: Vec<Point> = (50..).zip(AT).map(|(z, [x, y])| [x, y, z]).collect();
    // 17 entries are enough
    for pending in [8, 9, 16, 17, 100] {
        let mut rows = rows_of(&fan, points.len(), pending);
        let mut answers = [7; 4 * AT.len()];
        let result = rows.run([70.0, 9.5], &points, &mut answers);
        let refused = pending < 17;
        assert_eq!([result.refusal, result.place], if refused { [9, 3] } else { [0, 0] });
        // steps come first, so that the sixth and the seventh point keep their answers
        let mut expected = [[0; 4]; AT.len()];
        expected[0] = [1, n, 10, 0];
        expected[1] = [6, n + 2, 2, 0];
        expected[2] = [9, 9, 0, 0];
        expected[5] = [1, n + 1, 2, 1];
        expected[6] = [2, 0, 0, 0];
        if !refused {
            expected[3] = [6, n + 3, 2, 21];
            expected[4] = [9, 9, 0, 0];
            expected[7] = [6, n + 4, 2, 0];
        }
        assert_eq!(answers[..], *expected.as_flattened());
        // the vertex of the point that was refused is in the mesh, with its height, and vertex 9 has what the first point on it gave
        let mut heights = fan.heights().to_vec();
        heights[9] = if refused { 52 } else { 54 };
        heights.extend([50, 55, 51, 53, if refused { PAST } else { 57 }, PAST, PAST, PAST]);
        assert_eq!(rows.heights, heights);
        assert_eq!(u64::from(result.vertices), n + if refused { 4 } else { 5 });
        assert!(
            !refused || [u64::from(result.faces_added), result.convex_flips, result.closing_flips] == [0; 3]
        );
        assert!(rows.pending.iter().chain(&rows.freed).chain(&rows.buckets).all(|&w| w == 0));
        // a run takes it from there
        let mut again =
            rows_of(&good(&rows, [result.vertices, result.edges, result.faces]), points.len(), 100);
        assert_eq!(again.run([70.0, 9.5], &points, &mut answers).refusal, 0);
    }
}

/// The mesh that a call left.
fn good(rows: &rows::Rows, [vertices, edges, faces]: [u32; 3]) -> Mesh {
    let at = rows.positions.chunks(2).zip(&rows.heights).take(vertices as usize);
    let points: Vec<Point> = at.map(|(p, &z)| [p[0], p[1], z]).collect();
    let halves: Vec<[u32; 4]> =
        rows.halves.chunks(4).take(2 * edges as usize).map(|h| [h[0], h[1], h[2], h[3]]).collect();
    Mesh::from_rows(&points, &rows.outs[..vertices as usize], &halves, &rows.adjacent[..faces as usize])
        .expect("a good mesh")
}

/// On lines, on a small grid with repeats, and anywhere.
fn drawn(random: &mut Random, kind: u64) -> Vec<Point> {
    let lines: Vec<[i32; 4]> = (0..3).map(|_| [0; 4].map(|_| random.within(9))).collect();
    let one = |i: usize| match kind {
        0 => {
            let ([x, y, dx, dy], t) = (lines[i % 3], random.within(40));
            [x + t * dx, y + t * dy, i as i32]
        }
        1 => [random.within(6), random.within(6), i as i32],
        _ => [random.within(16_777_216), random.within(16_777_216), i as i32],
    };
    (0..120).map(one).collect()
}

/// Sorted or not, every point of every list is a vertex of the mesh, and there is no other.
#[test]
fn no_point_is_missing() {
    let random = &mut Random(0x1234_5678_9abc_def1);
    let mut fates = [0; 10];
    for turn in 0..300 {
        let points = drawn(random, turn % 3);
        let places: HashSet<[i32; 2]> = points.iter().map(|p| [p[0], p[1]]).collect();
        let loaded = Mesh::bulk_load(&points).expect("accepted");
        let Shape::Mesh(all) = loaded.shape else { continue };
        for (point, &v) in points.iter().zip(&loaded.vertices) {
            assert_eq!(all.positions()[v as usize], point[..2]);
        }
        assert_eq!(all.vertex_count(), places.len());

        // as they come, about the middle of one of its triangles
        let widest =
            (1..).zip(all.triangles()).max_by_key(|&(f, _)| all.doubled_area(f)).expect("a triangle").1;
        let corners = widest.map(|v| all.positions()[v as usize]).map(|[x, y]| [x, y, 0]);
        let mut mesh = Mesh::triangle(corners).expect("a triangle");
        let answers = mesh.run(fithmoul::middle(corners), &points).expect("accepted").answers;
        let all: HashSet<[i32; 2]> = mesh.positions().iter().copied().collect();
        assert!(all == places && all.len() == mesh.vertex_count());
        for (point, answer) in points.iter().zip(&answers) {
            let (number, vertex) = match answer.fate() {
                Fate::Added(v) => (1, v),
                Fate::Dropped => continue,
                Fate::InTriangle(v) => (6, v),
                Fate::OnEdge(v) => (7, v),
                Fate::Outside(v) => (8, v),
                Fate::OnVertex(v) => (9, v),
                other => panic!("{other:?} in a run"),
            };
            fates[number] += 1;
            assert_eq!(mesh.positions()[vertex as usize], point[..2]);
        }
        mesh.check().expect("a good mesh");
        assert_eq!(mesh.clone().finish().expect("a good mesh").closing_flips, 0);
    }
    assert!([1, 6, 7, 9].iter().all(|&number| fates[number] > 100), "{fates:?}");
}
