//! Bare points: none, one, two, all at one place, on one line, the first point off it, clusters, triangles at the end of the range, and
//! files in any order. The rest of a list is held against a run from the seed that its first points make; what is left in every row, entry
//! by entry; and each refusal. tests/lists.rs has the list of an independent reading.

#[path = "common/loads.rs"]
mod loads;
#[path = "common/random.rs"]
mod random;
#[path = "common/rows.rs"]
mod rows;

use std::collections::{HashMap, HashSet};

use fithmoul::sys::{BulkLoadResult, Node};
use fithmoul::{by_distance, Fate, Line, Loaded, Mesh, Point, Refusal, Run, Shape, Totals, RANGE};
use loads::{rows_for, split};
use random::Random;
use rows::{rows_of, Rows};

const NO_TOTALS: Totals = Totals { faces: 0, convex_flips: 0, closing_flips: 0 };

fn at([x, y, _]: Point) -> [i32; 2] {
    [x, y]
}

fn in_order(points: &[Point]) -> (Shape, Run) {
    Mesh::bulk_load_in_order(points).expect("accepted")
}

/// Each point with a height of its own.
fn with_heights(places: &[[i32; 2]]) -> Vec<Point> {
    (100..).zip(places).map(|(z, &[x, y])| [x, y, z]).collect()
}

// ---- lines

/// The line of some points, after its links have been looked at.
fn line_of(points: &[Point]) -> Line {
    let (shape, run) = in_order(points);
    let Shape::Line(line) = shape else { panic!("{shape:?} of {points:?}") };
    assert_eq!(run.totals, NO_TOTALS);
    let places: HashSet<[i32; 2]> = points.iter().map(|&p| at(p)).collect();
    let n = places.len();
    assert_eq!((line.vertex_count(), line.edge_count()), (n, n.saturating_sub(1)));
    let mut heights = HashMap::new();
    let mut next = 0;
    for (point, answer) in points.iter().zip(&run.answers) {
        assert_eq!((answer.faces, answer.flips), (0, 0));
        let is_new = heights.insert(at(*point), point[2]).is_none();
        match answer.fate() {
            Fate::Added(v) => {
                assert!(is_new && v == next, "{points:?}");
                next += 1;
            }
            Fate::OnVertex(v) => assert!(!is_new && line.positions()[v as usize] == at(*point)),
            other => panic!("{other:?}"),
        }
    }
    // the last point at a vertex has given it its height
    let expected: Vec<i32> = line.positions().iter().map(|p| heights[p]).collect();
    assert_eq!(line.heights(), expected);
    links_of(&line);
    let order: Vec<[i32; 2]> = line.order().iter().map(|&v| line.positions()[v as usize]).collect();
    let mut sorted: Vec<[i32; 2]> = places.into_iter().collect();
    sorted.sort();
    assert_eq!(order, sorted);
    line
}

/// Each vertex is joined to the next in order, there and back, all in face 0.
fn links_of(line: &Line) {
    let (order, halves) = (line.order(), line.halves());
    match order[..] {
        [] => return assert_eq!((line.outs(), line.adjacent()), (&[][..], &[][..])),
        [v] => return assert_eq!((v, line.outs(), line.adjacent()), (0, &[0][..], &[0][..])),
        _ => assert_eq!(line.adjacent(), [0]),
    }
    let to = |e: u32| halves[e as usize ^ 1][3];
    let edge = |u: u32, v: u32| {
        (0..halves.len() as u32).find(|&e| halves[e as usize][3] == u && to(e) == v).expect("an edge")
    };
    let back = order.iter().rev().skip(1);
    let round: Vec<u32> = order.iter().chain(back).copied().collect();
    let edges: Vec<u32> = round.windows(2).map(|w| edge(w[0], w[1])).collect();
    assert_eq!(edges.len(), halves.len());
    for (i, &e) in edges.iter().enumerate() {
        let [next, prev] = [edges[(i + 1) % edges.len()], edges[(i + edges.len() - 1) % edges.len()]];
        assert_eq!(halves[e as usize], [next, prev, 0, round[i]]);
    }
    for (v, &e) in (0..).zip(line.outs()) {
        assert_eq!(halves[e as usize][3], v);
    }
}

#[test]
fn few_points() {
    assert_eq!(line_of(&[]).order(), []);
    for point in [[0, 0, 0], [5, -7, 3], [RANGE, -RANGE, -1_048_576]] {
        let line = line_of(&[point]);
        assert_eq!((line.positions(), line.heights()), (&[at(point)][..], &[point[2]][..]));
    }
    let line = line_of(&[[3, 1, 10], [3, -1, 20]]);
    assert_eq!((line.order(), line.outs()), (vec![1, 0], &[0, 1][..]));
    assert_eq!(line.halves(), [[1, 1, 0, 0], [0, 0, 0, 1]]);
    let [loaded, single] = [&[][..], &[[4, 4, 9]]].map(|p| Mesh::bulk_load(p).expect("accepted"));
    assert_eq!((loaded.vertices, loaded.run.answers), (vec![], vec![]));
    assert_eq!((single.vertices, single.shape.mesh()), (vec![0], None));
}

#[test]
fn all_at_one_place() {
    for count in [2, 3, 9, 400] {
        let points = with_heights(&vec![[-6, 11]; count]);
        let line = line_of(&points);
        assert_eq!(line.heights(), [99 + count as i32]);
        assert_eq!(Mesh::bulk_load(&points).expect("accepted").vertices, vec![0; count]);
    }
}

/// Level, upright and slanted, from end to end of the range, in every order of five with a repeat.
#[test]
fn on_one_line() {
    let directions =
        [[1, 0], [0, 1], [1, 1], [1, -1], [-7, 3], [4_194_304, 2_097_152], [-4_194_304, 4_194_304]];
    for [dx, dy] in directions {
        let place = |k: i32| [(k - 2) * dx, (k - 2) * dy];
        permuted(&[0, 1, 2, 3, 4], &mut |order| {
            let places: Vec<[i32; 2]> = order.iter().chain(&order[2..4]).map(|&k| place(k)).collect();
            line_of(&with_heights(&places));
        });
    }
    let long: Vec<[i32; 2]> = (0..300).map(|i| i * 7919 % 251 - 125).map(|t| [3 * t, -5 * t]).collect();
    let line = line_of(&with_heights(&long));
    assert_eq!(line.vertex_count(), 251);
    // sorted by distance it is the same line, its vertices under other numbers
    let Shape::Line(sorted) = Mesh::bulk_load(&with_heights(&long)).expect("accepted").shape else {
        panic!("a mesh")
    };
    let along = |l: &Line| l.order().iter().map(|&v| l.positions()[v as usize]).collect::<Vec<_>>();
    assert_eq!(along(&sorted), along(&line));
}

fn permuted(items: &[i32], each: &mut impl FnMut(&[i32])) {
    fn go(items: &mut Vec<i32>, k: usize, each: &mut impl FnMut(&[i32])) {
        if k == items.len() {
            return each(items);
        }
        for i in k..items.len() {
            items.swap(k, i);
            go(items, k + 1, each);
            items.swap(k, i);
        }
    }
    go(&mut items.to_vec(), 0, each);
}

/// The first point off a line makes a triangle with each of its edges, without a flip: beside each end, beyond it and beside the middle,
/// on either side, after the line was extended at its ends or split between them.
#[test]
fn first_point_off_a_line() {
    for n in 2..9 {
        let inwards = |i: i32| if i % 2 == 0 { i / 2 } else { n - 1 - i / 2 };
        let orders: [Vec<i32>; 4] = [
            (0..n).collect(),
            (0..n).rev().collect(),
            (0..n).map(inwards).collect(),
            (0..n).rev().map(inwards).collect(),
        ];
        for (order, x) in
            orders.iter().flat_map(|o| [-9, 0, 3, 5 * (n - 1), 10 * (n - 1), 10 * n].map(|x| (o, x)))
        {
            for (y, turned) in [(1, false), (-4, false), (1, true), (-4, true)] {
                let turn = |[x, y]: [i32; 2]| if turned { [y, x] } else { [x, y] };
                let places: Vec<[i32; 2]> =
                    order.iter().map(|i| turn([10 * i, 0])).chain([turn([x, y])]).collect();
                let list = with_heights(&places);
                let (shape, run) = in_order(&list);
                let mesh = shape.into_mesh().expect("a triangle");
                let (answer, faces) = (run.answers[n as usize], n as usize - 1);
                assert_eq!((answer.fate(), answer.faces), (Fate::Added(n as u32), faces as u64));
                assert_eq!(answer.flips, 0);
                assert_eq!([mesh.face_count(), mesh.edge_count()], [faces + 1, 2 * faces + 1]);
                finished(&list, &mesh, &run);
                beside_a_run(
                    &[&list[..], &[turn([40, 17]), turn([-50, -3]), turn([12, 0])].map(|[x, y]| [x, y, 5])]
                        .concat(),
                );
            }
        }
    }
}

// ---- meshes

/// A mesh keeps the rules and is finished, with each point at its vertex and no other vertex, and heights as the answers say.
fn finished(points: &[Point], mesh: &Mesh, run: &Run) {
    mesh.check().expect("a good mesh");
    let before = mesh.clone();
    let mut again = mesh.clone();
    assert_eq!(again.finish().expect("a good mesh"), NO_TOTALS);
    assert_eq!(again, before);
    assert_eq!(mesh.change_count(), 0);
    let places: HashSet<[i32; 2]> = points.iter().map(|&p| at(p)).collect();
    assert!(mesh.vertex_count() == places.len() && mesh.positions().iter().all(|p| places.contains(p)));
    let mut heights = HashMap::new();
    for (point, answer) in points.iter().zip(&run.answers) {
        match answer.fate() {
            Fate::Dropped => {} // leaves no height
            fate => {
                let v = fate.vertex().expect("every point is in");
                assert_eq!(mesh.positions()[v as usize], at(*point), "{fate:?}");
                heights.insert(v as usize, point[2]);
            }
        }
    }
    assert!(heights.iter().all(|(&v, &z)| mesh.heights()[v] == z) && heights.len() == mesh.vertex_count());
}

/// The Rust's centre of the last three vertices, as a float and as a whole number of 2^-25.
fn centre_of(mesh: &Mesh) -> ([f64; 2], [i128; 2]) {
    let last = &mesh.positions()[mesh.vertex_count() - 3..];
    let float = |k: usize| last.iter().map(|p| f64::from(p[k])).sum::<f64>() * f64::from(1f32 / 3f32);
    let fine = |k: usize| last.iter().map(|p| i128::from(p[k])).sum::<i128>() * 11_184_811;
    ([0, 1].map(float), [0, 1].map(fine))
}

/// Whether the sweep may start from a mesh: a triangle has the centre strictly inside, and a locate takes it.
fn starts(mesh: &Mesh) -> bool {
    let (centre, [x, y]) = centre_of(mesh);
    let is_left = |[a, b]: [u32; 2]| {
        let [[ax, ay], [bx, by]] = [a, b].map(|v| mesh.positions()[v as usize].map(|c| i128::from(c) << 25));
        (bx - ax) * (y - ay) - (by - ay) * (x - ax) > 0
    };
    let holds = |[a, b, c]: [u32; 3]| [[a, b], [b, c], [c, a]].into_iter().all(is_left);
    mesh.triangles().any(holds) && mesh.locate(centre, 0.0).is_ok()
}

/// How many points the seed takes: the first that make a mesh from which the sweep may start, with the mesh.
fn seed_of(points: &[Point]) -> Option<(usize, Mesh)> {
    (3..=points.len()).find_map(|k| {
        let mesh = in_order(&points[..k]).0.into_mesh()?;
        starts(&mesh).then_some((k, mesh))
    })
}

/// A list beside the run of its rest from its seed. How many points the seed took; none where the list ended before the start.
fn beside_a_run(points: &[Point]) -> Option<usize> {
    let (shape, run) = in_order(points);
    let Shape::Mesh(mesh) = shape else { return None };
    finished(points, &mesh, &run);
    let Some((k, mut seed)) = seed_of(points) else {
        // the finish of a seed has nothing to do
        assert!(run.totals == NO_TOTALS);
        assert!(run.answers.iter().all(|a| matches!(a.fate(), Fate::Added(_) | Fate::OnVertex(_))));
        return None;
    };
    let (_, first) = in_order(&points[..k]);
    assert_eq!(run.answers[..k], first.answers);
    assert_eq!(first.totals, NO_TOTALS);
    let rest = seed.run(centre_of(&seed).0, &points[k..]).expect("accepted");
    assert_eq!(run.answers[k..], rest.answers);
    assert_eq!(run.totals, rest.totals);
    assert_eq!(mesh, seed);
    Some(k)
}

/// Sorted by distance, and the answers put back.
fn beside_its_order(points: &[Point]) {
    let Loaded { shape, vertices, run } = Mesh::bulk_load(points).expect("accepted");
    let order = by_distance(points);
    let sorted: Vec<Point> = order.iter().map(|&i| points[i]).collect();
    let (expected, taken) = in_order(&sorted);
    assert_eq!((&shape, run.totals), (&expected, taken.totals));
    for (answer, &i) in taken.answers.iter().zip(&order) {
        assert_eq!(run.answers[i], *answer);
        assert_eq!(answer.fate().vertex().unwrap_or(vertices[i]), vertices[i]);
    }
    let positions = match &shape {
        Shape::Mesh(mesh) => mesh.positions(),
        Shape::Line(line) => line.positions(),
    };
    assert!(points.iter().zip(&vertices).all(|(p, &v)| positions[v as usize] == at(*p)));
}

/// Points of each kind, as a customer's file may have them: nothing is sorted.
fn drawn(random: &mut Random, kind: u64, count: usize) -> Vec<Point> {
    let lines: Vec<[i32; 4]> = (0..3).map(|_| [0; 4].map(|_| random.within(9))).collect();
    let place = |i: usize, random: &mut Random| match kind {
        // along lines, on a small grid with repeats, in rows of a grid, anywhere
        0 => {
            let ([x, y, dx, dy], t) = (lines[i % 3], random.within(40));
            [x + t * dx, y + t * dy]
        }
        1 => [random.within(4), random.within(4)],
        2 => [i as i32 % 11 * 1000, i as i32 / 11 * 1000],
        3 => [random.within(RANGE), random.within(RANGE)],
        // one cluster and then another at the opposite ends of the range
        4 => {
            let side = if 2 * i < count { -1 } else { 1 };
            [side * (RANGE - 50) + random.within(50), side * (RANGE - 50) + random.within(50)]
        }
        // on one line at first, and then beside it
        5 if i < count / 2 => [3 * i as i32, 2 * i as i32],
        5 => [random.within(60), random.within(60)],
        // small triangles at an end of the range; and so thin ones that no sweep ever starts there
        6 => [RANGE - random.below(30) as i32, RANGE - random.below(30) as i32],
        _ => [RANGE - i32::from(i == 2), RANGE - random.below(30) as i32],
    };
    let mut one = |i: usize| {
        let [x, y] = place(i, random);
        [x, y, random.within(1_048_576)]
    };
    (0..count).map(&mut one).collect()
}

const KINDS: u64 = 8;

#[test]
fn files_in_any_order() {
    let random = &mut Random(0x1234_5678_9abc_def1);
    let (mut fates, mut seeds) = ([0; 10], [0; 4]);
    for turn in 0..40 * KINDS {
        let points = drawn(random, turn % KINDS, [12, 40, 90][turn as usize % 3]);
        seeds[match beside_a_run(&points) {
            None => 0,
            Some(3) => 1,
            Some(4..=7) => 2,
            Some(_) => 3,
        }] += 1;
        for answer in in_order(&points).1.answers {
            fates[words(&answer)[0] as usize] += 1;
        }
        beside_its_order(&points);
    }
    println!("fates {fates:?}, seeds that end with the list, of 3, of 4 to 7, of more points {seeds:?}");
    assert!(seeds.iter().all(|&n| n > 9), "{seeds:?}");
    assert!([1, 2, 6, 7, 9].iter().all(|&n| fates[n] > 40), "{fates:?}");
}

/// At the end of the range the centre is half a millimetre farther out than the middle of the three vertices, so that a triangle two wide
/// does not hold it, and the seed grows on. Near the middle of the range the sweep starts with a triangle one wide.
#[test]
fn small_triangles_far_out() {
    let triangle = |a: i32, w: i32| [[a, a], [a + w, a], [a, a + w]];
    assert_eq!(beside_a_run(&with_heights(&triangle(0, 1))), Some(3));
    for w in 1..6 {
        let [inner, outer] = [triangle(RANGE - w, w), triangle(RANGE, -w)];
        assert_eq!(beside_a_run(&with_heights(&inner)), (w > 2).then_some(3));
        for (small, least) in [(inner, 3), (outer, 2)] {
            let more = [[RANGE - 60, RANGE], [RANGE, RANGE - 60], [0, 0], [RANGE - 60, -7]];
            let taken = beside_a_run(&with_heights(&[&small[..], &more].concat()));
            assert_eq!(taken.expect("a start") == 3, w >= least);
        }
    }
}

/// Where the centre is on an edge the seed grows on: a point inside it is added then, and not skipped.
#[test]
fn a_centre_on_an_edge() {
    let points = with_heights(&[[0, 0], [0, 5], [0, -5], [7, 1], [1, 2], [-30, 2]]);
    assert_eq!(beside_a_run(&points[..4]), None);
    assert_eq!(beside_a_run(&points), Some(5));
}

#[test]
fn two_clusters_far_apart() {
    let random = &mut Random(0x2545_f491_4f6c_dd1d);
    for reach in [1, 9, 5_000] {
        let west = [-RANGE + reach, 17 - RANGE + reach];
        let east = [RANGE - reach, RANGE - 31 - reach];
        let places: Vec<[i32; 2]> = (0..200)
            .map(|i| if i % 2 == 0 { west } else { east })
            .map(|[x, y]| [x + random.within(reach), y + random.within(reach)])
            .collect();
        for list in [&places[..], &places[..3], &places[..4]] {
            beside_a_run(&with_heights(list));
            beside_its_order(&with_heights(list));
        }
    }
}

/// Points of hardly any width, and their middle on no side of them.
#[test]
fn of_hardly_any_width() {
    let r = RANGE;
    for places in
        [&[[-r, -r], [r, r - 1], [0, 0], [r, r], [-r, -r + 1], [5, -7]][..], &[[-r, -r], [0, 0], [r, r - 1]]]
    {
        let points = with_heights(places);
        beside_a_run(&points);
        beside_its_order(&points);
        assert!(in_order(&points).0.mesh().is_some());
    }
}

/// Drawn anywhere; every sixteenth point twice.
fn many(random: &mut Random, count: usize) -> Vec<Point> {
    let mut points = drawn(random, 3, count);
    let again: Vec<Point> = points.iter().copied().step_by(16).collect();
    points.extend(again);
    points
}

/// In both orders a finished mesh, and the same triangles: no four of the points are on one circle.
fn in_any_order(points: &[Point]) {
    let loaded = Mesh::bulk_load(points).expect("accepted");
    let mesh = loaded.shape.into_mesh().expect("a mesh");
    finished(points, &mesh, &loaded.run);
    let (shape, run) = in_order(points);
    let other = shape.into_mesh().expect("a mesh");
    finished(points, &other, &run);
    assert_eq!(triangles_of(&mesh), triangles_of(&other));
}

/// So many that what a block of insertions needs is read before the first of them (65,536 vertices).
#[test]
fn many_points() {
    in_any_order(&many(&mut Random(0x9e37_79b9_7f4a_7c15), 90_000));
}

/// So many that the closing pass is left out where no edge at any new vertex breaks the circle rule (262,144 skipped points).
#[test]
fn more_points() {
    in_any_order(&many(&mut Random(0x9e37_79b9_7f4a_7c15), 270_000));
}

/// The same on a grid: some are on an edge, and many four on one circle.
#[test]
fn more_points_on_a_grid() {
    let on_grid = |[x, y, z]: Point| [x / 4096 * 4096, y / 4096 * 4096, z];
    let points: Vec<Point> =
        many(&mut Random(0x2545_f491_4f6c_dd1d), 270_000).into_iter().map(on_grid).collect();
    let (shape, run) = in_order(&points);
    finished(&points, &shape.into_mesh().expect("a mesh"), &run);
    let of_fate = |number: u64| run.answers.iter().filter(|a| words(a)[0] == number).count();
    let counts = [6, 7, 9].map(of_fate);
    assert!(counts.iter().zip([250_000, 500, 10_000]).all(|(&n, least)| n > least), "{counts:?}");
}

/// The triangles by their corners' positions.
fn triangles_of(mesh: &Mesh) -> HashSet<[[i32; 2]; 3]> {
    let places = |t: [u32; 3]| {
        let mut corners = t.map(|v| mesh.positions()[v as usize]);
        corners.sort();
        corners
    };
    mesh.triangles().map(places).collect()
}

// ---- every row, through the export

/// What a call has left in the rows, entry by entry: what the crate made of the same points, then what was lent; zeros in the others.
fn left(rows: &Rows, result: &BulkLoadResult, lent: &Rows) {
    let [v, e, f] = [result.vertices, result.edges, result.faces].map(|n| n as usize);
    assert_eq!(rows.positions[2 * v..], lent.positions[2 * v..]);
    assert_eq!(rows.heights[v..], lent.heights[v..]);
    assert_eq!(rows.outs[v..], lent.outs[v..]);
    assert_eq!(rows.halves[8 * e..], lent.halves[8 * e..]);
    assert_eq!(rows.adjacent[f..], lent.adjacent[f..]);
    assert!(rows.nodes.iter().all(|n| *n == Node::default()));
    assert!([&rows.freed, &rows.buckets, &rows.pending].iter().all(|r| r.iter().all(|&w| w == 0)));
    assert_eq!((rows.nodes.len(), rows.freed.len()), (lent.nodes.len(), lent.freed.len()));
}

#[test]
fn what_is_left_in_every_row() {
    let random = &mut Random(0x0123_4567_89ab_cdef);
    for turn in 0..20 * KINDS {
        let count = [0, 1, 2, 3, 5, 40][turn as usize % 6];
        let points = drawn(random, turn % KINDS, count);
        let (shape, run) = in_order(&points);
        let (flat, heights) = split(&points);
        // as short as they may be, and longer
        for more in [0, 3] {
            let lent = Rows { pending: vec![7; 4096 + more], ..rows_for(count + more, 8) };
            let mut rows = lent.clone();
            let mut answers = vec![7; 4 * (count + more)];
            let mut longer = heights.clone();
            longer.resize(count + more, i32::MAX);
            let result = rows.bulk_load(&flat, &longer, &mut answers);
            assert_eq!([result.refusal, result.place, result.changes], [0; 3]);
            left(&rows, &result, &lent);
            let words: Vec<u64> = run.answers.iter().flat_map(words).chain(vec![7; 4 * more]).collect();
            assert_eq!(answers, words);
            let (positions, z, outs, halves, adjacent) = match &shape {
                Shape::Mesh(m) => (m.positions(), m.heights(), m.outs(), m.halves(), m.adjacent()),
                Shape::Line(l) => (l.positions(), l.heights(), l.outs(), l.halves(), l.adjacent()),
            };
            assert_eq!(result.line, u32::from(shape.mesh().is_none()));
            assert_eq!(rows.positions[..2 * positions.len()], *positions.as_flattened());
            assert_eq!(rows.heights[..z.len()], *z);
            assert_eq!(rows.outs[..outs.len()], *outs);
            assert_eq!(rows.halves[..4 * halves.len()], *halves.as_flattened());
            assert_eq!(rows.adjacent[..adjacent.len()], *adjacent);
            let counts = [result.vertices, result.edges, result.faces].map(|n| n as usize);
            assert_eq!(counts, [positions.len(), halves.len() / 2, adjacent.len()]);
        }
    }
}

/// An answer as the library writes it.
fn words(answer: &fithmoul::Answer) -> [u64; 4] {
    let fate = match answer.fate() {
        Fate::Added(_) => 1,
        Fate::Dropped => 2,
        Fate::InTriangle(_) => 6,
        Fate::OnEdge(_) => 7,
        Fate::Outside(_) => 8,
        Fate::OnVertex(_) => 9,
        other => panic!("{other:?}"),
    };
    [fate, answer.fate().vertex().map_or(0, u64::from), answer.faces, answer.flips]
}

// ---- refusals

/// Refused with this number and place, zeros in all other numbers, and nothing changed.
fn refused(mut rows: Rows, flat: &[i32], heights: &[i32], answers: usize, number: u32, place: u32) {
    let lent = rows.clone();
    let mut words = vec![7; answers];
    let result = rows.bulk_load(flat, heights, &mut words);
    assert_eq!(result, BulkLoadResult { refusal: number, place, ..BulkLoadResult::default() });
    assert!(rows == lent && words.iter().all(|&w| w == 7));
}

#[test]
fn refused_2() {
    let points = with_heights(&[[0, 0], [40, 0], [0, 40], [30, 30], [-9, 5]]);
    // out of range too: 2 comes first
    let beyond: Vec<Point> = points.iter().map(|&[x, y, _]| [x, y + RANGE, 1_048_577]).collect();
    for points in [points, beyond] {
        for n in [0, 1, 5] {
            let (flat, heights) = split(&points[..n]);
            let rows = || rows_for(n, 8);
            let shorter = |change: fn(&mut Rows)| {
                let mut rows = rows();
                change(&mut rows);
                refused(rows, &flat, &heights, 4 * n, 2, 0);
            };
            shorter(|r| r.nodes.truncate(r.nodes.len() - 1));
            shorter(|r| r.freed.truncate(r.freed.len() - 1));
            shorter(|r| r.buckets.truncate(r.buckets.len() - 1));
            shorter(|r| r.pending.truncate(r.pending.len() - 1));
            if n > 0 {
                shorter(|r| r.positions.truncate(r.positions.len() - 1));
                shorter(|r| r.heights.truncate(r.heights.len() - 1));
                shorter(|r| r.outs.truncate(r.outs.len() - 1));
                shorter(|r| r.halves.truncate(r.halves.len() - 1));
                shorter(|r| r.adjacent.truncate(r.adjacent.len() - 1));
                refused(rows(), &flat, &heights, 4 * n - 1, 2, 0);
                refused(rows(), &flat, &heights[1..], 4 * n, 2, 0);
            }
            // a number alone is a row too short, however long the others are
            refused(rows_for(n + 3, 8), &[&flat[..], &[1]].concat(), &[0; 9], 40, 2, 0);
        }
    }
    // sixteen buckets for few points, one for each of more
    for n in [15, 16, 17] {
        let (flat, heights) = split(&vec![[1, 2, 3]; n]);
        let mut rows = rows_for(n, 8);
        assert_eq!(rows.buckets.len(), n.max(16));
        assert_eq!(rows.clone().bulk_load(&flat, &heights, &mut vec![7; 4 * n]).refusal, 0);
        rows.buckets.pop();
        refused(rows, &flat, &heights, 4 * n, 2, 0);
    }
}

#[test]
fn refused_3_and_10() {
    for n in 1..6 {
        for bad in 0..n {
            for beyond in [RANGE + 1, -RANGE - 1, i32::MAX, i32::MIN] {
                for k in 0..2 {
                    let mut points =
                        with_heights(&[[RANGE, -RANGE], [-RANGE, RANGE], [3, 4], [0, 0], [9, 9]][..n]);
                    points[bad][k] = beyond;
                    // and a height, before it and after it: 3 comes first
                    (points[0][2], points[n - 1][2]) = (1_048_577, i32::MIN);
                    let (flat, heights) = split(&points);
                    refused(rows_for(n, 8), &flat, &heights, 4 * n, 3, bad as u32);
                    let refusal = Refusal::Coordinate { vertex: bad as u32 };
                    assert_eq!(Mesh::bulk_load_in_order(&points), Err(refusal));
                    assert_eq!(Mesh::bulk_load(&points), Err(refusal));
                }
            }
            for z in [1_048_577, -1_048_577, i32::MAX, i32::MIN] {
                let mut points =
                    with_heights(&[[RANGE, -RANGE], [-RANGE, RANGE], [3, 4], [0, 0], [9, 9]][..n]);
                points[bad][2] = z;
                let (flat, heights) = split(&points);
                refused(rows_for(n, 8), &flat, &heights, 4 * n, 10, 0);
                assert_eq!(Mesh::bulk_load_in_order(&points), Err(Refusal::Height));
                assert_eq!(Mesh::bulk_load(&points), Err(Refusal::Height));
            }
        }
    }
    // the first of several in the order in which they were given, whatever their distances are
    let points = [[0, 0, 0], [9, RANGE + 1, 0], [4, 0, 0], [RANGE + 1, 0, 0], [i32::MIN, 0, 0]];
    assert_eq!(Mesh::bulk_load(&points), Err(Refusal::Coordinate { vertex: 1 }));
    // a height at the place of another point counts as well
    let points = [[0, 0, 0], [4, 0, 0], [0, 4, 0], [4, 0, 1_048_577]];
    assert_eq!(Mesh::bulk_load(&points), Err(Refusal::Height));
}

#[test]
fn refused_1() {
    let points: Vec<Point> = vec![[RANGE + 1, 0, 1_048_577]; 1_000_001];
    let (flat, heights) = split(&points);
    refused(rows_for(0, 0), &flat, &heights, 0, 1, 0);
    // a number alone counts as a point
    refused(rows_for(0, 0), &flat[1..], &heights, 0, 1, 0);
    refused(rows_for(0, 0), &flat[2..], &heights, 0, 2, 0);
    assert_eq!(Mesh::bulk_load_in_order(&points), Err(Refusal::Count));
    assert_eq!(Mesh::bulk_load(&points), Err(Refusal::Count));
}

/// A line at the end of the range and a point one beside it: no triangle ever holds the centre of the last three vertices, which is half a
/// millimetre beyond the line. Then a point that flips the edges of the fan; a point at its place, and one more.
fn growing() -> Vec<Point> {
    let line = (0..=20).map(|i| [RANGE, i]);
    let places: Vec<[i32; 2]> =
        line.chain([[RANGE - 1, 20], [RANGE - 40, 10], [RANGE - 40, 10], [RANGE - 50, 7]]).collect();
    with_heights(&places)
}

#[test]
fn refused_9_while_the_seed_grows() {
    let points = growing();
    let n = points.len();
    let (flat, heights) = split(&points);
    let load = |pending: usize| {
        let mut rows = rows_for(n, pending);
        let mut answers = vec![7; 4 * n];
        let result = rows.bulk_load(&flat, &heights, &mut answers);
        (rows, answers, result)
    };
    let (_, enough, accepted) = load(4096);
    assert_eq!([accepted.refusal, accepted.line], [0, 0]);
    assert!(seed_of(&points[..22]).is_none());
    let most = (8..4096).find(|&pending| load(pending).2.refusal == 0).expect("enough");
    println!("{most} entries are enough");
    assert!(most > 8);
    for pending in [8, most - 1] {
        let (rows, answers, result) = load(pending);
        let place = result.place as usize;
        assert_eq!((result.refusal, place, result.line, result.changes), (9, 22, 0, 0));
        assert_eq!([u64::from(result.faces_added), result.convex_flips, result.closing_flips], [0; 3]);
        // earlier answers stand, the others are zeros
        assert_eq!(answers[..4 * place], enough[..4 * place]);
        assert!(answers[4 * place..].iter().all(|&w| w == 0));
        left(&rows, &result, &rows_for(n, pending));
        // the point's vertex is in the mesh, with its height
        let v = result.vertices as usize - 1;
        assert_eq!(rows.positions[2 * v..2 * v + 2], at(points[place]));
        assert_eq!(rows.heights[v], points[place][2]);
        // a good mesh: a finish with more room takes it from there
        let mut mesh = mesh_of(&rows, &result);
        mesh.finish().expect("room");
        let (shape, _) = in_order(&points[..=place]);
        assert_eq!(triangles_of(&mesh), triangles_of(shape.mesh().expect("a mesh")));
    }
    let (rows, _, result) = load(most);
    assert_eq!(mesh_of(&rows, &result), in_order(&points).0.into_mesh().expect("a mesh"));
}

fn mesh_of(rows: &Rows, result: &BulkLoadResult) -> Mesh {
    let [v, e, f] = [result.vertices, result.edges, result.faces].map(|n| n as usize);
    let points: Vec<Point> =
        rows.positions.chunks(2).zip(&rows.heights).take(v).map(|(p, &z)| [p[0], p[1], z]).collect();
    let halves: Vec<[u32; 4]> = rows.halves.chunks(4).take(2 * e).map(|h| [h[0], h[1], h[2], h[3]]).collect();
    Mesh::from_rows(&points, &rows.outs[..v], &halves, &rows.adjacent[..f]).expect("a good mesh")
}

/// After the start a refusal 9 names the point in the whole list, and the mesh, the answers and the heights are those of the run that is
/// refused; the seed's answers stand.
#[test]
fn refused_9_in_the_sweep() {
    let random = &mut Random(0x2545_f491_4f6c_dd1d);
    let (mut places, mut ends) = (0, 0);
    for turn in 0..400 {
        // a fan of flat triangles far from a small seed, in an order that is not sorted
        let mut list = vec![[0, 0], [9, 1], [2, 8]];
        list.extend((0..=14).map(|i| [4000 + turn, 100 * (i * 5 % 15) - 700 + random.within(3)]));
        list.extend((0..6).map(|_| [random.within(3000), random.within(900)]));
        list.extend((0..3).map(|_| [-random.within(9000).abs(), random.within(9000)]));
        let points = with_heights(&list);
        let Some((k, seed)) = seed_of(&points) else { continue };
        let (flat, heights) = split(&points);
        for pending in [8, 9, 10, 12] {
            let mut rows = rows_for(points.len(), pending);
            let mut answers = vec![7; 4 * points.len()];
            let result = rows.bulk_load(&flat, &heights, &mut answers);
            let mut beside = rows_of(&seed, points.len() - k, pending);
            let mut rest = vec![7; 4 * (points.len() - k)];
            let run = beside.run(centre_of(&seed).0, &points[k..], &mut rest);
            assert_eq!(result.refusal, run.refusal);
            assert_eq!(result.place, if run.refusal == 9 { k as u32 + run.place } else { 0 });
            assert_eq!([result.vertices, result.edges, result.faces], [run.vertices, run.edges, run.faces]);
            assert_eq!((result.convex_flips, result.closing_flips), (run.convex_flips, run.closing_flips));
            assert_eq!(answers[4 * k..], rest);
            assert!(answers[..4 * k].chunks(4).all(|a| [1, 9].contains(&a[0])));
            assert_eq!(rows.positions, beside.positions);
            assert_eq!(rows.heights, beside.heights);
            assert_eq!(
                (&rows.outs, &rows.halves, &rows.adjacent),
                (&beside.outs, &beside.halves, &beside.adjacent)
            );
            places += u32::from(run.refusal == 9 && (run.place as usize) < points.len() - k);
            ends += u32::from(run.refusal == 9 && run.place as usize == points.len() - k);
        }
    }
    println!("refused 9 at a point {places} times, in the finish {ends} times");
    assert!(places > 10);
}
