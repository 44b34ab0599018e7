//! Each vertex keeps the height of its point, through every call and also through refusal 9; and nothing else depends on heights.

mod common;
#[path = "common/rows.rs"]
mod rows;
#[path = "common/step.rs"]
mod step;

use std::collections::HashMap;

use common::{of_triangles, Random};
use fithmoul::{Answer, Fate, Mesh, Point};
use rows::{rows_of, PAST};
use step::{flat_fan, CENTER};

fn random_points(random: &mut Random, count: u64, reach: i32) -> Vec<Point> {
    (0..count).map(|_| [random.within(reach), random.within(reach), random.within(1_048_576)]).collect()
}

#[test]
fn loaded() {
    let random = &mut Random(0x9e37_79b9_7f4a_7c15);
    for reach in [5, 40, 16_777_216] {
        let points = random_points(random, 400, reach);
        let loaded = Mesh::bulk_load(&points).expect("accepted");
        let mesh = loaded.shape.mesh().expect("a triangle");
        // of points at one place the last that is not dropped
        let mut last = HashMap::new();
        for ((point, answer), v) in points.iter().zip(&loaded.run.answers).zip(&loaded.vertices) {
            assert_eq!(answer.fate().vertex().unwrap_or(*v), *v);
            assert_eq!(mesh.positions()[*v as usize], point[..2]);
            if answer.fate() != Fate::Dropped {
                last.insert(*v as usize, point[2]);
            }
        }
        assert_eq!(last.len(), mesh.vertex_count());
        assert!(last.iter().all(|(&v, &z)| mesh.heights()[v] == z));
    }
}

/// Steps, and then a run of the same points.
#[test]
fn stepped_and_run() {
    let random = &mut Random(0x0123_4567_89ab_cdef);
    let seed = Mesh::triangle([[-9, -9, 1], [9, -9, 2], [0, 9, 3]]).expect("a triangle");
    let points = random_points(random, 150, 400);
    let mut stepped = seed.clone();
    let mut heights = vec![1, 2, 3];
    for &point in &points {
        if let Ok(answer) = stepped.step([0.0, 0.0], point) {
            if let Fate::Added(v) = answer.fate() {
                assert_eq!(v as usize, heights.len());
                heights.push(point[2]);
            }
        }
        assert_eq!(stepped.heights(), heights);
    }
    assert!(heights.len() > 20, "{}", heights.len());
    stepped.finish().expect("a good mesh");
    assert_eq!(stepped.heights(), heights);

    let mut run = seed.clone();
    let answers = run.run([0.0, 0.0], &points).expect("accepted").answers;
    let is_added = |a: &Answer| matches!(a.fate(), Fate::Added(_));
    let added = points.iter().zip(&answers).filter(|(_, a)| is_added(a));
    let mut expected: Vec<i32> = [1, 2, 3].into_iter().chain(added.map(|(p, _)| p[2])).collect();
    // then the skipped points, in list order
    for (point, answer) in points.iter().zip(&answers).filter(|(_, a)| !is_added(a)) {
        match answer.fate() {
            Fate::OnVertex(v) => expected[v as usize] = point[2],
            other => {
                assert_eq!(other.vertex(), Some(expected.len() as u32), "{other:?}");
                expected.push(point[2]);
            }
        }
    }
    assert_eq!(run.heights(), expected);
}

/// The same points at other heights: the same links, answers and counts.
#[test]
fn ignored_by_links() {
    let random = &mut Random(0x2545_f491_4f6c_dd1d);
    for reach in [6, 60, 16_777_216] {
        let points = random_points(random, 300, reach);
        let flat: Vec<Point> = points.iter().map(|&[x, y, _]| [x, y, 0]).collect();
        let [a, b] = [&points, &flat].map(|p| Mesh::bulk_load(p).expect("accepted"));
        assert!(a.run == b.run && a.vertices == b.vertices);
        let [a, b] = [a, b].map(|l| l.shape.into_mesh().expect("a triangle"));
        assert!(a.halves() == b.halves() && a.positions() == b.positions());
        assert!(a.outs() == b.outs() && a.adjacent() == b.adjacent());
        let [c, d] = [&a, &b].map(|loaded| {
            let mut mesh = loaded.clone();
            let answer = mesh.step([0.0, 0.0], [16_777_216, -16_777_215, loaded.heights()[0]]);
            (answer, loaded.locate([0.0, 0.0], 0.3), mesh.halves().to_vec())
        });
        assert_eq!(c, d);
    }
}

#[test]
fn a_step_refused_9() {
    let fan = flat_fan(8);
    let n = fan.vertex_count();
    for (pending, refusal) in [(8, 9), (9, 0)] {
        let mut rows = rows_of(&fan, 3, pending);
        let result = rows.step(CENTER, [1, -1, -5]);
        assert_eq!([result.refusal, result.place], [refusal, 0]);
        assert_eq!(result.vertices as usize, n + 1);
        assert_eq!(rows.heights[..n], *fan.heights());
        assert_eq!(rows.heights[n..], [-5, PAST, PAST]);
        assert_eq!(rows.positions[2 * n..], [1, -1, PAST, PAST, PAST, PAST]);
    }
    // a point that a step skips leaves no height behind
    let mut rows = rows_of(&fan, 3, 8);
    assert_eq!(rows.step(CENTER, [60, 3, -5]).answer.fate(), Fate::NotLeft);
    assert_eq!(rows.heights[n..], [PAST; 3]);
}

#[test]
fn a_run_refused_9() {
    let fan = flat_fan(8);
    let n = fan.vertex_count();
    // added, inside, at the centre, then the one that fills the list, and one more
    let points = [[300, 5, 11], [60, 3, 12], [70, 3, 13], [1, -1, 14], [-40, 2, 15]];
    for (pending, refusal, place) in [(8, 9, 3), (9, 0, 0)] {
        let mut rows = rows_of(&fan, points.len(), pending);
        let mut answers = [7; 20];
        let result = rows.run(CENTER, &points, &mut answers);
        assert_eq!([result.refusal, result.place], [refusal, place]);
        let fates: Vec<u64> = answers.chunks(4).map(|a| a[0]).collect();
        assert_eq!(rows.heights[..n], *fan.heights());
        if refusal == 9 {
            // the skipped ones are not in
            assert_eq!(answers[4..], [0; 16]);
            assert_eq!(fates, [1, 0, 0, 0, 0]);
            assert_eq!(result.vertices as usize, n + 2);
            assert_eq!(rows.heights[n..], [11, 14, PAST, PAST, PAST]);
        } else {
            assert_eq!(fates, [1, 6, 7, 1, 1]);
            assert_eq!(rows.heights[n..], [11, 14, 15, 12, 13]);
        }
    }
}

/// The finish of a run is refused, all points being in.
#[test]
fn a_finish_of_a_run_refused_9() {
    // a fan that lacks the triangle between its last point and its first: closing that corner lets the others flip
    let line = (0..=5).map(|i| [100, i, i]);
    let points: Vec<Point> =
        [[0, 0, 9]].into_iter().chain(line).chain([[-3, 3, 6], [-3, -3, 7], [1, -1, 8]]).collect();
    let all: Vec<[u32; 3]> = (0..8).map(|i| [0, i + 1, i + 2]).collect();
    let mesh = of_triangles(&points, &all);
    let n = mesh.vertex_count();
    let added = [[-50, 0, 21], [-2, 0, 22], [-60, 1, 23]];
    for (pending, refusal, place) in [(10, 9, 3), (11, 0, 0)] {
        let mut rows = rows_of(&mesh, 3, pending);
        let mut answers = [7; 12];
        let result = rows.run([-1.0, 0.5], &added, &mut answers);
        assert_eq!([result.refusal, result.place], [refusal, place]);
        // those of the steps, then the skipped ones, which are not in where the passes were refused
        let taken = |from: u64, to: u64| {
            let answered = added.iter().zip(answers.chunks(4));
            answered.filter(move |(_, a)| (from..=to).contains(&a[0])).map(|(p, _)| p[2])
        };
        let heights: Vec<i32> = taken(1, 1).chain(taken(6, 8)).collect();
        assert_eq!(taken(0, 0).count(), if refusal == 9 { 1 } else { 0 });
        assert!(!heights.is_empty() && result.vertices as usize == n + heights.len());
        assert_eq!(rows.heights[..n], *mesh.heights());
        assert_eq!(rows.heights[n..n + heights.len()], heights);
        assert!(rows.heights[n + heights.len()..].iter().all(|&z| z == PAST));
    }
}
