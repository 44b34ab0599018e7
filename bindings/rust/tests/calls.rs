//! The wrapper's own tests: the specification's sample, each refusal that can be met. tests/bulk_load.rs has meshes of bare points.

use fithmoul::{Fate, Mesh, Place, Refusal};

fn seed() -> Mesh {
    Mesh::triangle([[0, 0, 10], [4, 0, 20], [0, 4, 30]]).unwrap()
}

#[test]
fn sample() {
    let mut mesh = seed();
    let run = mesh.run([1.0, 1.0], &[[4, 4, 40], [2, 2, 50], [4, 4, 60], [1, 1, 70]]).unwrap();
    let fates: Vec<Fate> = run.answers.iter().map(|a| a.fate()).collect();
    assert_eq!(fates, [Fate::Added(3), Fate::OnEdge(4), Fate::Dropped, Fate::OnEdge(5)]);
    assert_eq!([mesh.vertex_count(), mesh.edge_count(), mesh.face_count()], [6, 11, 7]);
    assert_eq!(run.totals, fithmoul::Totals { faces: 0, convex_flips: 0, closing_flips: 0 });
    assert_eq!(mesh.triangles().count(), 6);
    let mut boundary = mesh.boundary();
    boundary.sort();
    assert_eq!(boundary, [0, 1, 2, 3]);
    assert_eq!(mesh.heights(), [10, 20, 30, 40, 50, 70]);
    // four triangles at the edge from (0, 0) to (2, 2), two at the one from there to (4, 4)
    let [below, above] = [4 * (10 + 20 + 70 - 75) + 4 * (20 + 50 + 70 - 75), 8 * (20 + 40 + 50 - 75)];
    let [left, over] = [4 * (10 + 30 + 70 - 75) + 4 * (30 + 50 + 70 - 75), 8 * (30 + 40 + 50 - 75)];
    assert_eq!(mesh.volume(25).unwrap().six_volumes, below + above + left + over);
}

/// What the same points answer alone.
#[test]
fn sample_step_by_step() {
    let mut mesh = seed();
    let fates =
        [[4, 4, 40], [2, 2, 50], [4, 4, 60], [1, 1, 70]].map(|p| mesh.step([1.0, 1.0], p).unwrap().fate());
    assert_eq!(fates, [Fate::Added(3), Fate::NotLeft, Fate::Dropped, Fate::AtCenter]);
    assert_eq!(fates.map(Fate::vertex), [Some(3), None, None, None]);
    assert_eq!(mesh.heights(), [10, 20, 30, 40]);
}

#[test]
fn a_flip() {
    let mut mesh = Mesh::triangle([[0, 0, -1], [4, 0, -2], [2, 1, -3]]).unwrap();
    let answer = mesh.step([2.0, 0.5], [2, -1, -4]).unwrap();
    assert_eq!((answer.fate(), answer.faces, answer.flips), (Fate::Added(3), 1, 1));
    assert_eq!(mesh.finish().unwrap().closing_flips, 0);
    assert_eq!(mesh.heights(), [-1, -2, -3, -4]);
}

#[test]
fn located() {
    let Place { edge, passed } = seed().locate([1.0, 1.0], 0.5).unwrap();
    assert_eq!(seed().halves()[edge as usize][2], 0);
    assert_eq!(passed, 0);
}

#[test]
fn refusals() {
    let two = Mesh::from_rows(&[[0, 0, 0], [4, 0, 0]], &[0, 1], &[], &[]);
    assert_eq!(two.unwrap_err(), Refusal::Count);
    let far = Mesh::triangle([[0, 0, 1_048_577], [16_777_217, 0, 0], [0, 4, 0]]);
    assert_eq!(far.unwrap_err(), Refusal::Coordinate { vertex: 1 });
    let high = Mesh::from_rows(&[[0, 0, 1_048_577], [4, 0, 0], [0, 4, 0]], &[0, 0, 0], &[[0; 4]; 6], &[0, 0]);
    assert_eq!(high.unwrap_err(), Refusal::Height);
    let open = Mesh::from_rows(&[[0, 0, 0], [4, 0, 0], [0, 4, 0]], &[0, 0, 0], &[[0; 4]; 6], &[0, 0]);
    assert_eq!(open.unwrap_err(), Refusal::Rules);
    let right = Mesh::triangle([[0, 0, 0], [0, 4, 0], [4, 0, 0]]);
    assert_eq!(right.unwrap_err(), Refusal::NotLeft { face: 1 });
    assert_eq!(seed().run([0.0, 0.0], &[]).unwrap_err(), Refusal::Center);
    assert_eq!(seed().run([f64::NAN, 0.0], &[]).unwrap_err(), Refusal::Center);
    assert_eq!(seed().step([9.0, 9.0], [7, 7, 7]).unwrap_err(), Refusal::Ring);
    assert_eq!(seed().locate([1.0, 1.0], f64::NAN).unwrap_err(), Refusal::Angle);
    let point = seed().run([1.0, 1.0], &[[5, 5, 1_048_577], [0, -16_777_217, 0]]).unwrap_err();
    assert_eq!(point, Refusal::Coordinate { vertex: 4 });
    let height = seed().run([9.0, 9.0], &[[5, 5, 0], [0, 9, -1_048_577]]).unwrap_err();
    assert_eq!(height, Refusal::Height);
    assert_eq!(seed().step([9.0, 9.0], [7, 7, 1_048_577]).unwrap_err(), Refusal::Height);
    assert_eq!(seed().run([1.0, 1.0], &vec![[5, 5, 5]; 1_000_000]).unwrap_err(), Refusal::Count);
    for (number, refusal) in (1..).zip([
        Refusal::Count,
        Refusal::Rows,
        Refusal::Coordinate { vertex: 0 },
        Refusal::Rules,
        Refusal::NotLeft { face: 0 },
        Refusal::Center,
        Refusal::Ring,
        Refusal::Angle,
        Refusal::Pending { point: 0 },
        Refusal::Height,
        Refusal::Quote,
        Refusal::Changes,
    ]) {
        assert_eq!(refusal.number(), number);
        assert!(!refusal.to_string().is_empty());
    }
}

#[test]
fn refused_changes_nothing() {
    let mut mesh = seed();
    assert!(mesh.run([9.0, 9.0], &[[5, 5, 5]]).is_err());
    assert_eq!(mesh, seed());
}
