//! The oracle's own tests.

use std::process::{Command, Stdio};

use oracle::bare::{self, bare_difference, Bare, BareAnswer};
use oracle::case::{read_answers, read_list, reason, Answer, Case, Ending, Insertions, Lines};
use oracle::compare::difference;
use oracle::delaunay_core::bulk_load::driver::{
    self, angle, answer, answer_from, boundary_angles, built, Sweep, Watch,
};
use oracle::delaunay_core::bulk_load::growing;
use oracle::mesh::{orient, Mesh, Position};
use oracle::random::Random;
use oracle::smallest::{has_left_corner, has_unsettled_edge};
use oracle::{generate, list, Point2};

const ORACLE: &str = env!("CARGO_BIN_EXE_oracle");
const SECOND_PASS: &str = "S -2 -2 0 -1 -1 2\nC 0 -2\nP 2 -2\nP 1 -1\n";
const SAMPLE: &str = "S 0 0 4 0 0 4\nC 1 1\nP 4 4\nP 2 2\nP 4 4\nP 1 1\n";

fn stored() -> Vec<(Case, Answer)> {
    read_list(include_str!("../answers.txt")).expect("the list keeps its format")
}

/// What a command of the oracle prints for an input.
fn printed(arguments: &[&str], input: &str) -> String {
    use std::io::Write;
    let mut child =
        Command::new(ORACLE).args(arguments).stdin(Stdio::piped()).stdout(Stdio::piped()).spawn().unwrap();
    child.stdin.take().unwrap().write_all(input.as_bytes()).unwrap();
    String::from_utf8(child.wait_with_output().unwrap().stdout).unwrap()
}

/// M4 as Change 2 has it: its point at the centre is skipped, and inserted like the others. The totals but
/// for the closing flips.
#[test]
fn sample_listing() {
    let expected = "p 0 1 3 1 0\np 1 7 4 2 0\np 2 2 0 0 0\np 3 7 5 2 0\nt 6 11 6 32 0 0\n";
    assert_eq!(printed(&["listing"], SAMPLE), expected);
    let case = list::listed(SAMPLE).unwrap();
    let outside = Ending::Outside { reason: reason::AT_CENTRE, index: 3 };
    assert_eq!(answer(&case, Watch::Domain).ending, outside);
}

/// The four fates of an insertion, and both kinds of edges: the triangle (0,0) (8,0) (0,8) with its centre
/// outside, beside the long side.
#[test]
fn insertions() {
    let seed = Mesh::triangle([[0, 0], [8, 0], [0, 8]]);
    let points = vec![[2, 2], [4, 4], [2, 2], [1, 1], [5, 5], [3, 3]];
    let case = Case { number: 0, seed, centre: [6.0, 6.0], points };
    let answered = answer(&case, Watch::Domain);
    assert_eq!(answered.fates.iter().map(|f| f[0]).collect::<Vec<_>>(), [3, 3, 3, 3, 3, 3]);
    let Ending::Inside { inserted: Insertions::Made { fates, mesh }, .. } = answered.ending else {
        panic!("not inside")
    };
    let expected = [[6, 3, 2, 0], [7, 4, 1, 0], [9, 3, 0, 0], [7, 5, 2, 0], [8, 6, 2, 0], [7, 7, 2, 0]];
    assert_eq!(fates, expected);
    assert_eq!(mesh.refusal(&[]), None);
    assert_eq!(mesh.positions[3..], [[2, 2], [4, 4], [1, 1], [5, 5], [3, 3]]);
}

/// The Rust itself does not return from a point at the centre: the worker is ended.
#[test]
fn point_at_the_centre() {
    let listed = printed(&["beyond"], "S 1 0 0 1 0 -1\nC 0 0\nP 0 0\n");
    assert_eq!(listed, "x 2 0\nt 3 3 1 2 0 0\n");
}

/// M1, M2 and M3 by the Rust's `pseudo_angle`.
#[test]
fn marked_angles() {
    let origin = Point2::new(0.0, 0.0);
    let angles = [[-4, 0], [0, 4], [4, 0], [0, -4], [4, 4], [-4, -4]].map(|p| angle(p, origin));
    assert_eq!(angles, [1.0, 0.25, 0.5, 0.75, 0.375, 0.875]);
    assert_eq!(angle([-16_777_216, 0], Point2::new(0.0, -(2f64.powi(-40)))), 0.0);
    let case = list::listed(SAMPLE).unwrap();
    let mut angles = boundary_angles(&built(&case.seed), Point2::new(1.0, 1.0));
    angles.sort_by(f64::total_cmp);
    assert_eq!(angles, [0.1875, 0.5625, 0.875]);
}

/// M5: one flip.
#[test]
fn marked_flip() {
    let seed = Mesh::triangle([[0, 0], [4, 0], [2, 1]]);
    let case = Case { number: 0, seed, centre: [2.0, 0.5], points: vec![[2, -1]] };
    assert_eq!(answer(&case, Watch::Domain).fates, [[1, 3, 1, 1]]);
}

/// M9: that seed with the centre (9,9) is refused 7; and the other refusals of a run.
#[test]
fn refusals() {
    let case = list::listed(SAMPLE).unwrap();
    let refused = |change: &dyn Fn(&mut Case)| {
        let mut case = case.clone();
        change(&mut case);
        driver::refusal(&case)
    };
    assert_eq!(refused(&|_| {}), None);
    assert_eq!(refused(&|c| c.centre = [9.0, 9.0]), Some(7));
    assert_eq!(refused(&|c| c.centre = [4.0, 0.0]), Some(6));
    assert_eq!(refused(&|c| c.centre = [f64::NAN, 0.0]), Some(6));
    assert_eq!(refused(&|c| c.points[0] = [16_777_217, 0]), Some(3));
    assert_eq!(refused(&|c| c.points[0] = [16_777_216, 0]), None);
    assert_eq!(refused(&|c| c.seed.half_edges[0][0] = 4), Some(4));
    assert_eq!(refused(&|c| c.seed.positions.swap(0, 1)), Some(5));
}

/// A mesh of triangles whose numbers do not matter.
fn mesh_of(positions: &[Position], triangles: &[[u32; 3]]) -> Mesh {
    Mesh::of_triangles(positions, triangles, &mut Random::new(0, 0)).unwrap()
}

/// The smallest inputs of docs/DIFFERENCES.md that are listings, as they stand there.
#[test]
fn differences_in_listings() {
    let fate_4 = "S -1 -2 0 -1 0 0\nC -1 0\nP 2 0\n";
    assert!(printed(&["listing"], fate_4).starts_with("x 4 0\n"));
    assert!(printed(&["beyond"], fate_4).starts_with("p 0 1 3 2 0\nt 4 "));
    assert!(printed(&["listing"], SECOND_PASS).ends_with("x 10 2\nt 5 8 4 15 1 0\n"));
    let Ending::Inside { passed, .. } = answer(&list::listed(SECOND_PASS).unwrap(), Watch::Domain).ending
    else {
        panic!("not inside")
    };
    assert!(has_left_corner(&passed));
    let refused = |text: &str| printed(&["listing"], text);
    let beyond = |text: &str| printed(&["beyond"], text);
    assert_eq!(refused("S 0 0 1 0 0 1\nC 0 0\nP 16777217 0\n"), "x 6 3\n");
    assert_eq!(refused("S 0 0 0 1 1 0\nC 0 0\n"), "x 6 5\n");
    assert_eq!(refused("S 0 0 1 0 0 1\nC 0 0\n"), "x 6 6\n");
    assert_eq!(beyond("S 0 0 1 0 0 1\nC 0 0\n"), "x 7 0\n");
    assert_eq!(refused("S -1 0 0 0 0 1\nC 0 -1\n"), "x 6 7\n");
    assert_eq!(beyond("S -1 0 0 0 0 1\nC 0 -1\n"), "x 7 0\n");
    assert!(refused("S 0 1 -1 0 0 0\nC 2 1\nP 0 0\n").starts_with("x 6 7\n"));
    assert!(beyond("S 0 1 -1 0 0 0\nC 2 1\nP 0 0\n").starts_with("x 1 0\n"));
}

/// The others: an edge that the Rust leaves unsettled, the fan of eight flips, a ring that is sound and
/// not strict.
#[test]
fn differences_of_other_seeds() {
    let seed = mesh_of(&[[-1, -1], [1, 1], [0, 1], [1, 0]], &[[0, 1, 2], [1, 0, 3]]);
    assert!(has_unsettled_edge(&seed));
    let case = Case { number: 0, seed: seed.clone(), centre: [0.25, 0.25], points: vec![] };
    let inserted = Insertions::Made { fates: vec![], mesh: seed.clone() };
    let ending = Ending::Inside { stepped: seed.clone(), pass: [0, 0], passed: seed, inserted };
    assert_eq!(answer(&case, Watch::Domain).ending, ending);

    assert_eq!(answer(&generate::fan(8), Watch::Domain).fates, [[1, 10, 1, 8]]);

    let seed = Mesh::triangle([[-1, 0], [1, -1], [0, 0]]);
    let case = Case { number: 0, seed, centre: [-0.5, 0.0], points: vec![[1, 0], [3, 5]] };
    let answered = answer(&case, Watch::Domain);
    assert!(answered.fates.iter().all(|fate| fate[0] == 1));
    let Ending::Inside { stepped, .. } = answer(&case.cut(1), Watch::Domain).ending else {
        panic!("not inside")
    };
    let angles = boundary_angles(&built(&stepped), Point2::new(-0.5, 0.0));
    assert!(driver::is_sound(&angles) && !driver::is_strict(&angles));
}

/// The differences of the insertions: a second pass before them, a search that goes round, another start.
#[test]
fn differences_of_insertions() {
    let text = "S -1 2 -2 -1 0 -1\nC -1 -2\nP 2 -2\nP 1 -1\nP -1 0\n";
    let steps = "p 0 1 3 1 0\np 1 1 4 1 0\n";
    assert_eq!(printed(&["listing"], text), format!("{steps}p 2 3 0 0 0\nx 10 3\nt 5 8 4 12 1 0\n"));
    assert_eq!(printed(&["beyond"], text), format!("{steps}p 2 6 5 2 1\nt 6 11 6 12 1 0\n"));

    let case = generate::going_round();
    assert_eq!(driver::refusal(&case), None);
    let answered = answer(&case, Watch::Domain);
    assert_eq!(answered.fates, [[3, 0, 0, 0]]);
    assert!(matches!(answered.ending, Ending::Inside { inserted: Insertions::SearchPanics, .. }));

    let made = |text: &str, hint: usize| match answer_from(&list::listed(text).unwrap(), Watch::Domain, hint)
        .ending
    {
        Ending::Inside { inserted: Insertions::Made { fates, mesh }, .. } => (fates, mesh),
        _ => panic!("not inside"),
    };
    let links = "S 1 -1 0 1 -1 -1\nC 1 0\nP 0 -1\nP 0 0\n";
    let [first, second] = [0, 1].map(|hint| made(links, hint));
    assert_eq!(first.0, second.0);
    assert_ne!(first.1, second.1);
    let flips = "S 0 -1 2 -1 1 1\nC 0 1\nP 0 0\nP -1 -1\nP -2 1\nP 0 -2\n";
    assert_eq!([0, 5].map(|hint| made(flips, hint).0[1]), [[8, 6, 1, 0], [8, 6, 1, 1]]);
}

/// The watch for flips beside the outer face can fire: on a mesh with a triangle that turns right, which
/// every call refuses.
#[test]
fn other_flips_are_noticed() {
    let positions = [[0, 0], [-1, 0], [-1, 1], [0, -1], [0, -2]];
    let seed = mesh_of(&positions, &[[0, 1, 2], [2, 1, 3], [2, 3, 4]]);
    assert_eq!(seed.refusal(&[]), Some(5));
    let mut sweep = Sweep::new(&seed, [2.5, -0.75]).ok().unwrap();
    assert_eq!(sweep.pass(), Err(reason::OTHER_FLIP));
}

#[test]
fn list_is_what_the_oracle_answers() {
    for (case, stored) in stored() {
        assert_eq!(answer(&case, Watch::Domain), stored, "entry {}", case.number);
    }
}

#[test]
fn list_is_what_its_command_makes() {
    assert!(printed(&["list"], "") == include_str!("../answers.txt"));
}

/// What the list has: every fate of the Rust, flips in steps and passes, faces of passes, seeds of
/// both kinds, centres that are not whole, coordinates from tiny to the greatest.
#[test]
fn list_covers() {
    let entries = stored();
    assert!(entries.len() >= 300);
    let count = |holds: &dyn Fn(&Case, &Answer) -> bool| {
        entries.iter().filter(|(case, answer)| holds(case, answer)).count()
    };
    let fate = |fate: u32| count(&|_, a| a.fates.iter().any(|f| f[0] == fate));
    let pass = |at: usize| count(&|_, a| matches!(a.ending, Ending::Inside { pass, .. } if pass[at] > 0));
    let greatest = |c: &Case| c.points.iter().flatten().map(|n| n.abs()).max().unwrap_or(0);
    for fate in [fate(1), fate(2), fate(3)] {
        assert!(fate > 20);
    }
    assert!(count(&|_, a| a.fates.iter().any(|f| f[2] > 2)) > 20);
    assert!(count(&|_, a| a.fates.iter().any(|f| f[3] > 2)) > 20);
    assert!(count(&|_, a| a.fates.iter().any(|f| f[3] >= 8)) > 5);
    assert!(pass(0) > 20 && pass(1) > 20);
    let inserted = |holds: &dyn Fn(&[u32; 4]) -> bool| {
        count(&|_, a| match &a.ending {
            Ending::Inside { inserted: Insertions::Made { fates, .. }, .. } => fates.iter().any(|f| holds(f)),
            _ => false,
        })
    };
    for fate in 6..=9 {
        assert!(inserted(&|f| f[0] == fate) > 20);
    }
    for faces in [1, 2] {
        assert!(inserted(&|f| f[0] == 7 && f[2] == faces) > 10);
    }
    assert!(inserted(&|f| f[0] == 8 && f[2] > 2) > 5);
    for fate in 6..=8 {
        assert!(inserted(&|f| f[0] == fate && f[3] > 2) > 5);
    }
    let ends = |ending: Insertions| {
        count(&|_, a| matches!(&a.ending, Ending::Inside { inserted, .. } if *inserted == ending))
    };
    assert!(ends(Insertions::AfterPasses) > 3 && ends(Insertions::SearchPanics) > 1);
    assert!(count(&|c, _| c.seed.faces.len() == 2) > 50);
    assert!(count(&|c, _| c.seed.faces.len() > 2) > 50);
    assert!(count(&|c, _| c.centre.iter().any(|x| x.fract() != 0.0)) > 50);
    assert!(count(&|c, _| greatest(c) == 16_777_216) > 5);
    assert!(count(&|c, _| (1..=4).contains(&greatest(c))) > 5);
}

/// The sizes that FORMAT.md promises to a reader of the list.
#[test]
fn list_is_small() {
    let text = include_str!("../answers.txt");
    assert!(text.len() < 524_288);
    assert!(text.lines().all(|line| line.len() < 8_192));
    for (case, answer) in stored() {
        let Ending::Inside { pass, inserted, .. } = answer.ending else { panic!("not inside") };
        assert!(case.size() <= 100);
        let run = match inserted {
            Insertions::Made { fates, .. } => fates,
            _ => answer.fates,
        };
        let flips = run.iter().map(|f| f[3]).chain([pass[1]]).max().unwrap();
        assert!(2 + 4 * flips <= 4_096);
    }
}

/// Demand 3's invariant at every mesh of the list, and what a pass leaves alone.
#[test]
fn meshes_of_the_list_keep_the_rules() {
    for (case, answer) in stored() {
        let Ending::Inside { stepped, passed, inserted, .. } = answer.ending else { panic!("not inside") };
        assert_eq!(driver::refusal(&case), None);
        assert_eq!(stepped.refusal(&[]), None);
        assert_eq!(passed.refusal(&[]), None);
        assert_eq!(stepped.positions, passed.positions);
        let areas = |m: &Mesh| -> i64 {
            let corner = |t: [u32; 3]| t.map(|v| m.positions[v as usize]);
            m.triangles().into_iter().map(corner).map(|[a, b, c]| orient(a, b, c)).sum()
        };
        assert_eq!(areas(&passed), list::doubled_area(&passed));
        let Insertions::Made { fates, mesh } = inserted else { continue };
        assert_eq!(mesh.refusal(&[]), None);
        assert_eq!(areas(&mesh), list::doubled_area(&mesh));
        let added = fates.iter().zip(&answer.fates).filter(|(a, b)| a != b && a[0] != 9).count();
        assert_eq!(mesh.positions.len(), passed.positions.len() + added);
        assert_eq!(mesh.positions[..passed.positions.len()], passed.positions);
    }
}

/// Where the list has insertions, and where it has none: a further pass adds a face exactly where a
/// corner of the boundary turns left, and after the insertions none does.
#[test]
fn passes_and_left_corners() {
    let listed = stored().into_iter().map(|(case, _)| case);
    for case in listed.chain((0..600).map(|number| generate::case(7, number, 40))) {
        let Ending::Inside { passed, inserted, .. } = answer(&case, Watch::Domain).ending else { continue };
        assert_eq!(has_left_corner(&passed), inserted == Insertions::AfterPasses);
        if let Insertions::Made { mesh, .. } = inserted {
            assert!(!has_left_corner(&mesh));
        }
    }
}

/// A generated input depends on its seed and number alone, and no other input has its number.
#[test]
fn generator_is_fixed() {
    let alone = generate::case(5, 17, 40);
    assert_eq!(generate::case(5, 17, 40), alone);
    assert_ne!(generate::case(6, 17, 40), alone);
    assert_eq!(printed(&["generate", "3", "5"], ""), printed(&["generate", "3", "5"], ""));
}

/// Each number of an answer is compared.
#[test]
fn comparison_can_fail() {
    let entries = stored();
    let inserted = |a: &Answer| matches!(a.ending, Ending::Inside { inserted: Insertions::Made { .. }, .. });
    let flipped = |a: &Answer| a.fates.iter().any(|f| f[3] > 0);
    let (_, rust) = entries.iter().find(|(_, a)| flipped(a) && inserted(a)).unwrap();
    assert_eq!(difference(rust, rust), None);
    let differs = |change: &dyn Fn(&mut Answer)| {
        let mut other = rust.clone();
        change(&mut other);
        difference(rust, &other).is_some()
    };
    for at in 0..4 {
        assert!(differs(&|a| a.fates.last_mut().unwrap()[at] += 1));
    }
    let run = |change: &dyn Fn(&mut Vec<[u32; 4]>, &mut Mesh)| {
        differs(&|a| {
            let Ending::Inside { inserted: Insertions::Made { fates, mesh }, .. } = &mut a.ending else {
                panic!()
            };
            change(fates, mesh);
        })
    };
    for at in 0..4 {
        assert!(run(&|fates, _| fates.last_mut().unwrap()[at] += 1));
    }
    assert!(run(&|fates, _| fates.push([1, 0, 0, 0])));
    for when in 0..3 {
        let mesh_differs = |change: &dyn Fn(&mut Mesh)| {
            differs(&|a| {
                let Ending::Inside { stepped, passed, inserted, .. } = &mut a.ending else { panic!() };
                let Insertions::Made { mesh, .. } = inserted else { panic!() };
                change([stepped, passed, mesh][when]);
            })
        };
        for at in 0..4 {
            assert!(mesh_differs(&|m| m.half_edges.last_mut().unwrap()[at] ^= 1));
        }
        assert!(mesh_differs(&|m| *m.out_edges.last_mut().unwrap() ^= 1));
        assert!(mesh_differs(&|m| *m.faces.last_mut().unwrap() ^= 1));
        assert!(mesh_differs(&|m| m.positions.last_mut().unwrap()[0] ^= 1));
    }
    for at in 0..2 {
        assert!(differs(&|a| {
            let Ending::Inside { pass, .. } = &mut a.ending else { panic!() };
            pass[at] += 1;
        }));
    }
}

/// Where the Rust has no insertions, another side may have some; where it has some, the other side must.
#[test]
fn comparison_of_insertions() {
    let case = list::listed("S 0 0 4 0 0 4\nC 1 1\nP 4 4\nP 2 2\n").unwrap();
    let made = answer(&case, Watch::Domain);
    let with = |inserted: Insertions| {
        let mut other = made.clone();
        let Ending::Inside { inserted: place, .. } = &mut other.ending else { panic!() };
        *place = inserted;
        other
    };
    for inserted in [Insertions::AfterPasses, Insertions::SearchPanics] {
        let none = with(inserted);
        assert!(difference(&made, &none).is_some());
        assert_eq!(difference(&none, &made), None);
        assert_eq!(difference(&none, &none), None);
        // The point that was added keeps its answer.
        let Ending::Inside { inserted: Insertions::Made { mut fates, mesh }, .. } = made.clone().ending
        else {
            panic!()
        };
        fates[0][3] += 1;
        assert!(difference(&none, &with(Insertions::Made { fates, mesh })).is_some());
    }
}

/// The text of each kind of answer is read as it was written; also where a run has no point.
#[test]
fn text_of_insertions() {
    let cases = ["S 0 0 4 0 0 4\nC 1 1\n", "S 0 0 4 0 0 4\nC 1 1\nP 2 2\n", SECOND_PASS];
    let cases = cases.map(|text| list::listed(text).unwrap()).into_iter().chain([generate::going_round()]);
    let answers: Vec<Answer> = cases.map(|case| answer(&case, Watch::Domain)).collect();
    let mut text = String::new();
    for answer in &answers {
        answer.write(&mut text);
    }
    assert_eq!(read_answers(&text).unwrap(), answers);
    assert!(text.contains("\nb\nm ") && text.contains("\nb\ne\n") && text.contains("\nl\ne\n"));
}

/// `oracle compare` beside itself agrees; beside a program that answers nothing it does not.
#[test]
fn compare_command() {
    let same = printed(&["compare", "300", "2", "--", ORACLE, "answer"], "");
    assert!(same.contains("compared inside the domain: 300\n"), "{same}");
    assert!(same.ends_with("disagreements: 0\n"), "{same}");
    let none = printed(&["compare", "3", "2", "--", "true"], "");
    assert!(none.contains("the smallest disagreement"), "{none}");
}

fn bare_of(points: &[Position]) -> Bare {
    Bare { number: 0, points: points.to_vec() }
}

/// The answers of bare points: those of the growing seed, then of the steps; the points in the seed, where the
/// sweep starts; the last mesh.
fn grown(points: &[Position]) -> (Vec<[u32; 4]>, Option<u32>, Mesh) {
    let BareAnswer { start, answer } = growing::answer(&bare_of(points));
    let start = start.map(|s| s.taken);
    match answer.ending {
        Ending::Grown(mesh) => (answer.fates, start, mesh),
        Ending::Inside { inserted: Insertions::Made { fates, mesh }, .. } => (fates, start, mesh),
        ending => panic!("{ending:?}"),
    }
}

/// No points, one, two, a line; links as Change 6 has them.
#[test]
fn bare_points_on_a_line() {
    let nothing = "i 7\ns\na\nm 0 0 0\np\no\nh\nf\ne\n";
    assert_eq!(printed(&["bare", "answer"], "i 7\nq\n"), nothing);
    let one = "i 0\ns\na 1 0 0 0 9 0 0 0\nm 1 0 1\np 3 4\no 0\nh\nf 0\ne\n";
    assert_eq!(printed(&["bare", "answer"], "i 0\nq 3 4 3 4\n"), one);
    let (fates, start, mesh) = grown(&[[0, 0], [4, 0]]);
    assert_eq!((fates.len(), start), (2, None));
    assert_eq!(mesh.half_edges, [[1, 1, 0, 0], [0, 0, 0, 1]]);
    assert_eq!((mesh.out_edges, mesh.faces), (vec![0, 1], vec![0]));
    let (fates, start, mesh) = grown(&[[0, 0], [4, 0], [1, 0], [4, 0], [-3, 0]]);
    assert_eq!(fates, [[1, 0, 0, 0], [1, 1, 0, 0], [1, 2, 0, 0], [9, 1, 0, 0], [1, 3, 0, 0]]);
    assert_eq!((start, &mesh.faces[..]), (None, &[0][..]));
    let walk: Vec<u32> = mesh.boundary().into_iter().map(|e| mesh.origin(e)).collect();
    assert_eq!(walk, [2, 1, 2, 0, 3, 0]);
    for points in [vec![], vec![[3, 4]], vec![[0, 0], [4, 0], [1, 0]]] {
        let points = growing::as_taken(&points);
        assert_eq!(growing::loaded(&bare_of(&points)).unwrap(), grown(&points).2);
    }
}

/// 01's sample without its seed, as in Change 2; and a seed that grows on, the middle of its last three vertices
/// being on an edge, or outside by the rounding of a third.
#[test]
fn bare_points_and_their_start() {
    let (fates, start, mesh) = grown(&[[0, 0], [4, 0], [0, 4], [4, 4], [2, 2], [4, 4], [1, 1]]);
    assert_eq!(fates.iter().map(|f| f[0]).collect::<Vec<_>>(), [1, 1, 1, 1, 7, 2, 7]);
    assert_eq!((start, mesh.positions.len(), mesh.edges(), mesh.faces.len()), (Some(3), 6, 11, 7));
    assert_eq!(grown(&[[0, 0], [0, 5], [0, -5], [7, 1]]).1, None);
    assert_eq!(grown(&[[0, 0], [0, 5], [0, -5], [7, 1], [9, 9]]).1, Some(5));
    let far = 16_777_216;
    assert_eq!(grown(&[[far, 0], [far, 4], [far - 1, 2]]).1, None);
    assert_eq!(grown(&[[far, 0], [far, 4], [far - 2, 2]]).1, Some(3));
}

/// What `bulk_load` itself makes of its points is what its parts make of them in the order in which it takes
/// them; and such a mesh keeps the rules, is convex and settled.
#[test]
fn bulk_load_in_its_own_order() {
    let mut compared = 0;
    for number in 0..1400 {
        let list = bare::list(3, number, 30, true);
        assert_eq!(growing::as_taken(&list.points), list.points);
        let BareAnswer { answer, .. } = growing::answer(&list);
        let (Ending::Grown(mesh) | Ending::Inside { inserted: Insertions::Made { mesh, .. }, .. }) =
            answer.ending
        else {
            continue;
        };
        compared += 1;
        assert_eq!(growing::loaded(&list).unwrap(), mesh, "list {number}");
        if mesh.faces.len() > 1 {
            assert_eq!(mesh.refusal(&[]), None);
            assert!(!has_left_corner(&mesh) && !has_unsettled_edge(&mesh));
        }
    }
    assert!(compared > 1300, "{compared}");
}

/// Each part of an answer to bare points is compared, and its text is read as it was written.
#[test]
fn comparison_of_bare_points() {
    let mut started = 0;
    for number in 0..70 {
        let rust = growing::answer(&bare::list(4, number, 20, false));
        let mut text = String::new();
        rust.write(&mut text);
        assert_eq!(bare::read_answer(&mut Lines::new(&text)).unwrap(), rust);
        assert_eq!(bare_difference(&rust, &rust), None);
        let differs = |change: &dyn Fn(&mut BareAnswer)| {
            let mut other = rust.clone();
            change(&mut other);
            other == rust || bare_difference(&rust, &other).is_some()
        };
        for at in 0..4 {
            assert!(differs(&|a| a.answer.fates.iter_mut().take(1).for_each(|fate| fate[at] += 1)));
        }
        assert!(differs(&|a| a.start = None));
        assert!(differs(&|a| {
            if let Ending::Grown(mesh) = &mut a.answer.ending {
                mesh.out_edges.iter_mut().for_each(|e| *e += 1);
            }
        }));
        if let Some(mut start) = rust.start {
            started += 1;
            start.centre[1] ^= 1;
            assert!(differs(&|a| a.start = Some(start)));
            start = rust.start.unwrap();
            start.taken += 1;
            assert!(differs(&|a| a.start = Some(start)));
        }
    }
    assert!(started > 20);
}

/// The commands of bare points.
#[test]
fn compare_bare_commands() {
    let same = printed(&["bare", "compare", "300", "2", "--", ORACLE, "bare", "answer"], "");
    assert!(same.ends_with("disagreements: 0\n") && !same.contains("bulk_load"), "{same}");
    let same = printed(&["load", "compare", "300", "2", "--", ORACLE, "bare", "answer"], "");
    assert!(
        same.ends_with("disagreements: 0\n") && same.contains("put to bulk_load itself: 300\n"),
        "{same}"
    );
    for command in ["bare", "load"] {
        let none = printed(&[command, "compare", "3", "2", "--", "true"], "");
        assert!(none.contains("the smallest disagreement"), "{none}");
    }
    let lists = printed(&["load", "generate", "40", "5"], "");
    assert_eq!(lists, printed(&["load", "generate", "40", "5"], ""));
    let meshes = printed(&["load", "answer"], &lists);
    assert_eq!(meshes.lines().filter(|line| *line == "e").count(), 40);
}
