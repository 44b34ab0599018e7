//! The Rust's own answers (oracle/answers.txt, whose form oracle/FORMAT.md gives) through the exports. The Rust has no heights: ours are made up here, and
//! each vertex must keep its own, that of its place in the list.
//!
//! For each case in which the Rust puts the skipped points in: every fate, vertex, face count and flip count of a run; the Rust's mesh
//! after the last insertion, finished by us, against the run's finished mesh, link by link, with the totals adding up, and itself where
//! the run has no closing flip. Where no point was skipped, the Rust's mesh after its last step and its mesh after its first convexity
//! pass likewise. And where every lone step is accepted (a lone step asks a strict ring), the steps' answers and the mesh after the last
//! step against the Rust's, link by link.
//!
//! Of the others, where a later pass would add a face first or the Rust's search panics, the run must be accepted, with the Rust's
//! answers where a step added or dropped a point, and every other point put in.

use fithmoul::{Answer, Fate, Mesh, Point, Totals};
use std::iter::Peekable;
use std::str::FromStr;

struct Lines<'a>(Peekable<std::str::Lines<'a>>);

impl<'a> Lines<'a> {
    /// The numbers of the next line, whose tag is known.
    fn numbers<T: FromStr>(&mut self, tag: &str) -> Vec<T> {
        let line = self.0.next().expect("a line");
        let mut words = line.split(' ');
        assert_eq!(words.next(), Some(tag), "{line}");
        words.map(|w| w.parse().ok().expect("a number")).collect()
    }

    fn is_next(&mut self, tag: char) -> bool {
        self.0.peek().is_some_and(|line| line.starts_with(tag))
    }

    /// The next mesh, its vertices at these heights.
    fn mesh(&mut self, heights: impl IntoIterator<Item = i32>) -> Mesh {
        let counts: Vec<usize> = self.numbers("m");
        let positions: Vec<i32> = self.numbers("p");
        let outs: Vec<u32> = self.numbers("o");
        let halves: Vec<u32> = self.numbers("h");
        let faces: Vec<u32> = self.numbers("f");
        let points: Vec<Point> = positions.chunks(2).zip(heights).map(|(p, z)| [p[0], p[1], z]).collect();
        let halves: Vec<[u32; 4]> = halves.chunks(4).map(|h| [h[0], h[1], h[2], h[3]]).collect();
        assert_eq!(counts, [points.len(), halves.len() / 2, faces.len()]);
        Mesh::from_rows(&points, &outs, &halves, &faces).expect("the Rust's meshes are good")
    }
}

struct Case {
    seed: Mesh,
    center: [f64; 2],
    points: Vec<Point>,
    /// Of the steps.
    answers: Vec<[u64; 4]>,
    stepped: Mesh,
    pass: [u64; 2],
    passed: Mesh,
    /// Of the whole run, and the mesh after the last insertion, where the Rust has them.
    inserted: Option<(Vec<[u64; 4]>, Mesh)>,
}

/// Of the seed's vertices, and of the points: all different, both limits among them.
fn seed_height(v: usize) -> i32 {
    v as i32 - 1_048_576
}

fn point_height(i: usize) -> i32 {
    1_048_576 - i as i32
}

fn read(lines: &mut Lines) -> Case {
    let seed = lines.mesh((0..).map(seed_height));
    let center: Vec<u64> = lines.numbers("c");
    let points: Vec<i32> = lines.numbers("q");
    let answers = by_four(lines.numbers("a"));
    let added = (0..).zip(&answers).filter(|(_, a)| a[0] == 1).map(|(i, _)| point_height(i));
    let heights: Vec<i32> = seed.heights().iter().copied().chain(added).collect();
    let stepped = lines.mesh(heights.clone());
    let pass: Vec<u64> = lines.numbers("g");
    let passed = lines.mesh(heights.clone());
    let inserted = inserted(lines, heights);
    assert_eq!(lines.0.next(), Some("e"));
    Case {
        seed,
        center: [f64::from_bits(center[0]), f64::from_bits(center[1])],
        points: (0..).zip(points.chunks(2)).map(|(i, p)| [p[0], p[1], point_height(i)]).collect(),
        answers,
        stepped,
        pass: [pass[0], pass[1]],
        passed,
        inserted,
    }
}

fn by_four(numbers: Vec<u64>) -> Vec<[u64; 4]> {
    numbers.chunks(4).map(|a| [a[0], a[1], a[2], a[3]]).collect()
}

/// The answers of the run and the mesh after the last insertion, from the heights after the steps; none where there is no such mesh.
fn inserted(lines: &mut Lines, mut heights: Vec<i32>) -> Option<(Vec<[u64; 4]>, Mesh)> {
    if lines.is_next('l') {
        assert_eq!(lines.0.next(), Some("l"));
        return None;
    }
    let answers = by_four(lines.numbers("b"));
    if !lines.is_next('m') {
        assert!(answers.is_empty());
        return None;
    }
    for (i, &[fate, vertex, ..]) in answers.iter().enumerate().filter(|(_, a)| a[0] >= 6) {
        let vertex = vertex as usize;
        if fate == 9 {
            heights[vertex] = point_height(i);
        } else {
            assert_eq!(vertex, heights.len());
            heights.push(point_height(i));
        }
    }
    Some((answers, lines.mesh(heights)))
}

fn cases() -> Vec<Case> {
    let path = concat!(env!("CARGO_MANIFEST_DIR"), "/../../oracle/answers.txt");
    let text = std::fs::read_to_string(path).expect("the oracle's list");
    let mut lines = Lines(text.lines().peekable());
    let mut cases = Vec::new();
    while let Some(line) = lines.0.next() {
        if line.starts_with('i') {
            cases.push(read(&mut lines));
        } else {
            assert!(line.starts_with('#') && cases.is_empty(), "{line}");
        }
    }
    cases
}

fn words(answer: &Answer) -> [u64; 4] {
    let fate = match answer.fate() {
        Fate::Added(_) => 1,
        Fate::Dropped => 2,
        Fate::NotLeft => 3,
        Fate::InTriangle(_) => 6,
        Fate::OnEdge(_) => 7,
        Fate::Outside(_) => 8,
        Fate::OnVertex(_) => 9,
        other => panic!("{other:?} is outside the comparison's domain"),
    };
    [fate, answer.fate().vertex().map_or(0, u64::from), answer.faces, answer.flips]
}

/// The same mesh from where the Rust left it.
fn finished(mesh: &Mesh) -> (Mesh, Totals) {
    let mut mesh = mesh.clone();
    let totals = mesh.finish().expect("a good mesh");
    (mesh, totals)
}

#[test]
fn every_run() {
    let cases = cases();
    assert!(cases.len() >= 300);
    let (mut alone, mut whole, mut itself, mut fates) = (0, 0, 0, [0; 10]);
    for (number, case) in cases.iter().enumerate() {
        let mut mesh = case.seed.clone();
        let run = mesh.run(case.center, &case.points).expect("accepted");
        let answers: Vec<[u64; 4]> = run.answers.iter().map(words).collect();
        for (ours, stepped) in answers.iter().zip(&case.answers) {
            assert!(if stepped[0] < 3 { ours == stepped } else { ours[0] >= 6 }, "case {number}");
        }
        if let Some((expected, inserted)) = &case.inserted {
            assert_eq!(answers, *expected, "case {number}");
            let (from_there, rest) = finished(inserted);
            assert!(from_there == mesh, "case {number}, finished from the last insertion");
            assert_eq!([u64::from(rest.faces), rest.convex_flips], [0, 0], "case {number}");
            assert_eq!([u64::from(run.totals.faces), run.totals.convex_flips], case.pass, "case {number}");
            assert_eq!(run.totals.closing_flips, rest.closing_flips, "case {number}");
            if run.totals.closing_flips == 0 {
                assert!(*inserted == mesh, "case {number}, after the last insertion");
                itself += 1;
            }
            answers.iter().for_each(|a| fates[a[0] as usize] += 1);
            whole += 1;
        }
        if case.answers.iter().all(|a| a[0] < 3) {
            from_the_steps(case, number, &mesh, run.totals);
        }
        alone += u32::from(one_by_one(case, number));
    }
    println!("{} runs, {whole} of them with the Rust's insertions, {itself} without a closing flip, fates {fates:?};", cases.len());
    println!("{alone} also step by step");
    assert!(alone >= 100 && whole >= 250 && itself >= 250, "{alone} {whole} {itself}");
    assert!([1, 2, 6, 7, 8, 9].iter().all(|&fate| fates[fate] >= 20), "{fates:?}");
}

/// No point was skipped: the run is its steps and a finish.
fn from_the_steps(case: &Case, number: usize, mesh: &Mesh, totals: Totals) {
    let (from_steps, all) = finished(&case.stepped);
    assert!(from_steps == *mesh && all == totals, "case {number}, finished from the last step");
    let (from_pass, rest) = finished(&case.passed);
    assert!(from_pass == *mesh, "case {number}, finished from the first pass");
    assert_eq!(u64::from(totals.faces), case.pass[0] + u64::from(rest.faces), "case {number}");
    assert_eq!(totals.convex_flips, case.pass[1] + rest.convex_flips, "case {number}");
    assert_eq!(totals.closing_flips, rest.closing_flips, "case {number}");
}

/// Lone steps, each on the mesh that the one before left; false where one is refused.
fn one_by_one(case: &Case, number: usize) -> bool {
    let mut mesh = case.seed.clone();
    for (&point, expected) in case.points.iter().zip(&case.answers) {
        let Ok(answer) = mesh.step(case.center, point) else { return false };
        assert_eq!(words(&answer), *expected, "case {number}");
    }
    assert!(mesh == case.stepped, "case {number}, step by step");
    true
}
