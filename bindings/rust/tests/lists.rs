//! The runs of tests/reference/lists/run.txt and the bulk loads of bulk_load.txt there through the exports: every row that a call is lent,
//! what it leaves in each entry and what it answers, refusal 9 in every place included. An independent reading of the specification made
//! them; tests/reference/README.md has the form of the lists.

#[path = "common/cases.rs"]
mod cases;

use cases::{cases, Case};
use fithmoul::sys::{self, BulkLoadResult, Node, RunResult};

#[derive(Clone, PartialEq, Debug)]
struct Rows {
    positions: Vec<i32>,
    heights: Vec<i32>,
    outs: Vec<u32>,
    halves: Vec<u32>,
    adjacent: Vec<u32>,
    nodes: Vec<Node>,
    freed: Vec<u32>,
    buckets: Vec<u32>,
    pending: Vec<u32>,
    answers: Vec<u64>,
}

const NOISE: Node = Node { angle: 7.0, edge: 7, left: 7, right: 7 };

/// More heights than any case has vertices or points, where the list has no row of them.
const ENOUGH: usize = 1_000_001;

fn lent(case: &Case) -> Rows {
    let lengths: Vec<usize> = case.numbers('n').expect("the ring's rows");
    Rows {
        positions: case.row('p').expect("positions"),
        heights: case.row('e').unwrap_or_else(|| vec![0; ENOUGH]),
        outs: case.row('o').expect("out edges"),
        halves: case.row('h').expect("half-edges"),
        adjacent: case.row('f').expect("faces"),
        nodes: vec![NOISE; lengths[0]],
        freed: vec![7; lengths[1]],
        buckets: vec![7; lengths[2]],
        pending: case.row('q').expect("pending"),
        answers: case.row('w').expect("answers"),
    }
}

/// What must be left: with `M` the rows that the case has, zeros in those that hold nothing between calls.
fn left(case: &Case, lent: &Rows) -> Rows {
    let mut rows = lent.clone();
    if case.lines.contains_key(&'M') {
        rows.positions = case.row('P').expect("positions");
        rows.heights = case.row('E').unwrap_or(rows.heights);
        rows.outs = case.row('O').expect("out edges");
        rows.halves = case.row('H').expect("half-edges");
        rows.adjacent = case.row('F').expect("faces");
        rows.answers = case.row('W').expect("answers");
        rows.nodes.fill(Node::default());
        rows.freed.fill(0);
        rows.buckets.fill(0);
        rows.pending.fill(0);
    }
    rows
}

fn run(case: &Case, counts: &[u32], r: &mut Rows) -> RunResult {
    let center: Vec<u64> = case.numbers('x').expect("a centre");
    let points: Vec<i32> = case.numbers('v').expect("points");
    let points = &points[1..];
    let heights: Vec<i32> = case.row('y').unwrap_or_else(|| vec![0; ENOUGH]);
    unsafe {
        sys::fithmoul_run(
            counts[0],
            counts[1],
            counts[2],
            case.changes(),
            r.positions.as_mut_ptr(),
            r.positions.len(),
            r.heights.as_mut_ptr(),
            r.heights.len(),
            r.outs.as_mut_ptr(),
            r.outs.len(),
            r.halves.as_mut_ptr(),
            r.halves.len(),
            r.adjacent.as_mut_ptr(),
            r.adjacent.len(),
            r.nodes.as_mut_ptr(),
            r.nodes.len(),
            r.freed.as_mut_ptr(),
            r.freed.len(),
            r.buckets.as_mut_ptr(),
            r.buckets.len(),
            r.pending.as_mut_ptr(),
            r.pending.len(),
            r.answers.as_mut_ptr(),
            r.answers.len(),
            f64::from_bits(center[0]),
            f64::from_bits(center[1]),
            points.as_ptr(),
            points.len(),
            heights.as_ptr(),
            heights.len(),
        )
    }
}

#[test]
fn every_run_of_the_list() {
    let text = cases::text("run");
    let (mut refusals, mut fates) = ([0; 11], [0; 10]);
    for case in cases(&text) {
        let counts: Vec<u32> = case.numbers('m').expect("counts");
        let mut rows = lent(&case);
        let expected = left(&case, &rows);
        let result = run(&case, &counts, &mut rows);
        let answer = [result.refusal, result.place, result.faces_added].map(u64::from);
        let answer = [&answer[..], &[result.convex_flips, result.closing_flips]].concat();
        assert_eq!(answer, case.numbers::<u64>('r').expect("an answer"), "{}", case.name);
        let after = case.numbers('M').unwrap_or(counts);
        assert_eq!([result.vertices, result.edges, result.faces], after[..], "{}", case.name);
        let changes = if [0, 9].contains(&result.refusal) { 0 } else { case.changes() };
        assert_eq!(result.changes, changes, "{}", case.name);
        assert!(rows == expected, "{}: {rows:?}, not {expected:?}", case.name);
        refusals[result.refusal as usize] += 1;
        if case.lines.contains_key(&'W') {
            let points = case.numbers::<i64>('v').expect("points")[0] as usize;
            rows.answers.chunks(4).take(points).for_each(|a| fates[a[0] as usize] += 1);
        }
    }
    println!("by refusal {refusals:?}, points by fate {fates:?}");
    assert!(refusals[0] > 400 && refusals[9] > 60, "{refusals:?}");
    assert!([1, 2, 6, 7, 8, 9].iter().all(|&k| fates[k] > 100) && fates[3..6] == [0; 3], "{fates:?}");
}

fn bulk_load(case: &Case, r: &mut Rows) -> BulkLoadResult {
    let points: Vec<i32> = case.numbers('v').expect("points");
    let points = &points[1..];
    let heights: Vec<i32> = case.row('y').unwrap_or_else(|| vec![0; ENOUGH]);
    unsafe {
        sys::fithmoul_bulk_load(
            r.positions.as_mut_ptr(),
            r.positions.len(),
            r.heights.as_mut_ptr(),
            r.heights.len(),
            r.outs.as_mut_ptr(),
            r.outs.len(),
            r.halves.as_mut_ptr(),
            r.halves.len(),
            r.adjacent.as_mut_ptr(),
            r.adjacent.len(),
            r.nodes.as_mut_ptr(),
            r.nodes.len(),
            r.freed.as_mut_ptr(),
            r.freed.len(),
            r.buckets.as_mut_ptr(),
            r.buckets.len(),
            r.pending.as_mut_ptr(),
            r.pending.len(),
            r.answers.as_mut_ptr(),
            r.answers.len(),
            points.as_ptr(),
            points.len(),
            heights.as_ptr(),
            heights.len(),
        )
    }
}

#[test]
fn every_bulk_load_of_the_list() {
    let text = cases::text("bulk_load");
    let (mut refusals, mut fates, mut lines) = ([0; 11], [0; 10], 0);
    for case in cases(&text) {
        let mut rows = lent(&case);
        let expected = left(&case, &rows);
        let r = bulk_load(&case, &mut rows);
        let numbers = [r.refusal, r.place, r.vertices, r.edges, r.faces, r.changes, r.line, r.faces_added];
        let answer = [&numbers.map(u64::from)[..], &[r.convex_flips, r.closing_flips]].concat();
        assert_eq!(answer, case.numbers::<u64>('r').expect("an answer"), "{}", case.name);
        assert!(rows == expected, "{}: {rows:?}, not {expected:?}", case.name);
        refusals[r.refusal as usize] += 1;
        lines += r.line;
        if case.lines.contains_key(&'W') {
            let points = case.numbers::<i64>('v').expect("points")[0] as usize;
            rows.answers.chunks(4).take(points).for_each(|a| fates[a[0] as usize] += 1);
        }
    }
    println!("by refusal {refusals:?}, lines {lines}, points by fate {fates:?}");
    assert!(refusals[0] > 300 && refusals[9] > 40 && lines > 70, "{refusals:?}, {lines}");
    assert!([1, 2, 6, 7, 9].iter().all(|&k| fates[k] > 80) && fates[3..6] == [0; 3], "{fates:?}");
}
