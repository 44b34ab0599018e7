//! Asking and committing. A fresh quote commits as a step does, entry by entry; a stale one is refused 11 and changes nothing; who raises
//! the change count, and where it ends. Through the exports, and through the crate's own calls.

#[path = "common/cases.rs"]
mod cases;
mod common;
#[path = "common/quotes.rs"]
mod quotes;
#[path = "common/rows.rs"]
mod rows;
#[path = "common/step.rs"]
mod step;

use cases::{cases, Case};
use common::{of_triangles, Random};
use fithmoul::sys::{AskResult, BulkLoadResult, CommitResult, Node, Quote, RunResult};
use fithmoul::{Answer, Fate, Mesh, Point, Refusal, MOST_VERTICES};
use rows::{rows_of, Rows};
use step::{flat_fan, CENTER};

const MIDDLE: [f64; 2] = [1.0, 1.0];
const END: u32 = u32::MAX;

/// A node that a call must not rely on.
const NOISE: Node = Node { angle: 7.0, edge: 7, left: 7, right: 7 };

fn seed() -> Mesh {
    Mesh::triangle([[0, 0, 10], [4, 0, 20], [0, 4, 30]]).expect("a triangle")
}

/// A mesh, a centre and a point for each fate of a step, 1 to 5.
fn of_each_fate() -> [(Mesh, [f64; 2], Point); 5] {
    let thin = Mesh::triangle([[0, 0, 0], [0, -1, 0], [1, 1, 0]]).expect("a triangle");
    [
        (seed(), MIDDLE, [4, 4, 40]),
        (seed(), MIDDLE, [4, 0, 40]),
        (seed(), MIDDLE, [2, 2, 40]),
        (thin, [1.0, -1.0], [-2, -1, 40]),
        (seed(), MIDDLE, [1, 1, 40]),
    ]
}

fn number(fate: Fate) -> u64 {
    match fate {
        Fate::Added(_) => 1,
        Fate::Dropped => 2,
        Fate::NotLeft => 3,
        Fate::Unsound => 4,
        Fate::AtCenter => 5,
        other => panic!("{other:?} of a step"),
    }
}

/// Rows for one point more and a change count, with noise in those that hold nothing between calls.
fn lent(mesh: &Mesh, pending: usize, changes: u32) -> Rows {
    let mut rows = rows_of(mesh, 1, pending);
    rows.changes = changes;
    rows.nodes.fill(NOISE);
    rows
}

fn zeros_in_ring(rows: &mut Rows) {
    rows.nodes.fill(Node::default());
    rows.freed.fill(0);
    rows.buckets.fill(0);
}

/// A commit that was refused before anything was done.
fn refused(rows: &Rows, refusal: u32, place: u32) -> CommitResult {
    let ([vertices, edges, faces], changes) = (rows.counts, rows.changes);
    CommitResult { refusal, place, vertices, edges, faces, changes, answer: Answer::default() }
}

/// Asking about a point and committing it, beside a step on a copy: the same refusal and place, or every word of the answer, count and
/// entry of a row.
fn beside_a_step(rows: &mut Rows, center: [f64; 2], point: Point) -> CommitResult {
    let (mut stepped, mut asked, mut long) = (rows.clone(), rows.clone(), rows.clone());
    let step = stepped.step(center, point);
    let ask = asked.ask(center, point);
    let before = rows.clone();
    let commit = rows.commit(center, point, ask.quote);
    assert!(*rows == stepped, "another mesh than a step's");
    assert_eq!([commit.refusal, commit.place], [step.refusal, step.place]);
    assert_eq!([commit.vertices, commit.edges, commit.faces], [step.vertices, step.edges, step.faces]);
    assert_eq!(commit.answer, step.answer);
    if ![0, 9].contains(&step.refusal) {
        let none = AskResult { refusal: step.refusal, place: step.place, ..AskResult::default() };
        assert_eq!(ask, none);
        assert_eq!(commit, refused(&before, step.refusal, step.place));
        assert!(asked == before && *rows == before);
        return commit;
    }
    // what the step answers where no pending row is too short
    long.pending.resize(1000, 0);
    let answer = long.step(center, point).answer;
    let (fate, [x, y, z]) = (number(answer.fate()), point);
    let quote = Quote { changes: before.changes, x, y, z, fate, faces: answer.faces };
    assert_eq!(ask, AskResult { refusal: 0, place: 0, quote });
    let mut zeros = before.clone();
    zeros_in_ring(&mut zeros);
    assert!(asked == zeros, "asking leaves the mesh alone, and zeros in the ring's rows");
    assert_eq!(commit.changes, before.changes + u32::from(fate == 1));
    commit
}

#[test]
fn each_fate_beside_a_step() {
    for (fate, (mesh, center, point)) in (1..).zip(of_each_fate()) {
        let mut rows = lent(&mesh, 8, 7);
        let commit = beside_a_step(&mut rows, center, point);
        assert_eq!((commit.refusal, number(commit.answer.fate())), (0, fate));
        assert_eq!(commit.changes, if fate == 1 { 8 } else { 7 });
    }
}

/// Meshes that grow by commits: every fate, pending rows that are too short, and now and then a point or a centre that is refused.
#[test]
fn many_beside_a_step() {
    let random = &mut Random(0x9e37_79b9_7f4a_7c15);
    let (mut fates, mut seen) = ([0; 6], [0; 13]);
    let wide = Mesh::triangle([[-5, -4, 1], [5, -4, 2], [0, 6, 3]]).expect("a triangle");
    let [_, _, _, (thin, thin_center, _), _] = of_each_fate();
    for turn in 0..600 {
        let (start, center, reach) = match turn % 4 {
            0 => (&wide, [0.0, 0.0], 6),
            1 => (&wide, [1.5, -1.0], 16_777_216),
            2 => (&thin, thin_center, 9),
            _ => (&flat_fan(8), CENTER, 150),
        };
        let mut mesh = start.clone();
        for _ in 0..40 {
            let mut point = [random.within(reach), random.within(reach), random.within(1_048_576)];
            let mut about = center;
            match random.below(40) {
                0 => point[0] = 16_777_217,
                1 => point[2] = -1_048_577,
                2 => about[1] = f64::INFINITY,
                3 => about[0] = 1e7,
                _ => {}
            }
            let mut rows = lent(&mesh, 8, random.below(u64::from(END)) as u32);
            let commit = beside_a_step(&mut rows, about, point);
            seen[commit.refusal as usize] += 1;
            if commit.refusal == 0 {
                fates[number(commit.answer.fate()) as usize] += 1;
                let quote = mesh.ask(about, point).expect("accepted");
                mesh.commit(quote).expect("fresh");
            }
        }
    }
    println!("{fates:?} {seen:?}");
    assert!(fates[1..].iter().all(|&count| count > 0), "{fates:?}");
    assert!([0, 3, 6, 7, 9, 10].iter().all(|&refusal| seen[refusal] > 20), "{seen:?}");
}

/// A step that needs nine pending entries, with eight: the commit is refused 9 and raises the count, and asking still tells the fate and
/// the faces.
#[test]
fn refused_9() {
    let fan = flat_fan(8);
    for changes in [0, 7, END - 1] {
        let mut rows = lent(&fan, 8, changes);
        let quote = rows.clone().ask(CENTER, [1, -1, -5]).quote;
        assert_eq!((quote.fate, quote.faces), (1, 1));
        let commit = beside_a_step(&mut rows, CENTER, [1, -1, -5]);
        assert_eq!([commit.refusal, commit.place, commit.changes], [9, 0, changes + 1]);
        assert_eq!(commit.vertices as usize, fan.vertex_count() + 1);
        assert_eq!(commit.answer, Answer::default());
    }
    // nine are enough
    let commit = beside_a_step(&mut lent(&fan, 9, 3), CENTER, [1, -1, -5]);
    assert_eq!((commit.refusal, commit.changes, commit.answer.fate()), (0, 4, Fate::Added(10)));
}

/// Each number of the quote in turn is another: refused 11, and no row, count or answer tells of it.
#[test]
fn stale() {
    for (mesh, center, point) in of_each_fate() {
        let fresh = lent(&mesh, 8, 7).ask(center, point).quote;
        let others = [
            Quote { changes: 6, ..fresh },
            Quote { changes: 8, ..fresh },
            Quote { changes: END, ..fresh },
            Quote { x: fresh.x + 1, ..fresh },
            Quote { y: fresh.y - 1, ..fresh },
            Quote { z: fresh.z + 1, ..fresh },
            Quote { z: i32::MIN, ..fresh },
            Quote { fate: fresh.fate + 1, ..fresh },
            Quote { fate: fresh.fate | 1 << 32, ..fresh },
            Quote { fate: 0, ..fresh },
            Quote { faces: fresh.faces + 1, ..fresh },
            Quote { faces: fresh.faces | 1 << 63, ..fresh },
            Quote::default(),
        ];
        for quote in others {
            let mut rows = lent(&mesh, 8, 7);
            let before = rows.clone();
            assert_eq!(rows.commit(center, point, quote), refused(&before, 11, 0), "{quote:?}");
            assert!(rows == before, "{quote:?}");
        }
        // and another point than the quote's
        for k in 0..3 {
            let mut other = point;
            other[k] += 1;
            let mut rows = lent(&mesh, 8, 7);
            let before = rows.clone();
            assert_eq!(rows.commit(center, other, fresh), refused(&before, 11, 0));
            assert!(rows == before);
        }
        assert_eq!(lent(&mesh, 8, 7).commit(center, point, fresh).refusal, 0);
    }
}

/// 4,294,967,295: no quote is given, and no commit is accepted, whatever its fate; a stale quote is refused 11 first.
#[test]
fn the_end_of_the_count() {
    for (fate, (mesh, center, point)) in (1..).zip(of_each_fate()) {
        let mut rows = lent(&mesh, 8, END);
        let before = rows.clone();
        assert_eq!(rows.ask(center, point), AskResult { refusal: 12, ..AskResult::default() });
        let quote = Quote { changes: END, ..lent(&mesh, 8, 0).ask(center, point).quote };
        assert_eq!(rows.commit(center, point, quote), refused(&before, 12, 0));
        for stale in [Quote { changes: END - 1, ..quote }, Quote { faces: quote.faces + 1, ..quote }] {
            assert_eq!(rows.commit(center, point, stale), refused(&before, 11, 0));
        }
        assert!(rows == before);
        // one below it
        let commit = beside_a_step(&mut lent(&mesh, 8, END - 1), center, point);
        assert_eq!((commit.refusal, commit.changes), (0, if fate == 1 { END } else { END - 1 }));
    }
}

/// A quote of fate 2 to 5 leaves the count, so that it still holds afterwards.
#[test]
fn a_commit_that_adds_nothing() {
    for (mesh, center, point) in of_each_fate().into_iter().skip(1) {
        let mut rows = lent(&mesh, 8, 7);
        let quote = rows.ask(center, point).quote;
        for _ in 0..2 {
            let before = rows.clone();
            let commit = rows.commit(center, point, quote);
            assert_eq!((commit.refusal, commit.changes, commit.answer.faces), (0, 7, 0));
            assert!(rows.halves == before.halves && rows.heights == before.heights);
        }
    }
}

/// One thing after another is made wrong, from the last check to the first: the first is answered.
#[test]
fn the_order_of_the_checks() {
    let (point, mut center, mut rows) = ([4, 4, 40], MIDDLE, lent(&seed(), 8, 0));
    let mut quote = rows.clone().ask(center, point).quote;
    for refusal in [12, 11, 7, 6, 5, 4, 10, 3, 2, 1] {
        match refusal {
            12 => [rows.changes, quote.changes] = [END; 2],
            11 => quote.fate = 2,
            7 => center = [9.0, 9.0],
            6 => center[0] = f64::NAN,
            5 => rows.positions.swap(0, 2),
            4 => rows.halves[0] = 3,
            10 => rows.heights[2] = 1_048_577,
            3 => rows.positions[3] = -16_777_217,
            2 => drop(rows.buckets.pop()),
            _ => rows.counts[0] = 1,
        }
        let before = rows.clone();
        let place = u32::from([3, 5].contains(&refusal));
        assert_eq!(rows.commit(center, point, quote), refused(&before, refusal, place));
        // an ask knows all of them but 11
        let refusal = if refusal == 11 { 12 } else { refusal };
        assert_eq!(rows.ask(center, point), AskResult { refusal, place, ..AskResult::default() });
        assert!(rows == before);
    }
}

/// The point counts: there is room for one vertex more, and there are at most 999,999. An ask is lent no pending row.
#[test]
fn the_point_counts() {
    let point = [4, 4, 40];
    let quote = lent(&seed(), 8, 0).ask(MIDDLE, point).quote;
    for row in 0..9 {
        let mut rows = lent(&seed(), 8, 0);
        match row {
            0 => drop(rows.positions.pop()),
            1 => drop(rows.heights.pop()),
            2 => drop(rows.outs.pop()),
            3 => drop(rows.halves.pop()),
            4 => drop(rows.adjacent.pop()),
            5 => drop(rows.nodes.pop()),
            6 => drop(rows.freed.pop()),
            7 => drop(rows.buckets.pop()),
            _ => drop(rows.pending.pop()),
        }
        for quote in [quote, Quote::default()] {
            assert_eq!(rows.clone().commit(MIDDLE, point, quote).refusal, 2);
        }
        assert_eq!(rows.ask(MIDDLE, point).refusal, if row == 8 { 0 } else { 2 });
    }
    for (vertices, refusal) in [(0, 1), (1, 1), (2, 4), (999_999, 2), (1_000_000, 1), (END, 1)] {
        let mut rows = lent(&seed(), 8, 0);
        rows.counts[0] = vertices;
        assert_eq!(rows.ask(MIDDLE, point).refusal, refusal);
        assert_eq!(rows.commit(MIDDLE, point, quote).refusal, refusal);
    }
}

/// A run starts the count at 0, refused 9 as well; any other refusal leaves it.
#[test]
fn a_run_starts_the_count() {
    let run = |mesh: &Mesh, pending: usize, center: [f64; 2], point: Point| -> RunResult {
        let mut rows = lent(mesh, pending, 7);
        rows.run(center, &[point], &mut [0; 4])
    };
    let result = run(&seed(), 8, MIDDLE, [4, 4, 40]);
    assert_eq!([result.refusal, result.changes], [0, 0]);
    let result = run(&flat_fan(8), 8, CENTER, [1, -1, -5]);
    assert_eq!([result.refusal, result.changes], [9, 0]);
    let result = run(&seed(), 7, MIDDLE, [4, 4, 40]);
    assert_eq!([result.refusal, result.changes], [2, 7]);
    let result = run(&seed(), 8, [9.0, 9.0], [4, 4, 40]);
    assert_eq!([result.refusal, result.changes], [7, 7]);
}

/// What a case of a list lends, with 7 in every entry of the rows that hold nothing between calls.
fn lent_by(case: &Case) -> Rows {
    let counts: Vec<u32> = case.numbers('m').expect("counts");
    let lengths: Vec<usize> = case.numbers('n').expect("the ring's rows");
    Rows {
        counts: [counts[0], counts[1], counts[2]],
        changes: case.changes(),
        positions: case.row('p').expect("positions"),
        // zeros, and enough of them, where the list has none
        heights: case.row('e').unwrap_or_else(|| vec![0; MOST_VERTICES + 1]),
        outs: case.row('o').expect("out edges"),
        halves: case.row('h').expect("half-edges"),
        adjacent: case.row('f').expect("faces"),
        nodes: vec![NOISE; lengths[0]],
        freed: vec![7; lengths[1]],
        buckets: vec![7; lengths[2]],
        pending: case.row('q').unwrap_or_default(),
    }
}

/// The centre and the point of a case.
fn asked_of(case: &Case) -> ([f64; 2], Point) {
    let center: Vec<u64> = case.numbers('x').expect("a centre");
    let point: Vec<i32> = case.numbers('v').expect("a point");
    let z = case.numbers('y').map_or(0, |z| z[0]);
    ([f64::from_bits(center[0]), f64::from_bits(center[1])], [point[1], point[2], z])
}

fn quote_by(case: &Case, tag: char) -> Quote {
    let numbers: Vec<i128> = case.numbers(tag).expect("a quote");
    let [x, y, z] = [1, 2, 3].map(|k| numbers[k] as i32);
    Quote { changes: numbers[0] as u32, x, y, z, fate: numbers[4] as u64, faces: numbers[5] as u64 }
}

/// Every ask of tests/reference/lists/ask.txt.
#[test]
fn asks_of_the_list() {
    let (text, mut seen) = (cases::text("ask"), [0; 13]);
    for case in cases(&text) {
        let (mut rows, (center, point)) = (lent_by(&case), asked_of(&case));
        let mut left = rows.clone();
        let due: Vec<u32> = case.numbers('r').expect("an answer");
        let ask = rows.ask(center, point);
        let expected = AskResult { refusal: due[0], place: due[1], quote: quote_by(&case, 'G') };
        assert_eq!(ask, expected, "{}", case.name);
        if ask.refusal == 0 {
            zeros_in_ring(&mut left);
        }
        assert!(rows == left, "{}", case.name);
        seen[ask.refusal as usize] += 1;
    }
    assert!([0, 1, 2, 3, 4, 5, 6, 7, 10, 12].iter().all(|&refusal| seen[refusal] > 0), "{seen:?}");
}

/// Every commit of tests/reference/lists/commit.txt.
#[test]
fn commits_of_the_list() {
    let (text, mut seen) = (cases::text("commit"), [0; 13]);
    for case in cases(&text) {
        let (mut rows, (center, point)) = (lent_by(&case), asked_of(&case));
        let mut left = rows.clone();
        let mut counts = left.counts.to_vec();
        if let Some(after) = case.numbers('M') {
            counts = after;
            left.positions = case.row('P').expect("positions");
            left.heights = case.row('E').unwrap_or(left.heights);
            left.outs = case.row('O').expect("out edges");
            left.halves = case.row('H').expect("half-edges");
            left.adjacent = case.row('F').expect("faces");
            left.pending.fill(0);
            zeros_in_ring(&mut left);
        }
        let r = rows.commit(center, point, quote_by(&case, 'g'));
        let (number, vertex) = match r.answer.fate() {
            Fate::NotReached => (0, 0),
            fate => (number(fate), u64::from(fate.vertex().unwrap_or(0))),
        };
        let answer = [number, vertex, r.answer.faces, r.answer.flips, r.changes.into()];
        let answer = [&[r.refusal.into(), r.place.into()], &answer[..]].concat();
        assert_eq!(answer, case.numbers::<u64>('r').expect("an answer"), "{}", case.name);
        assert_eq!([r.vertices, r.edges, r.faces], counts[..], "{}", case.name);
        assert!(rows == left, "{}", case.name);
        seen[r.refusal as usize] += 1;
    }
    assert!([0, 1, 2, 3, 4, 5, 6, 7, 9, 10, 11, 12].iter().all(|&refusal| seen[refusal] > 0), "{seen:?}");
}

/// What C reads: include/fithmoul.h.
#[test]
fn sizes() {
    assert_eq!(size_of::<Quote>(), 32);
    assert_eq!(size_of::<AskResult>(), 40);
    assert_eq!(size_of::<CommitResult>(), 56);
    assert_eq!(size_of::<RunResult>(), 48);
    assert_eq!(size_of::<BulkLoadResult>(), 48);
}

#[test]
fn a_quote_tells() {
    for (fate, (mesh, center, point)) in (1..).zip(of_each_fate()) {
        let mut mesh = mesh.with_change_count(7);
        let before = mesh.clone();
        let quote = mesh.ask(center, point).expect("accepted");
        assert_eq!((number(quote.fate()), quote.faces()), (fate, u64::from(fate == 1)));
        assert_eq!((quote.point(), quote.center(), quote.change_count()), (point, center, 7));
        assert_eq!(mesh, before);
        let told = (quote.fate(), quote.faces());
        let answer = mesh.commit(quote).expect("fresh");
        assert_eq!((answer.fate(), answer.faces), told);
        let mut stepped = before.clone();
        assert_eq!(stepped.step(center, point), Ok(answer));
        assert_eq!(mesh, stepped);
        assert_eq!([mesh.change_count(), stepped.change_count()], if fate == 1 { [8, 7] } else { [7, 7] });
    }
}

/// Of two quotes one is committed; then the other is stale, and asking again gives one that is not.
#[test]
fn one_of_two() {
    let mut mesh = seed();
    let [near, far] = [[4, 4, 40], [-3, 1, 50]].map(|point| mesh.ask(MIDDLE, point).expect("accepted"));
    mesh.commit(near).expect("fresh");
    let before = mesh.clone();
    assert_eq!(mesh.commit(far), Err(Refusal::Quote));
    assert!(mesh == before && mesh.change_count() == 1);
    let again = mesh.ask(MIDDLE, [-3, 1, 50]).expect("accepted");
    assert_eq!(mesh.commit(again).expect("fresh").fate(), Fate::Added(4));
    assert_eq!(mesh.heights(), [10, 20, 30, 40, 50]);
    assert_eq!(mesh.change_count(), 2);
}

/// A step leaves the count: what it did is noticed where the point's fate or faces are others, and only there.
#[test]
fn a_step_in_between() {
    let point = [9, 9, 40];
    for (between, noticed) in [([9, 9, 0], true), ([5, 2, 0], true), ([-3, 1, 0], false)] {
        let mut mesh = seed();
        let quote = mesh.ask(MIDDLE, point).expect("accepted");
        assert_eq!((quote.fate(), quote.faces()), (Fate::Added(3), 1));
        assert!(matches!(mesh.step(MIDDLE, between).expect("accepted").fate(), Fate::Added(3)));
        assert_eq!(mesh.change_count(), 0);
        let now = mesh.ask(MIDDLE, point).expect("accepted");
        assert_eq!((number(now.fate()), now.faces()) != (1, 1), noticed);
        let before = mesh.clone();
        let commit = mesh.commit(quote);
        if noticed {
            assert_eq!(commit, Err(Refusal::Quote));
            assert!(mesh == before && mesh.change_count() == 0);
        } else {
            assert_eq!(commit.expect("it holds").fate(), Fate::Added(4));
        }
    }
}

/// Neither a finish nor a refused run changes the count, and a run starts it anew.
#[test]
fn a_finish_and_a_run_in_between() {
    let mut mesh = seed();
    for point in [[4, 4, 40], [-3, 1, 50]] {
        let quote = mesh.ask(MIDDLE, point).expect("accepted");
        mesh.commit(quote).expect("fresh");
    }
    let quote = mesh.ask(MIDDLE, [30, 2, 60]).expect("accepted");
    mesh.finish().expect("a good mesh");
    assert!(mesh.run([90.0, 90.0], &[]).is_err());
    assert_eq!(mesh.change_count(), 2);
    assert_eq!(mesh.clone().commit(quote).map(|answer| answer.fate()), Ok(Fate::Added(5)));
    let quote = mesh.ask(MIDDLE, [30, 2, 60]).expect("accepted");
    mesh.run(MIDDLE, &[]).expect("accepted");
    assert_eq!(mesh.change_count(), 0);
    assert_eq!(mesh.commit(quote), Err(Refusal::Quote));
}

/// A quote of another mesh counts where that one would give it too.
#[test]
fn of_another_mesh() {
    let other = Mesh::triangle([[0, 0, 0], [9, 0, 0], [0, 9, 0]]).expect("a triangle");
    let [same, grown, at_two] =
        [[9, 9, 1], [4, 4, 2], [9, 9, 3]].map(|p| seed().ask(MIDDLE, p).expect("accepted"));
    assert_eq!(other.clone().commit(same).map(|answer| answer.fate()), Ok(Fate::Added(3)));
    assert_eq!(other.clone().commit(grown), Err(Refusal::Quote));
    assert_eq!(other.with_change_count(2).commit(at_two), Err(Refusal::Quote));
}

#[test]
fn refusals_of_the_crate() {
    let at_end = seed().with_change_count(END);
    assert_eq!(at_end.ask(MIDDLE, [4, 4, 40]), Err(Refusal::Changes));
    // a run of no points starts the count again
    let mut again = at_end.clone();
    again.run(MIDDLE, &[]).expect("accepted");
    assert!(again.ask(MIDDLE, [4, 4, 40]).is_ok());
    let quote = seed().with_change_count(END - 1).ask(MIDDLE, [4, 4, 40]).expect("accepted");
    assert_eq!(at_end.clone().commit(quote), Err(Refusal::Quote));
    assert_eq!(seed().ask([9.0, 9.0], [4, 4, 40]), Err(Refusal::Ring));
    assert_eq!(seed().ask(MIDDLE, [4, 4, 1_048_577]), Err(Refusal::Height));
    assert_eq!(seed().ask(MIDDLE, [4, -16_777_217, 0]), Err(Refusal::Coordinate { vertex: 3 }));
}

/// However a mesh came about there is room to ask; one more than 1,000,000 vertices are refused.
#[test]
fn room_to_ask() {
    let points: Vec<Point> = (0..50).map(|i| [i * 7919 % 1009, i * 104_729 % 1013, i]).collect();
    let loaded = Mesh::bulk_load(&points).expect("accepted").shape.into_mesh().expect("a triangle");
    let mut swept = seed();
    swept.run(MIDDLE, &[[4, 4, 0], [-3, 1, 0]]).expect("accepted");
    let mut stepped = seed();
    stepped.step(MIDDLE, [4, 4, 0]).expect("accepted");
    for (mesh, center) in [(loaded, [500.0, 500.0]), (swept, MIDDLE), (stepped, MIDDLE)] {
        assert!(mesh.ask(center, [9000, 9000, 0]).is_ok());
        assert!(mesh.clone().ask(center, [9000, 9000, 0]).is_ok());
    }
    // a strip of triangles between two lines
    let strip: Vec<Point> = (0..MOST_VERTICES as i32).map(|i| [i / 2, i % 2, 0]).collect();
    let triangles =
        (0..MOST_VERTICES as u32 - 2).map(|i| if i % 2 == 0 { [i, i + 2, i + 1] } else { [i, i + 1, i + 2] });
    let full = of_triangles(&strip, &triangles.collect::<Vec<_>>());
    assert_eq!(full.ask([9.5, 0.5], [0, 9, 0]), Err(Refusal::Count));
}
