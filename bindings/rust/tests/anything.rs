//! A call takes anything: rows of any length with anything in them, any counts, centre, points, quote and level. It returns, and a refusal
//! but 9 leaves every row as it was. Through the exports themselves, on seeds that were damaged a little and on noise.

use fithmoul::sys::{self, AskResult, BulkLoadResult, Node, Quote};

struct Random(u64);

impl Random {
    fn below(&mut self, n: u64) -> u64 {
        self.0 ^= self.0 << 13;
        self.0 ^= self.0 >> 7;
        self.0 ^= self.0 << 17;
        self.0 % n
    }

    fn word(&mut self) -> u32 {
        match self.below(4) {
            0 => u32::MAX,
            1 => self.below(1 << 32) as u32,
            _ => self.below(9) as u32,
        }
    }

    fn coordinate(&mut self) -> i32 {
        match self.below(40) {
            0 => i32::MIN,
            1 => 16_777_217,
            2..16 => self.below(5) as i32,
            _ => self.below(21) as i32 - 10,
        }
    }

    fn height(&mut self) -> i32 {
        match self.below(40) {
            0 => i32::MIN,
            1 => 1_048_577,
            _ => self.below(2_097_153) as i32 - 1_048_576,
        }
    }

    fn center(&mut self) -> f64 {
        [f64::NAN, f64::INFINITY, -0.0, 1.0, 1.0, 1.0, 1.0, 1.0, 1e300, 1.5][self.below(10) as usize]
    }
}

/// A node that a call must not rely on.
const NOISE: Node = Node { angle: 7.0, edge: 7, left: 7, right: 7 };

#[derive(Clone, PartialEq, Debug)]
struct Rows {
    counts: [u32; 4],
    positions: Vec<i32>,
    heights: Vec<i32>,
    outs: Vec<u32>,
    halves: Vec<u32>,
    adjacent: Vec<u32>,
    nodes: Vec<Node>,
    freed: Vec<u32>,
    buckets: Vec<u32>,
    pending: Vec<u32>,
    answers: Vec<u64>,
}

/// The triangle (0,0), (4,0), (0,4) with room for n vertices.
fn seed(n: usize) -> Rows {
    let mut rows = Rows {
        counts: [3, 3, 2, 0],
        positions: vec![0, 0, 4, 0, 0, 4],
        heights: vec![1, -2, 3],
        outs: vec![0, 2, 4],
        halves: vec![2, 4, 1, 0, 5, 3, 0, 1, 4, 0, 1, 1, 1, 5, 0, 2, 0, 2, 1, 2, 3, 1, 0, 0],
        adjacent: vec![1, 0],
        nodes: vec![NOISE; n + 1],
        freed: vec![7; n + 1],
        buckets: vec![7; n.max(16)],
        pending: vec![7; 8],
        answers: vec![7; 4 * n],
    };
    rows.positions.resize(2 * n, 7);
    rows.heights.resize(n, i32::MAX); // entries past the counts are not looked at
    rows.outs.resize(n, 7);
    rows.halves.resize(24 * n, 7);
    rows.adjacent.resize(2 * n, 7);
    rows
}

/// What a call is given beside its rows.
struct Given {
    center: [f64; 2],
    points: Vec<i32>,
    point_heights: Vec<i32>,
    point: [i32; 3],
    quote: Quote,
}

/// One of the first entries that are there becomes another.
fn put<T>(random: &mut Random, row: &mut [T], first: usize, value: T) {
    if let Some(entry) = row.get_mut(random.below(first as u64) as usize) {
        *entry = value;
    }
}

fn damage(random: &mut Random, rows: &mut Rows) {
    let word = random.word();
    match random.below(14) {
        0 => put(random, &mut rows.counts, 4, word),
        1 => {
            let c = random.coordinate();
            put(random, &mut rows.positions, 6, c);
        }
        2 => put(random, &mut rows.outs, 3, word),
        3 => put(random, &mut rows.halves, 24, word),
        4 => put(random, &mut rows.adjacent, 2, word),
        5 => rows.halves.truncate(random.below(200) as usize),
        6 => rows.nodes.truncate(random.below(9) as usize),
        7 => rows.buckets.truncate(random.below(17) as usize),
        8 => rows.pending.truncate(random.below(9) as usize),
        9 => rows.positions.truncate(random.below(15) as usize),
        10 => {
            let z = random.height();
            put(random, &mut rows.heights, 3, z);
        }
        11 => rows.heights.truncate(random.below(8) as usize),
        _ => {}
    }
}

fn ask(r: &mut Rows, [x, y]: [f64; 2], [i, j, k]: [i32; 3]) -> AskResult {
    let [v, e, f, c] = r.counts;
    let (p, pl, z, zl) = (r.positions.as_ptr(), r.positions.len(), r.heights.as_ptr(), r.heights.len());
    let (o, ol, h, hl) = (r.outs.as_ptr(), r.outs.len(), r.halves.as_ptr(), r.halves.len());
    let (a, al, n, nl) = (r.adjacent.as_ptr(), r.adjacent.len(), r.nodes.as_mut_ptr(), r.nodes.len());
    let (d, dl, b, bl) = (r.freed.as_mut_ptr(), r.freed.len(), r.buckets.as_mut_ptr(), r.buckets.len());
    unsafe {
        sys::fithmoul_ask(v, e, f, c, p, pl, z, zl, o, ol, h, hl, a, al, n, nl, d, dl, b, bl, x, y, i, j, k)
    }
}

/// What asking about a point gives on these rows, whatever their change count; or that with one number changed.
fn quote_of(random: &mut Random, rows: &Rows, center: [f64; 2], point: [i32; 3]) -> Quote {
    let mut asked = rows.clone();
    asked.counts[3] = 0;
    let mut quote = ask(&mut asked, center, point).quote;
    [quote.x, quote.y, quote.z] = point;
    quote.changes = rows.counts[3];
    let word = random.word();
    match random.below(12) {
        0 => quote.changes = word,
        1 => quote.x = word as i32,
        2 => quote.y = word as i32,
        3 => quote.z = word as i32,
        4 => quote.fate |= u64::from(word) << 32,
        5 => quote.faces = word.into(),
        _ => {}
    }
    quote
}

/// The refusal of one of the nine calls on a mesh, on these rows. The point is that of a step, an ask and a commit, its height a volume's
/// level.
fn call(which: u64, r: &mut Rows, with: &Given) -> u32 {
    let &Given { center: [x, y], ref points, ref point_heights, point: [i, j, k], quote } = with;
    let [v, e, f, c] = r.counts;
    let (p, o) = (r.positions.as_mut_ptr(), r.outs.as_mut_ptr());
    let (h, a) = (r.halves.as_mut_ptr(), r.adjacent.as_mut_ptr());
    let (z, zl) = (r.heights.as_mut_ptr(), r.heights.len());
    let [pl, ol, hl, al] = [r.positions.len(), r.outs.len(), r.halves.len(), r.adjacent.len()];
    let (n, nl) = (r.nodes.as_mut_ptr(), r.nodes.len());
    let (d, dl) = (r.freed.as_mut_ptr(), r.freed.len());
    let (b, bl) = (r.buckets.as_mut_ptr(), r.buckets.len());
    let (q, ql) = (r.pending.as_mut_ptr(), r.pending.len());
    let (s, sl) = (r.answers.as_mut_ptr(), r.answers.len());
    let (t, tl) = (points.as_ptr(), points.len());
    let (u, ul) = (point_heights.as_ptr(), point_heights.len());
    unsafe {
        match which {
            0 => sys::fithmoul_check(v, e, f, p, pl, z, zl, o, ol, h, hl, a, al).refusal,
            1 => {
                sys::fithmoul_locate(
                    v, e, f, p, pl, z, zl, o, ol, h, hl, a, al, n, nl, d, dl, b, bl, x, y, 0.5,
                )
                .refusal
            }
            2 => {
                let step = sys::fithmoul_step(
                    v, e, f, p, pl, z, zl, o, ol, h, hl, a, al, n, nl, d, dl, b, bl, q, ql, x, y, i, j, k,
                );
                step.refusal
            }
            3 => sys::fithmoul_finish(v, e, f, p, pl, z, zl, o, ol, h, hl, a, al, q, ql).refusal,
            4 => {
                let run = sys::fithmoul_run(
                    v, e, f, c, p, pl, z, zl, o, ol, h, hl, a, al, n, nl, d, dl, b, bl, q, ql, s, sl, x, y,
                    t, tl, u, ul,
                );
                run.refusal
            }
            5 => sys::fithmoul_volume(v, e, f, p, pl, z, zl, o, ol, h, hl, a, al, k).refusal,
            6 => sys::fithmoul_area_total(v, e, f, p, pl, z, zl, o, ol, h, hl, a, al).refusal,
            7 => ask(r, [x, y], [i, j, k]).refusal,
            _ => {
                let commit = sys::fithmoul_commit(
                    v, e, f, c, p, pl, z, zl, o, ol, h, hl, a, al, n, nl, d, dl, b, bl, q, ql, x, y, i, j, k,
                    quote,
                );
                commit.refusal
            }
        }
    }
}

/// Anything; the change count of the rows is often at its end.
fn given(random: &mut Random, rows: &mut Rows) -> Given {
    rows.counts[3] = random.word();
    let center = [random.center(), random.center()];
    let points = (0..random.below(9)).map(|_| random.coordinate()).collect();
    let point_heights = (0..random.below(12)).map(|_| random.height()).collect();
    let point = match random.below(2) {
        0 => [9, 9, random.height()],
        _ => [random.coordinate(), random.coordinate(), random.height()],
    };
    let quote = quote_of(random, rows, center, point);
    Given { center, points, point_heights, point, quote }
}

/// The heights of the seed's vertices after a call: of a run, a skipped point on a vertex gives it its height. Counts the fates of a run.
fn heights_after(which: u64, before: &Rows, rows: &Rows, with: &Given, fates: &mut [u32; 10]) -> Vec<i32> {
    let mut heights = before.heights[..3].to_vec();
    if which == 4 {
        for (answer, &z) in rows.answers.chunks(4).zip(&with.point_heights).take(with.points.len() / 2) {
            fates[answer[0] as usize] += 1;
            if let (9, Some(height)) = (answer[0], heights.get_mut(answer[1] as usize)) {
                *height = z;
            }
        }
    }
    heights
}

#[test]
fn a_call_takes_anything() {
    let mut random = Random(0x2545_f491_4f6c_dd1d);
    let (mut seen, mut fates) = ([[0u32; 13]; 9], [0u32; 10]);
    for _ in 0..60_000 {
        let mut rows = seed(7);
        let with = given(&mut random, &mut rows);
        for _ in 0..random.below(3) {
            damage(&mut random, &mut rows);
        }
        let before = rows.clone();
        let which = random.below(9);
        let refusal = call(which, &mut rows, &with);
        seen[which as usize][refusal as usize] += 1;
        if ![0, 9].contains(&refusal) {
            assert!(rows == before, "refusal {refusal} changed a row");
        } else {
            let heights = heights_after(which, &before, &rows, &with, &mut fates);
            assert!(rows.heights[..3] == heights, "a height was changed");
            assert!(rows.nodes.iter().all(|n| *n == Node::default() || *n == NOISE));
        }
    }
    println!("{seen:?} {fates:?}");
    assert!(seen.iter().all(|by| [0, 1, 2, 3, 4, 5, 10].iter().all(|&k| by[k] > 0)), "{seen:?}");
    assert!([1, 2, 4, 7, 8].iter().all(|&which| seen[which][6] > 0), "{seen:?}");
    assert!(seen[7][11] == 0 && seen[7][12] > 0 && seen[8][11] > 0 && seen[8][12] > 0, "{seen:?}");
    assert!([1, 2, 6, 7, 8, 9].iter().all(|&k| fates[k] > 0) && fates[3..6] == [0; 3], "{fates:?}");
}

fn bulk_load(r: &mut Rows, points: &[i32], point_heights: &[i32]) -> BulkLoadResult {
    let (p, pl, z, zl) =
        (r.positions.as_mut_ptr(), r.positions.len(), r.heights.as_mut_ptr(), r.heights.len());
    let (o, ol, h, hl) = (r.outs.as_mut_ptr(), r.outs.len(), r.halves.as_mut_ptr(), r.halves.len());
    let (a, al, n, nl) = (r.adjacent.as_mut_ptr(), r.adjacent.len(), r.nodes.as_mut_ptr(), r.nodes.len());
    let (d, dl, b, bl) = (r.freed.as_mut_ptr(), r.freed.len(), r.buckets.as_mut_ptr(), r.buckets.len());
    let (q, ql, s, sl) = (r.pending.as_mut_ptr(), r.pending.len(), r.answers.as_mut_ptr(), r.answers.len());
    let (t, tl, u, ul) = (points.as_ptr(), points.len(), point_heights.as_ptr(), point_heights.len());
    unsafe {
        sys::fithmoul_bulk_load(
            p, pl, z, zl, o, ol, h, hl, a, al, n, nl, d, dl, b, bl, q, ql, s, sl, t, tl, u, ul,
        )
    }
}

/// What the rows hold before a bulk load makes no difference but for the entries that it does not use.
#[test]
fn a_bulk_load_takes_anything() {
    let mut random = Random(0x9e37_79b9_7f4a_7c15);
    let (mut seen, mut lines) = ([0u32; 13], 0);
    for _ in 0..60_000 {
        let mut rows = seed(7);
        for _ in 0..random.below(3) {
            damage(&mut random, &mut rows);
        }
        let points: Vec<i32> = (0..random.below(17)).map(|_| random.coordinate()).collect();
        let point_heights: Vec<i32> = (0..6 + random.below(6)).map(|_| random.height()).collect();
        let before = rows.clone();
        let result = bulk_load(&mut rows, &points, &point_heights);
        seen[result.refusal as usize] += 1;
        lines += result.line;
        if ![0, 9].contains(&result.refusal) {
            assert!(rows == before, "refusal {} changed a row", result.refusal);
            let BulkLoadResult { refusal, place, .. } = result;
            assert_eq!(result, BulkLoadResult { refusal, place, ..BulkLoadResult::default() });
            continue;
        }
        let [v, e, f] = [result.vertices, result.edges, result.faces].map(|n| n as usize);
        assert!(
            rows.positions[2 * v..] == before.positions[2 * v..] && rows.heights[v..] == before.heights[v..]
        );
        assert!(rows.outs[v..] == before.outs[v..] && rows.adjacent[f..] == before.adjacent[f..]);
        assert!(rows.halves[8 * e..] == before.halves[8 * e..]);
        assert!(rows.answers[2 * points.len()..] == before.answers[2 * points.len()..]);
        assert!(rows.nodes.iter().all(|n| *n == Node::default()));
        assert!(rows.freed.iter().chain(&rows.buckets).chain(&rows.pending).all(|&w| w == 0));
        // the same as in rows of another kind
        let mut other = Rows { positions: vec![-9; 14], heights: vec![9; 7], outs: vec![9; 7], ..seed(7) };
        (other.halves, other.adjacent) = (vec![9; 168], vec![9; 14]);
        other.pending.resize(before.pending.len(), 7);
        assert_eq!(bulk_load(&mut other, &points, &point_heights), result);
        assert!(other.halves[..8 * e] == rows.halves[..8 * e] && other.outs[..v] == rows.outs[..v]);
        assert!(other.adjacent[..f] == rows.adjacent[..f] && other.heights[..v] == rows.heights[..v]);
        assert!(other.positions[..2 * v] == rows.positions[..2 * v]);
    }
    println!("{seen:?}, lines {lines}");
    assert!([0, 2, 3, 10].iter().all(|&k| seen[k] > 100) && lines > 100, "{seen:?}, {lines}");
    assert!([1, 4, 5, 6, 7, 8, 11, 12].iter().all(|&k| seen[k] == 0), "{seen:?}");
}
