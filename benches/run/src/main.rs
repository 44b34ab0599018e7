//! Processor seconds and memory of a run: this library's, through its exports, beside the Rust's sweep from the same seed and centre, and beside CGAL.
//! And those of a bulk load from bare points: see `loads`.
//!
//! `bench_run [runs | loads] [TURNS [LARGEST [KIND..]]]` prints the tables, or those of runs or of loads alone, of all kinds of points or of
//! those that are named; `bench_run once SIDE KIND COUNT` makes one run, for a profiler, and prints how many points ours skipped;
//! `bench_run memory SIDE KIND COUNT` prints the peak of one run's memory, `bench_run first SIDE KIND COUNT` its seconds. SIDE is `ours`,
//! `rust`, `load_ours`, `load_rust`, `sorted_ours` or `sorted_rust`.
//! In each turn all sides take the same input one after the other, and each side's best turn counts.
//! Memory that a call gives back stays with the process, for both sides alike (`keep_memory`); what a first call costs, whose memory is all
//! new, is taken in processes of its own.
//! A turn of more than a few seconds is the only one. On points along few lines the Rust's time grows with the square of their number,
//! and nearly so where a run skips points: from some size on (`rust_largest`, `rust_run_largest`) ours is taken alone, and the Rust's cells
//! are empty.
//! Before it is timed each input is compared: our finished mesh is what our finish makes of the mesh after the Rust's last insertion, link
//! by link (triangle by triangle where points were skipped and a convexity pass after the first adds faces: those come after the Rust's
//! insertions, before ours), and both skip as many points. CGAL has as many vertices. Our points have heights, the Rust's and CGAL's have none.

mod inputs;
mod loads;

use std::fmt::Display;
use std::hint::black_box;
use std::path::Path;
use std::process::Command;

use fithmoul::{by_distance, Fate, Mesh, Point, Run};
use inputs::{bare, make, unsorted, Input, ALONG, OTHERS, SORTED};
use oracle::driver::Sweep;
use oracle::mesh;

fn sizes(kind: &str) -> &'static [usize] {
    match kind {
        _ if is_along_lines(kind) => &[1_000, 10_000, 50_000, 100_000, 200_000, 1_000_000],
        _ => &[1_000, 10_000, 100_000, 1_000_000],
    }
}

fn is_along_lines(kind: &str) -> bool {
    SORTED[3..].contains(&kind)
}

/// Whether points of a kind are skipped, in a run.
fn is_skipped(kind: &str) -> bool {
    OTHERS[1..].contains(&kind)
}

/// The most points that the Rust takes in a few seconds.
fn rust_largest(kind: &str) -> usize {
    match kind {
        ALONG => 100_000,
        _ if is_along_lines(kind) => 50_000,
        _ => 1_000_000,
    }
}

/// The same of a run, in which it searches for each skipped point from vertex 0.
fn rust_run_largest(kind: &str) -> usize {
    if is_skipped(kind) {
        100_000
    } else {
        rust_largest(kind)
    }
}

/// Seconds: a turn that takes more is the only one.
const LONG: f64 = 3.0;

/// From the seed to the finished mesh, memory and all.
#[inline(never)]
fn ours(input: &Input) -> (Mesh, Run) {
    let mut mesh = Mesh::triangle(input.corners).expect("a seed");
    let run = mesh.run(input.center, &input.points).expect("an accepted run");
    (mesh, run)
}

/// The same of the Rust: every step, one convexity pass, and the points that the steps skipped, each searched for from vertex 0. Its bulk
/// load ends there.
#[inline(never)]
fn rust(input: &Input) -> Sweep {
    let (mut sweep, _) = rust_stepped(input);
    sweep.pass_alone();
    sweep.insertions_alone();
    sweep
}

/// And how many points the steps skipped.
fn rust_stepped(input: &Input) -> (Sweep, usize) {
    let Ok(mut sweep) = Sweep::new(&mesh::Mesh::triangle(input.flat_corners), input.center) else {
        panic!("the Rust finds no hull")
    };
    sweep.reserve(input.flat.len());
    let skipped = sweep.steps_alone(&input.flat);
    (sweep, skipped)
}

/// `struct timespec` of 64-bit Linux.
#[repr(C)]
struct Timespec {
    seconds: i64,
    nanoseconds: i64,
}

extern "C" {
    fn clock_gettime(clock: i32, time: *mut Timespec) -> i32;
    fn malloc_trim(pad: usize) -> i32;
    fn mallopt(parameter: i32, value: i32) -> i32;
}

/// Memory that is given back stays with the process. Left to itself the C library decides by the sizes that were given back before, so that
/// the rows of one side may be new to the system in each turn, which makes and clears every page of them, and those of the other never.
fn keep_memory() {
    const TRIM_THRESHOLD: i32 = -1;
    const MMAP_THRESHOLD: i32 = -3;
    for parameter in [TRIM_THRESHOLD, MMAP_THRESHOLD] {
        assert_eq!(unsafe { mallopt(parameter, 1 << 30) }, 1, "a limit of the C library's memory");
    }
}

/// Seconds that this thread had a processor, so that other work on the machine weighs less.
fn now() -> f64 {
    const THREAD: i32 = 3;
    let mut time = Timespec { seconds: 0, nanoseconds: 0 };
    assert_eq!(unsafe { clock_gettime(THREAD, &mut time) }, 0);
    time.seconds as f64 + time.nanoseconds as f64 / 1e9
}

fn seconds<T>(work: impl FnOnce() -> T) -> (f64, T) {
    let start = now();
    let made = black_box(work());
    (now() - start, made)
}

/// Seconds of one of so many.
fn each<T>(times: usize, mut work: impl FnMut() -> T) -> f64 {
    let start = now();
    for _ in 0..times {
        black_box(work());
    }
    (now() - start) / times as f64
}

/// Seconds of the Rust's run, of its pass alone and of its insertions alone, one of so many.
fn rust_times(input: &Input, times: usize) -> [f64; 3] {
    let mut sums = [0.0; 3];
    for _ in 0..times {
        let (steps, (mut sweep, _)) = seconds(|| rust_stepped(input));
        let pass = seconds(|| sweep.pass_alone()).0;
        let insertions = seconds(|| sweep.insertions_alone()).0;
        sums = [sums[0] + steps + pass + insertions, sums[1] + pass, sums[2] + insertions];
    }
    sums.map(|s| s / times as f64)
}

fn best(all: &[f64]) -> f64 {
    all.iter().copied().reduce(f64::min).unwrap_or(f64::NAN)
}

/// A time in milliseconds, with three digits.
fn ms(seconds: f64) -> String {
    let ms = seconds * 1e3;
    let digits = if ms < 10.0 { 2 } else { usize::from(ms < 100.0) };
    format!("{ms:.digits$}")
}

/// A mesh of the Rust's, its vertices at given heights.
fn of_rows(m: &mesh::Mesh, heights: &[i32]) -> Mesh {
    let points: Vec<Point> = m.positions.iter().zip(heights).map(|(&[x, y], &z)| [x, y, z]).collect();
    Mesh::from_rows(&points, &m.out_edges, &m.half_edges, &m.faces).expect("a good mesh")
}

/// The parts of our run, in seconds, taken on the meshes that the Rust leaves after its steps, its pass and its insertions, which are ours
/// too.
struct Parts {
    check: f64,
    first_pass: f64,
    rest: f64,
}

/// What our run says of an input.
struct Told {
    vertices: usize,
    skipped: usize,
    flips: u64,
}

fn told(mesh: &Mesh, run: &Run) -> Told {
    let flips = run.answers.iter().map(|a| a.flips).sum::<u64>();
    let finish = run.totals.convex_flips + run.totals.closing_flips;
    Told { vertices: mesh.vertex_count(), skipped: skipped_of(run), flips: flips + finish }
}

/// The points that the steps skipped.
fn skipped_of(run: &Run) -> usize {
    run.answers.iter().filter(|a| !matches!(a.fate(), Fate::Added(_) | Fate::Dropped)).count()
}

/// The triangles by their vertices, whatever their numbers and first corners are.
fn triangles_of(mesh: &Mesh) -> Vec<[u32; 3]> {
    let from_least =
        |[a, b, c]: [u32; 3]| [[a, b, c], [b, c, a], [c, a, b]].into_iter().min().expect("three");
    let mut all: Vec<[u32; 3]> = mesh.triangles().map(from_least).collect();
    all.sort();
    all
}

/// What ours left and said, beside the Rust once; and the parts.
fn compared(input: &Input, turns: usize, finished: &Mesh, run: &Run) -> Parts {
    let skipped = skipped_of(run);
    let at_center = |p: &[i32; 2]| p.map(f64::from) == input.center;
    assert!(!input.flat.iter().any(at_center), "a point at the centre: the Rust would not return");
    let (mut sweep, others) = rust_stepped(input);
    assert_eq!(skipped, others, "skipped points");
    let stepped = of_rows(&sweep.rows(), finished.heights());
    sweep.pass_alone();
    let passed = of_rows(&sweep.rows(), finished.heights());
    sweep.insertions_alone();
    let inserted = of_rows(&sweep.rows(), finished.heights());
    let timed = |mesh: &Mesh| {
        let mut copy = mesh.clone();
        let (time, totals) = seconds(|| copy.finish().expect("a good mesh"));
        (time, copy, totals)
    };
    let (_, mesh, totals) = timed(&inserted);
    // the Rust makes one pass before its insertions: where another adds a face, vertices have the same numbers, edges and faces others
    let is_same = |mesh: &Mesh| match timed(&passed).2.faces == 0 || skipped == 0 {
        true => mesh == finished,
        false => mesh.positions() == finished.positions() && triangles_of(mesh) == triangles_of(finished),
    };
    assert!(is_same(&mesh), "the finished meshes differ");
    assert_eq!(totals.closing_flips, run.totals.closing_flips);
    // differences of these are taken, so the best counts
    let tries = turns + 300_000 / input.points.len();
    let take = |work: &dyn Fn() -> f64| (0..tries).map(|_| work()).fold(f64::MAX, f64::min);
    let check = take(&|| seconds(|| inserted.check().expect("a good mesh")).0);
    let [whole, after, last] = [&stepped, &passed, &inserted].map(|mesh| take(&|| timed(mesh).0));
    Parts { check, first_pass: (whole - after).max(0.0), rest: (last - check).max(0.0) }
}

/// What /proc has of this process, in kB.
fn status(name: &str) -> u64 {
    let text = std::fs::read_to_string("/proc/self/status").unwrap_or_default();
    let line = text.lines().find(|l| l.starts_with(name)).unwrap_or_default();
    line.split_whitespace().nth(1).and_then(|w| w.parse().ok()).unwrap_or(0)
}

/// One side once, and what ours says of the points.
fn once(side: &str, input: &Input) -> Option<Run> {
    if side == "ours" {
        return Some(black_box(ours(input)).1);
    }
    drop(black_box(rust(input)));
    None
}

/// What one side once prints in a mode of this program: a process of its own.
fn alone(mode: &str, side: &str, kind: &str, count: usize) -> f64 {
    let program = std::env::current_exe().expect("this program");
    let output = Command::new(program).args([mode, side, kind, &count.to_string()]).output();
    let text = String::from_utf8(output.expect("it runs").stdout).unwrap_or_default();
    text.trim().parse().unwrap_or(f64::NAN)
}

/// The peak of one side's memory, in MB, with the list of points.
fn peak(side: &str, kind: &str, count: usize) -> f64 {
    alone("memory", side, kind, count) / 1024.0
}

/// CGAL's seconds and MB on points that were written to a file; none where its program was not built. It has so many vertices.
fn cgal(program: &Path, file: &Path, vertices: usize) -> Option<[f64; 2]> {
    let output = Command::new(program).arg(file).output().ok()?;
    let text = String::from_utf8(output.stdout).ok()?;
    let mut numbers = text.split_whitespace().map(|w| w.parse::<f64>());
    let [time, memory, count] = [numbers.next()?.ok()?, numbers.next()?.ok()?, numbers.next()?.ok()?];
    assert_eq!(count, vertices as f64, "CGAL's vertices");
    Some([time, memory / 1024.0])
}

fn write_points(file: &Path, points: &[[i32; 2]]) {
    let bytes: Vec<u8> = points.iter().flatten().flat_map(|c| c.to_le_bytes()).collect();
    std::fs::write(file, bytes).expect("the folder target/ can be written");
}

struct Row {
    kind: &'static str,
    count: usize,
    told: Told,
    ours: f64,
    /// The Rust's run, its pass and its insertions, with the parts of ours; none where it would take too long.
    rust: Option<([f64; 3], Parts)>,
    /// CGAL's time and memory, and the time that our sorting takes, 0 where ours takes the points as they are.
    cgal: Option<[f64; 3]>,
}

/// Whether CGAL takes so many points of a kind.
fn is_beside_cgal(kind: &str, count: usize) -> bool {
    is_along_lines(kind) || (SORTED.contains(&kind) || is_skipped(kind)) && count >= 100_000
}

fn measure(kind: &'static str, count: usize, turns: usize, beside: Option<&Path>) -> Row {
    let input = make(kind, count);
    let (told, parts) = {
        let (mesh, run) = ours(&input);
        let is_compared = count <= rust_run_largest(kind);
        (told(&mesh, &run), is_compared.then(|| compared(&input, turns, &mesh, &run)))
    };
    let times = (100_000 / count).max(1);
    let file = Path::new("target/bench_points.bin");
    let beside = beside.filter(|_| is_beside_cgal(kind, count));
    if beside.is_some() {
        write_points(file, &[&input.flat_corners[..], &input.flat].concat());
    }
    let is_sorted = beside.is_some() && SORTED.contains(&kind);
    let all = if is_sorted { unsorted(kind, count) } else { Vec::new() };
    let [mut a, mut b, mut p, mut i, mut c, mut m, mut o] = [const { Vec::new() }; 7];
    for _ in 0..turns {
        let start = now();
        a.push(each(times, || ours(&input)));
        if parts.is_some() {
            let [whole, pass, insertions] = rust_times(&input, times);
            b.push(whole);
            p.push(pass);
            i.push(insertions);
        }
        if let Some([time, memory]) = beside.and_then(|program| cgal(program, file, told.vertices)) {
            c.push(time);
            m.push(memory);
            o.push(if is_sorted { seconds(|| by_distance(&all)).0 } else { 0.0 });
        }
        if now() - start > LONG {
            break;
        }
    }
    let rust = parts.map(|parts| ([best(&b), best(&p), best(&i)], parts));
    let cgal = (!c.is_empty()).then(|| [best(&c), best(&m), best(&o)]);
    Row { kind, count, told, ours: best(&a), rust, cgal }
}

fn main() {
    let words: Vec<String> = std::env::args().skip(1).collect();
    let modes = ["once", "memory", "first"];
    if let Some([mode, side, kind, count]) = words.first_chunk().filter(|w| modes.contains(&w[0].as_str())) {
        let (took, run) = only(side, kind, count.parse().expect("a number of points"));
        match (mode.as_str(), run) {
            ("memory", _) => println!("{}", status("VmHWM:")),
            ("first", _) => println!("{took}"),
            (_, Some(run)) => println!("{}", skipped_of(&run)),
            _ => {}
        }
        return;
    }
    keep_memory();
    let kinds = words.first().filter(|w| ["runs", "loads"].contains(&w.as_str()));
    let rest = &words[usize::from(kinds.is_some())..];
    let number = |i: usize, other: usize| rest.get(i).and_then(|w| w.parse().ok()).unwrap_or(other);
    let (turns, largest) = (number(0, 5), number(1, 100_000));
    let named = rest.get(2..).unwrap_or_default();
    let is_named = |kind: &str| named.is_empty() || named.iter().any(|n| n == kind);
    let program = Path::new("target/bench_cgal");
    let beside = program.exists().then_some(program);
    if kinds.is_none_or(|w| w == "runs") {
        tables(turns, largest, &is_named, beside);
    }
    if kinds.is_none_or(|w| w == "loads") {
        loads::tables(turns, largest, &is_named, beside);
    }
}

/// One side once, with the peak of memory from its start on, and its seconds. One list of points is enough, and what made it goes back to
/// the system.
fn only(side: &str, kind: &str, count: usize) -> (f64, Option<Run>) {
    fn from_here() {
        unsafe { malloc_trim(0) };
        let _ = std::fs::write("/proc/self/clear_refs", "5");
    }
    if side.contains('_') {
        let input = bare(kind, count).only(side);
        from_here();
        return seconds(|| loads::once(side, &input));
    }
    let mut input = make(kind, count);
    match side {
        "ours" => input.flat = Vec::new(),
        _ => input.points = Vec::new(),
    }
    from_here();
    seconds(|| once(side, &input))
}

fn tables(turns: usize, largest: usize, is_named: &dyn Fn(&str) -> bool, beside: Option<&Path>) {
    let kinds = SORTED.iter().chain(&OTHERS);
    let cases = kinds.flat_map(|&kind| sizes(kind).iter().map(move |&count| (kind, count)));
    let rows: Vec<Row> = cases
        .filter(|&(kind, count)| count <= largest && is_named(kind))
        .map(|(kind, count)| {
            eprintln!("{kind} {count}");
            measure(kind, count, turns, beside)
        })
        .collect();
    println!("Milliseconds:\n");
    table_of_runs(&rows);
    println!("\nNanoseconds of a run for each of its flips:\n");
    table_of_flips(&rows);
    println!("\nPeak memory, MB:\n");
    table_of_memory(&rows);
    println!("\nBeside CGAL, milliseconds:\n");
    match beside {
        Some(_) => table_beside_cgal(&rows),
        None => println!("target/bench_cgal was not built: it needs libcgal-dev and c++"),
    }
}

fn line(cells: &[&dyn Display]) {
    let cells: Vec<String> = cells.iter().map(|c| c.to_string()).collect();
    println!("| {} |", cells.join(" | "));
}

fn head(cells: &[&str]) {
    println!("| {} |\n|{}", cells.join(" | "), "---|".repeat(cells.len()));
}

fn ratio(a: f64, b: f64) -> String {
    format!("{:.2}", a / b)
}

fn table_of_runs(rows: &[Row]) {
    let sides = ["skipped", "ours", "Rust", "ours / Rust"];
    let work = ["steps, insertions", "Rust's", "ratio", "Rust's insertions"];
    let parts = ["first pass", "Rust's", "further passes, closing", "check"];
    let names = ["points", "number", "vertices"].iter().chain(&sides).chain(&work);
    head(&names.chain(&parts).copied().collect::<Vec<_>>());
    for r in rows {
        let told: [&dyn Display; 5] = [&r.kind, &r.count, &r.told.vertices, &r.told.skipped, &ms(r.ours)];
        let Some(([whole, pass, insertions], Parts { check, first_pass, rest })) = r.rust else {
            line(&[&told[..], &[&"" as &dyn Display; 10]].concat());
            continue;
        };
        let [ours, rust] = [r.ours - first_pass - rest, whole - pass];
        let beside: [&dyn Display; 2] = [&ms(whole), &ratio(r.ours, whole)];
        let work: [&dyn Display; 4] = [&ms(ours), &ms(rust), &ratio(ours, rust), &ms(insertions)];
        let finish: [&dyn Display; 4] = [&ms(first_pass), &ms(pass), &ms(rest), &ms(check)];
        line(&[&told[..], &beside, &work, &finish].concat());
    }
}

/// Along thirty lines nearly all time goes into flips; a single line has none.
fn table_of_flips(rows: &[Row]) {
    head(&["points", "number", "flips", "flips a point", "ours", "Rust"]);
    for r in rows.iter().filter(|r| r.kind == ALONG) {
        let flips = r.told.flips as f64;
        let of_each = |seconds: f64| format!("{:.1}", seconds * 1e9 / flips);
        let rust = r.rust.as_ref().map(|([whole, ..], _)| of_each(*whole)).unwrap_or_default();
        line(&[&r.kind, &r.count, &flips, &(flips / r.count as f64).round(), &of_each(r.ours), &rust]);
    }
}

fn table_of_memory(rows: &[Row]) {
    head(&["points", "number", "ours", "Rust"]);
    for r in rows.iter().filter(|r| r.count >= 100_000) {
        let of = |side: &str| peak(side, r.kind, r.count).round().to_string();
        let rust = if r.rust.is_some() { of("rust") } else { String::new() };
        line(&[&r.kind, &r.count, &of("ours"), &rust]);
    }
}

fn table_beside_cgal(rows: &[Row]) {
    head(&["points", "number", "ours", "sorting", "CGAL", "(ours + sorting) / CGAL", "CGAL (MB)"]);
    for r in rows {
        if let Some([time, memory, sorting]) = r.cgal {
            let both = ratio(r.ours + sorting, time);
            line(&[&r.kind, &r.count, &ms(r.ours), &ms(sorting), &ms(time), &both, &memory.round()]);
        }
    }
}
