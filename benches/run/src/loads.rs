//! From bare points: this library's bulk load, through its export, beside the Rust's own `bulk_load`, and beside CGAL.
//!
//! Nothing is sorted in ours, and the Rust always sorts. So the points come in the order in which the Rust takes them, for ours as they
//! are, for the Rust the other way round, as its sort leaves them: that finds nothing to do, and both insert the same points one after the
//! other. With sorting, both get the points as they are made. In `random order` ours takes them so, without a sort, and the Rust sorts.
//!
//! Points along few lines are taken by ours alone where the Rust would take too long, as in a run.
//!
//! There are two tables: one of calls whose memory the process has had before, and one of a process's first call, whose memory is new. CGAL
//! stands in the second, since each of its turns is a process.
//!
//! Before it is timed each input is compared: our finished mesh is what our finish makes of the Rust's, link by link (triangle by triangle
//! where points were skipped and a convexity pass after the first adds faces, and in random order, where the vertices have other numbers).

use std::fmt::Display;
use std::hint::black_box;
use std::path::Path;

use fithmoul::{Mesh, Point, Run};
use oracle::delaunay_core::bulk_load;
use oracle::driver::{point, rows, Swept};
use oracle::Point2;

use crate::inputs::{bare, Bare, SORTED};
use crate::{
    alone, best, cgal, each, head, is_along_lines, line, ms, now, of_rows, ratio, rust_largest, sizes,
    skipped_of, triangles_of, write_points, LONG,
};

fn kinds() -> impl Iterator<Item = &'static str> {
    SORTED.into_iter().chain(["random order"])
}

/// From the list to the finished mesh, memory and all.
#[inline(never)]
pub fn load_ours(input: &Bare) -> (Mesh, Run) {
    let (shape, run) = Mesh::bulk_load_in_order(&input.points).expect("accepted");
    (shape.into_mesh().expect("a triangle"), run)
}

/// The same of the Rust, whose sort finds the points in its order.
#[inline(never)]
pub fn load_rust(input: &Bare) -> Swept {
    rust_of(input.flat.iter().rev())
}

fn rust_of<'a>(points: impl Iterator<Item = &'a [i32; 2]>) -> Swept {
    let elements: Vec<Point2<f64>> = points.map(|&p| point(p)).collect();
    bulk_load::<_, Swept>(elements).expect("valid points")
}

/// Both from the points as they are made.
fn sorted_ours(points: &[Point]) -> Mesh {
    Mesh::bulk_load(points).expect("accepted").shape.into_mesh().expect("a triangle")
}

/// The triangles by their corners' positions.
fn placed_triangles(mesh: &Mesh) -> Vec<[[i32; 2]; 3]> {
    let places = |t: [u32; 3]| {
        let mut corners = t.map(|v| mesh.positions()[v as usize]);
        corners.sort();
        corners
    };
    let mut all: Vec<[[i32; 2]; 3]> = mesh.triangles().map(places).collect();
    all.sort();
    all
}

/// Ours once, compared with the Rust's up to so many points: how many vertices, and how many points were skipped or met again.
fn compared(kind: &str, input: &Bare) -> (usize, usize) {
    let (ours, run) = load_ours(input);
    let told = (ours.vertex_count(), skipped_of(&run));
    if input.points.len() > rust_largest(kind) {
        return told;
    }
    let theirs = of_rows(&rows(&load_rust(input)), &vec![0; ours.vertex_count()]);
    let mut finished = theirs.clone();
    let totals = finished.finish().expect("a good mesh");
    if kind == "random order" {
        assert!(placed_triangles(&ours) == placed_triangles(&finished), "the meshes differ");
        return told;
    }
    assert!(ours.positions() == finished.positions(), "the vertices differ");
    let is_same = ours.halves() == finished.halves()
        && ours.outs() == finished.outs()
        && ours.adjacent() == finished.adjacent();
    assert!(
        is_same || (totals.faces > 0 && triangles_of(&ours) == triangles_of(&finished)),
        "the meshes differ"
    );
    told
}

/// The sides, as `bench_run` knows them.
const SIDES: [&str; 4] = ["load_ours", "load_rust", "sorted_ours", "sorted_rust"];

struct Row {
    kind: &'static str,
    count: usize,
    vertices: usize,
    skipped: usize,
    /// By sides, where memory is kept and where the call is a process's first; NaN where a side is not taken.
    kept: [f64; 4],
    first: [f64; 4],
    cgal: f64,
}

fn measure(kind: &'static str, count: usize, turns: usize, beside: Option<&Path>) -> Row {
    let input = bare(kind, count);
    let (vertices, skipped) = compared(kind, &input);
    let times = (100_000 / count).max(1);
    let file = Path::new("target/bench_points.bin");
    let beside = beside.filter(|_| is_along_lines(kind) || count >= 100_000);
    if beside.is_some() {
        write_points(file, &input.made_flat);
    }
    let is_taken = |side: &str| {
        !(kind == "random order" && side.starts_with("sorted")
            || count > rust_largest(kind) && side.ends_with("rust"))
    };
    let [mut kept, mut first] = [const { [const { Vec::new() }; 4] }; 2];
    let mut c = Vec::new();
    for _ in 0..turns {
        let start = now();
        for i in (0..4).filter(|&i| is_taken(SIDES[i])) {
            kept[i].push(each(times, || once(SIDES[i], &input)));
            first[i].push(alone("first", SIDES[i], kind, count));
        }
        c.extend(beside.and_then(|program| cgal(program, file, vertices)).map(|[time, _]| time));
        if now() - start > LONG {
            break;
        }
    }
    let [kept, first] = [kept, first].map(|all| all.map(|times| best(&times)));
    Row { kind, count, vertices, skipped, kept, first, cgal: best(&c) }
}

/// One side once, and what ours says of the points in the order in which they came.
pub fn once(side: &str, input: &Bare) -> Option<Run> {
    match side {
        "load_ours" => return Some(black_box(load_ours(input)).1),
        "load_rust" => drop(black_box(load_rust(input))),
        "sorted_ours" => drop(black_box(sorted_ours(&input.made))),
        _ => drop(black_box(rust_of(input.made_flat.iter()))),
    }
    None
}

/// The cells of the sides' times, empty where a side is not taken.
fn cells([a, b, s, t]: [f64; 4]) -> [String; 6] {
    [time_cell(a), time_cell(b), ratio_cell(a, b), time_cell(s), time_cell(t), ratio_cell(s, t)]
}

fn time_cell(time: f64) -> String {
    if time.is_nan() {
        String::new()
    } else {
        ms(time)
    }
}

fn ratio_cell(a: f64, b: f64) -> String {
    if (a / b).is_nan() {
        String::new()
    } else {
        ratio(a, b)
    }
}

pub fn tables(turns: usize, largest: usize, is_named: &dyn Fn(&str) -> bool, beside: Option<&Path>) {
    let cases = kinds().flat_map(|kind| sizes(kind).iter().map(move |&count| (kind, count)));
    let rows: Vec<Row> = cases
        .filter(|&(kind, count)| count <= largest && is_named(kind))
        .map(|(kind, count)| {
            eprintln!("bare points: {kind} {count}");
            measure(kind, count, turns, beside)
        })
        .collect();
    let sides = ["ours", "Rust", "ours / Rust", "with sorting", "Rust's", "ratio"];
    println!("\nFrom bare points, milliseconds, memory kept:\n");
    head(&["points", "number", "vertices", "skipped"].iter().chain(&sides).copied().collect::<Vec<_>>());
    for r in &rows {
        let named: [&dyn Display; 4] = [&r.kind, &r.count, &r.vertices, &r.skipped];
        let times = cells(r.kept);
        line(&named.into_iter().chain(times.iter().map(|c| c as &dyn Display)).collect::<Vec<_>>());
    }
    println!("\nFrom bare points, milliseconds, a process's first call:\n");
    let others = ["CGAL", "with sorting / CGAL"];
    head(&["points", "number"].iter().chain(&sides).chain(&others).copied().collect::<Vec<_>>());
    for r in &rows {
        let named: [&dyn Display; 2] = [&r.kind, &r.count];
        let beside = [time_cell(r.cgal), ratio_cell(r.first[2], r.cgal)];
        let times = cells(r.first).into_iter().chain(beside).collect::<Vec<_>>();
        line(&named.into_iter().chain(times.iter().map(|c| c as &dyn Display)).collect::<Vec<_>>());
    }
}
