//! Drives the sweep of bulk_load.rs from any seed mesh: every point in list order through
//! `single_bulk_insertion_step`, then `fix_convexity` once, then the skipped points in list order
//! through `insert_with_hint_option_impl`, each with the hint at vertex 0.
//!
//! The functions of the Rust run as they are. Around them stand the tests of the domain: 01's
//! refusals of the seed, a point at the centre before its step, a sound ring after a step, a further
//! pass before the insertions.

use std::any::Any;
use std::panic::{catch_unwind, AssertUnwindSafe};

use super::{fix_convexity, pseudo_angle, single_bulk_insertion_step, Hull};
use crate::budget;
use crate::case::{reason, Answer, Case, Ending, Insertions};
use crate::delaunay_core::dcel::{EdgeEntry, FaceEntry, HalfEdgeEntry, VertexEntry};
use crate::delaunay_core::triangulation_ext::VertexToInsert;
use crate::delaunay_core::{
    Dcel, FixedDirectedEdgeHandle, FixedFaceHandle, FixedUndirectedEdgeHandle, FixedVertexHandle,
};
use crate::mesh::{Mesh, Position, RANGE};
use crate::{DelaunayTriangulation, Point2, PositionInTriangulation, Triangulation, TriangulationExt};

pub type Swept = DelaunayTriangulation<Point2<f64>>;

/// Accesses to the mesh that one call of the Rust may make.
const BUDGET: u64 = 50_000_000;

fn edge(number: u32) -> FixedDirectedEdgeHandle {
    FixedDirectedEdgeHandle::new(number as usize)
}

fn half_edge(&[next, prev, face, origin]: &[u32; 4]) -> HalfEdgeEntry {
    HalfEdgeEntry {
        next: edge(next),
        prev: edge(prev),
        face: FixedFaceHandle::new(face as usize),
        origin: FixedVertexHandle::new(origin as usize),
    }
}

pub fn point([x, y]: Position) -> Point2<f64> {
    Point2::new(f64::from(x), f64::from(y))
}

/// The rows as the Rust's mesh, link by link.
pub fn built(mesh: &Mesh) -> Swept {
    let vertices = mesh.positions.iter().zip(&mesh.out_edges);
    let vertices =
        vertices.map(|(&position, &out)| VertexEntry { data: point(position), out_edge: Some(edge(out)) });
    let edges = mesh.half_edges.chunks(2).map(|halves| EdgeEntry {
        entries: [half_edge(&halves[0]), half_edge(&halves[1])],
        directed_data: [(), ()],
        undirected_data: (),
    });
    let faces = mesh.faces.iter();
    let dcel = Dcel {
        vertices: vertices.collect(),
        edges: edges.collect(),
        faces: faces.map(|&e| FaceEntry { adjacent_edge: Some(edge(e)), data: () }).collect(),
    };
    Swept::from_parts(dcel, Default::default(), 0)
}

/// The Rust's mesh as rows, link by link. A vertex alone, and the outer face beside it, have no edge in the
/// Rust, and 0 in Change 6; where there is no vertex there is no face either.
pub fn rows(swept: &Swept) -> Mesh {
    let dcel = swept.s();
    let alone = dcel.edges.is_empty();
    let number = |e: Option<FixedDirectedEdgeHandle>| if alone { 0 } else { e.unwrap().index() as u32 };
    if dcel.vertices.is_empty() {
        return Mesh::default();
    }
    let half = |h: &HalfEdgeEntry| {
        [h.next.index(), h.prev.index(), h.face.index(), h.origin.index()].map(|n| n as u32)
    };
    Mesh {
        positions: dcel.vertices.iter().map(|v| [v.data.x as i32, v.data.y as i32]).collect(),
        out_edges: dcel.vertices.iter().map(|v| number(v.out_edge)).collect(),
        half_edges: dcel.edges.iter().flat_map(|e| e.entries.iter().map(half)).collect(),
        faces: dcel.faces.iter().map(|f| number(f.adjacent_edge)).collect(),
    }
}

/// The Rust's angle of a position.
pub fn angle(position: Position, centre: Point2<f64>) -> f64 {
    pseudo_angle(point(position), centre).0
}

/// The angles of the boundary's vertices, along next from face 0's stored edge.
pub fn boundary_angles(swept: &Swept, centre: Point2<f64>) -> Vec<f64> {
    swept.convex_hull().map(|e| pseudo_angle(e.from().position(), centre).0).collect()
}

/// 01: at least three angles remain when equal neighbours count as one, all differ, exactly one is
/// followed by a smaller one, and each gap is at most 3/4. All differ when one alone descends.
pub fn is_sound(angles: &[f64]) -> bool {
    let after = |i: usize| angles[(i + 1) % angles.len()];
    let kept: Vec<f64> = (0..angles.len()).filter(|&i| angles[i] != after(i)).map(|i| angles[i]).collect();
    let pairs = || (0..kept.len()).map(|i| (kept[i], kept[(i + 1) % kept.len()]));
    let gap = |(a, b): (f64, f64)| if b < a { b - a + 1.0 } else { b - a };
    kept.len() >= 3 && pairs().filter(|(a, b)| b < a).count() == 1 && pairs().all(|pair| gap(pair) <= 0.75)
}

pub fn is_strict(angles: &[f64]) -> bool {
    is_sound(angles) && (0..angles.len()).all(|i| angles[i] != angles[(i + 1) % angles.len()])
}

/// The number of the refusal that a run with this input gets: rows 1, 3, 4, 5, 6, 7 of 01.
pub fn refusal(case: &Case) -> Option<u32> {
    if let Some(number) = case.seed.refusal(&case.points) {
        return Some(number);
    }
    let [x, y] = case.centre;
    let in_range = |c: f64| c.abs() <= f64::from(RANGE);
    let swept = built(&case.seed);
    let centre = Point2::new(x, y);
    if !in_range(x) || !in_range(y) || swept.convex_hull().any(|e| e.from().position() == centre) {
        return Some(6);
    }
    (!is_strict(&boundary_angles(&swept, centre))).then_some(7)
}

/// The text of the panic by which the Rust ends a search that goes round.
const LOST: &str = "Failed to locate position. This is a bug in spade.";

/// Where the Rust is stopped.
#[derive(Clone, Copy, Debug, Default, PartialEq, Eq)]
pub enum Watch {
    /// At the end of the domain.
    #[default]
    Domain,
    /// There too, but a point at the centre is skipped, as in 01, and goes in with the other skipped ones:
    /// M4's listing has such a point.
    Centre,
    /// Nowhere: it does as it does, with fates 4 and 5 and with a boundary that is not convex.
    Nowhere,
}

/// A sweep under way.
pub struct Sweep {
    pub swept: Swept,
    hull: Hull,
    centre: Point2<f64>,
    buffer: Vec<FixedUndirectedEdgeHandle>,
    pub watch: Watch,
    /// The vertex where a search starts.
    pub hint: usize,
    /// What `steps_alone` has skipped.
    skipped: Vec<VertexToInsert<Point2<f64>>>,
}

/// What a call of the Rust came to: its answer, or the reason why the case is outside the domain.
pub type Outcome<T> = Result<T, u32>;

fn text_of(payload: &Box<dyn Any + Send>) -> &str {
    let text = payload.downcast_ref::<String>().map(String::as_str);
    text.or(payload.downcast_ref::<&str>().copied()).unwrap_or_default()
}

/// Runs a part of the Rust within the budget.
pub fn guarded<T>(panics: u32, runs_on: u32, part: impl FnOnce() -> T) -> Outcome<T> {
    let before = budget::other_flips();
    budget::set(BUDGET);
    let result = catch_unwind(AssertUnwindSafe(part));
    budget::set(u64::MAX);
    match result {
        Ok(_) if budget::other_flips() != before => Err(reason::OTHER_FLIP),
        Ok(value) => Ok(value),
        Err(payload) => Err(match text_of(&payload) {
            budget::SPENT => runs_on,
            LOST => reason::SEARCH_PANICS,
            _ => panics,
        }),
    }
}

impl Sweep {
    pub fn new(seed: &Mesh, [x, y]: [f64; 2]) -> Outcome<Sweep> {
        let swept = built(seed);
        let centre = Point2::new(x, y);
        let hull = catch_unwind(AssertUnwindSafe(|| Hull::from_triangulation(&swept, centre)));
        match hull {
            Ok(Some(hull)) => Ok(Sweep::from_hull(swept, hull)),
            _ => Err(reason::NO_HULL),
        }
    }

    /// From a mesh and its hull, whose centre is the sweep's.
    pub fn from_hull(swept: Swept, hull: Hull) -> Sweep {
        let (centre, buffer, skipped) = (hull.center, Vec::new(), Vec::new());
        Sweep { swept, hull, centre, buffer, watch: Watch::Domain, hint: 0, skipped }
    }

    /// One step: fate, vertex, faces, flips.
    pub fn step(&mut self, position: Position) -> Outcome<[u32; 4]> {
        if point(position) == self.centre {
            match self.watch {
                Watch::Domain => return Err(reason::AT_CENTRE),
                Watch::Centre => return Ok([5, 0, 0, 0]),
                Watch::Nowhere => {}
            }
        }
        let [vertices, faces] = [self.swept.num_vertices(), self.swept.num_all_faces()];
        let flips = budget::flips();
        let vertex = VertexToInsert::NewVertex(point(position));
        let skipped = guarded(reason::STEP_PANICS, reason::STEP_RUNS_ON, || {
            let Sweep { swept, hull, buffer, .. } = self;
            single_bulk_insertion_step(swept, false, hull, vertex, buffer)
        })?;
        if self.swept.num_vertices() == vertices {
            return Ok([if skipped.is_some() { 3 } else { 2 }, 0, 0, 0]);
        }
        if self.watch != Watch::Nowhere && !is_sound(&boundary_angles(&self.swept, self.centre)) {
            return Err(reason::UNSOUND);
        }
        let faces = self.swept.num_all_faces() - faces;
        let flips = budget::flips() - flips;
        Ok([1, vertices as u32, faces as u32, flips as u32])
    }

    /// The first pass of `fix_convexity`: faces, flips.
    pub fn pass(&mut self) -> Outcome<[u32; 2]> {
        let [faces, flips] = [self.swept.num_all_faces() as u64, budget::flips()];
        guarded(reason::PASS_FAILS, reason::PASS_FAILS, || fix_convexity(&mut self.swept))?;
        let faces = self.swept.num_all_faces() as u64 - faces;
        Ok([faces, budget::flips() - flips].map(|n| n as u32))
    }

    /// Whether a further pass would add a face, tried on a copy.
    pub fn passes_on(&self) -> Outcome<bool> {
        let mut copy = self.swept.clone();
        let faces = copy.num_all_faces();
        guarded(reason::PASS_FAILS, reason::PASS_FAILS, || fix_convexity(&mut copy))?;
        Ok(copy.num_all_faces() != faces)
    }

    /// One insertion: fate, vertex, faces, flips. The fate is where the Rust's own search, asked before,
    /// has the point; the insertion asks it again with the same hint.
    pub fn insert(&mut self, position: Position) -> Outcome<[u32; 4]> {
        let [panics, runs_on] = [reason::INSERTION_FAILS; 2];
        let hint = Some(FixedVertexHandle::new(self.hint));
        let place =
            guarded(panics, runs_on, || self.swept.locate_with_hint_option_core(point(position), hint))?;
        let [faces, flips] = [self.swept.num_all_faces() as u64, budget::flips()];
        let vertex = VertexToInsert::NewVertex(point(position));
        let vertex = guarded(panics, runs_on, || self.swept.insert_with_hint_option_impl(vertex, hint))?;
        let fate = match place {
            PositionInTriangulation::OnFace(_) => 6,
            PositionInTriangulation::OnEdge(_) => 7,
            PositionInTriangulation::OutsideOfConvexHull(_) => 8,
            PositionInTriangulation::OnVertex(_) => 9,
            PositionInTriangulation::NoTriangulation => return Err(reason::INSERTION_FAILS),
        };
        let faces = self.swept.num_all_faces() as u64 - faces;
        Ok([fate, vertex.index() as u32, faces as u32, (budget::flips() - flips) as u32])
    }

    /// Room for a mesh of so many vertices, as `bulk_load` makes it.
    pub fn reserve(&mut self, vertices: usize) {
        let dcel = self.swept.s_mut();
        dcel.vertices.reserve(vertices);
        dcel.edges.reserve(3 * vertices);
        dcel.faces.reserve(2 * vertices);
    }

    /// Every step, with nothing around the Rust's own function: what a benchmark times. The skipped points are
    /// kept as `bulk_load` keeps them; their number.
    pub fn steps_alone(&mut self, points: &[Position]) -> usize {
        for &position in points {
            let vertex = VertexToInsert::NewVertex(point(position));
            let Sweep { swept, hull, buffer, .. } = self;
            self.skipped.extend(single_bulk_insertion_step(swept, false, hull, vertex, buffer));
        }
        self.skipped.len()
    }

    /// `fix_convexity` once, likewise.
    pub fn pass_alone(&mut self) {
        fix_convexity(&mut self.swept);
    }

    /// The insertions of what `steps_alone` has skipped, likewise.
    pub fn insertions_alone(&mut self) {
        let hint = Some(FixedVertexHandle::new(self.hint));
        for vertex in std::mem::take(&mut self.skipped) {
            self.swept.insert_with_hint_option_impl(vertex, hint);
        }
    }

    pub fn rows(&self) -> Mesh {
        rows(&self.swept)
    }
}

/// The Rust's answer to a case; beyond the domain too, where it is not watched.
pub fn answer(case: &Case, watch: Watch) -> Answer {
    answer_from(case, watch, 0)
}

/// The same with every search from the vertex `hint`.
pub fn answer_from(case: &Case, watch: Watch, hint: usize) -> Answer {
    let mut fates = Vec::new();
    let ending = ending(case, watch, hint, &mut fates).unwrap_or_else(|ending| ending);
    Answer { number: case.number, fates, ending }
}

pub fn outside(index: usize) -> impl FnOnce(u32) -> Ending {
    move |reason| Ending::Outside { reason, index: index as u32 }
}

fn ending(case: &Case, watch: Watch, hint: usize, fates: &mut Vec<[u32; 4]>) -> Result<Ending, Ending> {
    let watched = watch != Watch::Nowhere;
    let refused = if watched { refusal(case) } else { case.seed.refusal(&case.points) };
    if let Some(number) = refused {
        return Err(outside(number as usize)(reason::REFUSED));
    }
    let mut sweep = Sweep::new(&case.seed, case.centre).map_err(outside(0))?;
    (sweep.watch, sweep.hint) = (watch, hint);
    swept(&case.points, sweep, fates)
}

/// The points from the first on that has no fate yet: their steps, the pass, the insertions.
pub fn swept(points: &[Position], mut sweep: Sweep, fates: &mut Vec<[u32; 4]>) -> Result<Ending, Ending> {
    for (index, &position) in points.iter().enumerate().skip(fates.len()) {
        fates.push(sweep.step(position).map_err(outside(index))?);
    }
    let stepped = sweep.rows();
    let pass = sweep.pass().map_err(outside(points.len()))?;
    let passed = sweep.rows();
    let inserted = insertions(points, sweep, fates.clone())?;
    Ok(Ending::Inside { stepped, pass, passed, inserted })
}

/// The skipped points, in list order, into the mesh that the pass has left.
fn insertions(points: &[Position], mut sweep: Sweep, mut fates: Vec<[u32; 4]>) -> Result<Insertions, Ending> {
    if sweep.watch != Watch::Nowhere && sweep.passes_on().map_err(outside(points.len()))? {
        return Ok(Insertions::AfterPasses);
    }
    for (index, &position) in points.iter().enumerate() {
        if !(3..=5).contains(&fates[index][0]) {
            continue;
        }
        match sweep.insert(position) {
            Ok(fate) => fates[index] = fate,
            Err(reason::SEARCH_PANICS) => return Ok(Insertions::SearchPanics),
            Err(reason) => return Err(outside(index)(reason)),
        }
    }
    Ok(Insertions::Made { fates, mesh: sweep.rows() })
}
