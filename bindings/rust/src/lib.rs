//! A mesh of triangles over points on a whole-number grid: points in, triangles, their areas and volumes out.
//!
//! The work is done by libfithmoul.a, whose every function is proved; this crate owns the rows that it works on, so that a call cannot be given wrong
//! ones, and turns its numbers into Rust's types. Every call answers a result or a [`Refusal`]; none panics, whatever it is given. What is left to the
//! program is the floating-point environment: doubles rounded to nearest and subnormal ones kept, as a program starts.
//!
//! ```
//! # fn main() -> Result<(), fithmoul::Refusal> {
//! use fithmoul::{Mesh, Shape};
//!
//! let points = [[0, 0, 7], [4000, 0, 7], [0, 4000, 7], [4000, 4000, 1007], [9000, 1000, 7]];
//! match Mesh::bulk_load(&points)?.shape {
//!     Shape::Mesh(mesh) => {
//!         for [a, b, c] in mesh.triangles() {
//!             println!("{a} {b} {c}");
//!         }
//!         assert_eq!(mesh.triangles().count(), 3);
//!         let above = mesh.volume(7)?; // above the level 7
//!         assert_eq!((above.six_volumes, above.cubic_metres), (52_000_000_000, 9));
//!         assert_eq!(mesh.area_total()?, 52_000_000); // doubled, in square millimetres
//!     }
//!     Shape::Line(line) => println!("no triangle: {} points on one line", line.vertex_count()),
//! }
//! # Ok(())
//! # }
//! ```
//!
//! [`Mesh::ask`] tells what a point would do before [`Mesh::commit`] does it. [`Mesh::run`] takes points into a mesh that is there.
//!
//! Coordinates are whole millimetres from -16,777,216 to 16,777,216, heights and levels from -1,048,576 to 1,048,576; a mesh has at most 1,000,000
//! vertices. Nothing but a volume depends on heights. In a finished mesh every triangle turns left (counterclockwise), no corner of the boundary turns left,
//! and no triangle's circle strictly contains the far vertex of a neighbour.

mod half_edges;
mod line;
mod quote;
mod refusal;
mod rows;
pub mod sys;

use std::cmp::Reverse;
use std::fmt;

pub use line::Line;
pub use quote::Quote;
pub use refusal::Refusal;
use rows::{Rows, Scratch};

/// The greatest coordinate.
pub const RANGE: i32 = 16_777_216;

/// The greatest height, and the greatest level.
pub const HEIGHT_RANGE: i32 = 1_048_576;

/// The most vertices of a mesh.
pub const MOST_VERTICES: usize = 1_000_000;

/// x, y and height.
pub type Point = [i32; 3];

/// What became of a point, or in a quote would become of it. A lone step or a commit skips points that are `NotLeft`, `Unsound` or
/// `AtCenter`. A run puts those in after its convexity passes, so that its answers have `InTriangle`, `OnEdge`, `Outside` or `OnVertex` in
/// their place. The points of a bulk load's seed are `Added` or `OnVertex`, wherever they were put; the others have the fates of a run.
#[derive(Clone, Copy, Debug, PartialEq, Eq)]
pub enum Fate {
    /// 1: a step, or the seed of a bulk load, made it this vertex.
    Added(u32),
    /// 2: it equals an end of the boundary edge at its angle.
    Dropped,
    /// 3: it is not outside the boundary edge at its angle: inside the mesh, or on that edge's line.
    NotLeft,
    /// 4: the boundary that it would leave has no sound ring about the centre.
    Unsound,
    /// 5: it is the centre.
    AtCenter,
    /// 6: it was put into a triangle, as this vertex.
    InTriangle(u32),
    /// 7: it was put on an edge, of the boundary or not, as this vertex.
    OnEdge(u32),
    /// 8: it was put in outside the boundary, as this vertex.
    Outside(u32),
    /// 9: it was put in on this vertex, which has its height now.
    OnVertex(u32),
    /// 0: it is not in: the run was refused before that.
    NotReached,
}

impl Fate {
    /// A fate by its number; the vertex counts where the fate names one.
    pub(crate) fn of(number: u64, vertex: u32) -> Fate {
        match number {
            1 => Fate::Added(vertex),
            2 => Fate::Dropped,
            3 => Fate::NotLeft,
            4 => Fate::Unsound,
            5 => Fate::AtCenter,
            6 => Fate::InTriangle(vertex),
            7 => Fate::OnEdge(vertex),
            8 => Fate::Outside(vertex),
            9 => Fate::OnVertex(vertex),
            _ => Fate::NotReached,
        }
    }

    /// The vertex that the point is, or was put in on. A dropped point names none.
    pub fn vertex(self) -> Option<u32> {
        match self {
            Fate::Added(v) | Fate::InTriangle(v) | Fate::OnEdge(v) | Fate::Outside(v) | Fate::OnVertex(v) => {
                Some(v)
            }
            Fate::Dropped | Fate::NotLeft | Fate::Unsound | Fate::AtCenter | Fate::NotReached => None,
        }
    }
}

/// A point's answer as the library writes it, word by word; [`Answer::fate`], `faces` and `flips` read it.
#[repr(C)]
#[derive(Clone, Copy, Debug, Default, PartialEq, Eq)]
pub struct Answer {
    fate: u64,
    vertex: u64,
    /// The inner faces that its step or its insertion added.
    pub faces: u64,
    /// The flips of its step or its insertion.
    pub flips: u64,
}

impl Answer {
    pub fn fate(&self) -> Fate {
        Fate::of(self.fate, self.vertex as u32)
    }
}

/// A boundary edge, and how many nodes of the ring were passed after the first on the way to it.
#[derive(Clone, Copy, Debug, PartialEq, Eq)]
pub struct Place {
    pub edge: u32,
    pub passed: u32,
}

/// What a finish did.
#[derive(Clone, Copy, Debug, PartialEq, Eq)]
pub struct Totals {
    /// The faces that the convexity passes added.
    pub faces: u32,
    pub convex_flips: u64,
    pub closing_flips: u64,
}

/// A volume between a mesh and a level, positive where the mesh is above.
#[derive(Clone, Copy, Debug, PartialEq, Eq)]
pub struct Volume {
    /// Six times it, in cubic millimetres, exactly: over all triangles, the doubled area times (the three heights minus three times the level).
    pub six_volumes: i128,
    /// The nearest whole number of cubic metres, an exact half to the even one: 2.5 gives 2, 3.5 gives 4, -2.5 gives -2.
    pub cubic_metres: i64,
}

/// What a run or a bulk load did: an answer for each point, and its finish.
#[derive(Clone, Debug, PartialEq, Eq)]
pub struct Run {
    pub answers: Vec<Answer>,
    pub totals: Totals,
}

/// What points alone come to.
#[derive(Clone, Debug, PartialEq, Eq)]
pub enum Shape {
    /// A finished mesh, its change count 0.
    Mesh(Mesh),
    /// They make no triangle.
    Line(Line),
}

impl Shape {
    /// The mesh, where it is one.
    pub fn mesh(&self) -> Option<&Mesh> {
        match self {
            Shape::Mesh(mesh) => Some(mesh),
            Shape::Line(_) => None,
        }
    }

    /// The mesh itself, where it is one.
    pub fn into_mesh(self) -> Option<Mesh> {
        match self {
            Shape::Mesh(mesh) => Some(mesh),
            Shape::Line(_) => None,
        }
    }
}

/// What [`Mesh::bulk_load`] made.
#[derive(Clone, Debug, PartialEq, Eq)]
pub struct Loaded {
    pub shape: Shape,
    /// For each point its vertex, in the order in which they were given. Every point has one; points at one place have the same.
    pub vertices: Vec<u32>,
    /// For each point its answer, in the order in which they were given.
    pub run: Run,
}

/// A mesh with its rows. Vertices, edges, half-edges and faces are numbers; half-edges 2u and 2u + 1 are each other's reverse; face 0 is the outer one.
///
/// It has a change count too, by which a commit knows whether its quote is of the mesh as it stands. That starts at 0, and again with each
/// run, also one that is refused as [`Refusal::Pending`]; a commit that adds a vertex or is refused so raises it by one. Nothing else
/// changes it. Two meshes are equal whose positions, heights and links are: out edges, half-edges, stored edges. Their change counts may
/// differ.
#[derive(Clone, PartialEq, Eq)]
pub struct Mesh {
    rows: Rows,
}

impl Mesh {
    /// One triangle, which turns left.
    pub fn triangle(corners: [Point; 3]) -> Result<Mesh, Refusal> {
        let halves = [[2, 4, 1, 0], [5, 3, 0, 1], [4, 0, 1, 1], [1, 5, 0, 2], [0, 2, 1, 2], [3, 1, 0, 0]];
        Mesh::from_rows(&corners, &[0, 2, 4], &halves, &[1, 0])
    }

    /// A mesh of given vertices and links: an out edge of each vertex; next, prev, face and origin of each half-edge; a half-edge of each face.
    pub fn from_rows(
        points: &[Point],
        outs: &[u32],
        halves: &[[u32; 4]],
        adjacent: &[u32],
    ) -> Result<Mesh, Refusal> {
        let mesh = Mesh { rows: Rows::new(points, outs, halves, adjacent)? };
        mesh.check()?;
        Ok(mesh)
    }

    /// A list of points, in any order and with repeats, to a finished mesh with all of them in it; or to a line where they make no
    /// triangle.
    ///
    /// It is [`Mesh::bulk_load_in_order`] of the points as [`by_distance`] sorts them, so that hardly any is skipped; that is how spade's
    /// `bulk_load` takes them. The answers are put back into the order in which the points were given. Points at one place have one
    /// vertex, with the height of the last of them that is not [`Fate::Dropped`].
    ///
    /// Refusals name points as they were given: the first that is out of range, the one at which the pending list was full.
    pub fn bulk_load(points: &[Point]) -> Result<Loaded, Refusal> {
        let order = by_distance(points);
        let (shape, taken) = Mesh::bulk_load_of(order.iter().map(|&i| points[i]))
            .map_err(|refusal| as_given(refusal, points, &order))?;
        let mut run = Run { answers: vec![Answer::default(); points.len()], totals: taken.totals };
        let (mut vertices, mut last) = (vec![0; points.len()], 0);
        for (answer, &i) in taken.answers.into_iter().zip(&order) {
            // a dropped point names no vertex: it is at the place of the one before it
            last = answer.fate().vertex().unwrap_or(last);
            (run.answers[i], vertices[i]) = (answer, last);
        }
        Ok(Loaded { shape, vertices, run })
    }

    /// The same of the points as they come, and an answer for each: nothing is sorted. They go in one after the other, each where it lies,
    /// until a sweep can start in the mesh that they make, about the middle of the last three vertices; the others are a run. Where the
    /// list ends before that, the mesh is finished, or is the line.
    ///
    /// The mesh is as good in any order. But a sweep grows outwards, as in [`Mesh::run`]: a point that comes after others farther from the
    /// centre is mostly skipped, which takes a search through the mesh. While all points are on one line each is compared with those
    /// before it.
    ///
    /// A point on a vertex gives it its height, those of the seed at once and skipped ones after all steps; a dropped one does not.
    pub fn bulk_load_in_order(points: &[Point]) -> Result<(Shape, Run), Refusal> {
        Mesh::bulk_load_of(points.iter().copied())
    }

    fn bulk_load_of(points: impl ExactSizeIterator<Item = Point>) -> Result<(Shape, Run), Refusal> {
        let mut rows = Rows::default();
        let room = rows.reserve(points.len());
        let mut answers = rows::zeros(points.len());
        let result = rows.bulk_load(&mut Scratch::new(room), &mut answers, points);
        refusal::of(result.refusal, result.place)?;
        let shape = match result.line {
            0 => Shape::Mesh(Mesh { rows }),
            _ => Shape::Line(Line { rows }),
        };
        let sys::BulkLoadResult { faces_added: faces, convex_flips, closing_flips, .. } = result;
        Ok((shape, Run { answers, totals: Totals { faces, convex_flips, closing_flips } }))
    }

    /// Whether the mesh is one that every call takes. A mesh that a call of this crate left always is.
    pub fn check(&self) -> Result<(), Refusal> {
        let result = self.rows.check();
        refusal::of(result.refusal, result.place)
    }

    /// The boundary edge at an angle, from 0.0 to 1.0, about a centre.
    pub fn locate(&self, center: [f64; 2], angle: f64) -> Result<Place, Refusal> {
        let result = self.rows.locate(&mut Scratch::new(self.vertex_count()), center, angle);
        refusal::of(result.refusal, result.place)?;
        Ok(Place { edge: result.edge, passed: result.passed })
    }

    /// One point of a sweep about a centre. The whole mesh is checked each time: for a list use [`Mesh::run`].
    ///
    /// After [`Refusal::Pending`] the mesh is good, and may have grown.
    pub fn step(&mut self, center: [f64; 2], point: Point) -> Result<Answer, Refusal> {
        let room = self.rows.reserve(1);
        let result = self.rows.step(&mut Scratch::new(room), center, point);
        refusal::of(result.refusal, result.place)?;
        Ok(result.answer)
    }

    /// Makes the boundary convex and every edge Delaunay.
    ///
    /// After [`Refusal::Pending`] the mesh is good, and may have grown.
    pub fn finish(&mut self) -> Result<Totals, Refusal> {
        let result = self.rows.finish(&mut Scratch::new(self.vertex_count()));
        refusal::of(result.refusal, result.place)?;
        let sys::FinishResult { faces_added: faces, convex_flips, closing_flips, .. } = result;
        Ok(Totals { faces, convex_flips, closing_flips })
    }

    /// A step for each point in list order, about a centre inside the mesh; then the convexity passes, the points that the steps skipped,
    /// in list order, and the rest of the finish. All points are in the mesh then: as a vertex of their own, or at the position of
    /// another one. The sweep grows outwards, and a point that comes after others farther from the centre is mostly skipped, which takes
    /// a search through the mesh: sort them ([`by_distance`]).
    ///
    /// A skipped point on a vertex gives it its height, in list order; a dropped one does not.
    ///
    /// After [`Refusal::Pending`] the mesh is good, and may have grown; it has the points that had their turn before the named one, the
    /// skipped ones after all steps.
    pub fn run(&mut self, center: [f64; 2], points: &[Point]) -> Result<Run, Refusal> {
        let room = self.rows.reserve(points.len());
        let mut answers = rows::zeros(points.len());
        let result = self.rows.run(&mut Scratch::new(room), &mut answers, center, points);
        refusal::of(result.refusal, result.place)?;
        let sys::RunResult { faces_added: faces, convex_flips, closing_flips, .. } = result;
        Ok(Run { answers, totals: Totals { faces, convex_flips, closing_flips } })
    }

    /// What a point would do in a step about a centre. The mesh stays as it is.
    ///
    /// Whether the pending list is long enough shows only when the point is committed.
    pub fn ask(&self, center: [f64; 2], point: Point) -> Result<Quote, Refusal> {
        let result = self.rows.ask(&mut Scratch::new(self.vertex_count() + 1), center, point);
        refusal::of(result.refusal, result.place)?;
        Ok(Quote { numbers: result.quote, center, vertices: self.rows.counts.vertices })
    }

    /// The step of the point that was asked about, about the same centre, where its quote still holds; otherwise [`Refusal::Quote`]. The
    /// quote is used up either way.
    ///
    /// After [`Refusal::Pending`] the mesh is good, and may have grown.
    pub fn commit(&mut self, quote: Quote) -> Result<Answer, Refusal> {
        let room = self.rows.reserve(1);
        let result = self.rows.commit(&mut Scratch::new(room), quote.center, quote.numbers);
        refusal::of(result.refusal, result.place)?;
        Ok(result.answer)
    }

    /// The volume between the mesh and a level.
    pub fn volume(&self, level: i32) -> Result<Volume, Refusal> {
        let result = self.rows.volume(level);
        refusal::of(result.refusal, result.place)?;
        let six_volumes = int128(result.six_volumes_high, result.six_volumes_low);
        Ok(Volume { six_volumes, cubic_metres: result.cubic_metres })
    }

    /// The doubled areas of all triangles in total, in square millimetres. Where triangles overlap each counts.
    pub fn area_total(&self) -> Result<i128, Refusal> {
        let result = self.rows.area_total();
        refusal::of(result.refusal, result.place)?;
        Ok(int128(result.area_total_high, result.area_total_low))
    }

    /// A triangle's doubled area, in square millimetres. The outer face, 0, has none, nor has a face that does not exist.
    pub fn doubled_area(&self, face: u32) -> Option<i64> {
        let &a = self.adjacent().get(face as usize).filter(|_| face != 0)?;
        let [p1, p2, q] = self.corners(a).map(|v| self.positions()[v as usize]);
        side_query(p1, p2, q).ok()
    }

    pub fn vertex_count(&self) -> usize {
        self.rows.counts.vertices as usize
    }

    /// Undirected edges.
    pub fn edge_count(&self) -> usize {
        self.rows.counts.edges as usize
    }

    /// Faces, the outer one counted.
    pub fn face_count(&self) -> usize {
        self.rows.counts.faces as usize
    }

    /// The change count.
    pub fn change_count(&self) -> u32 {
        self.rows.counts.changes
    }

    /// The same mesh with another change count, for one that was stored with its count: [`Mesh::from_rows`] starts at 0.
    pub fn with_change_count(mut self, changes: u32) -> Mesh {
        self.rows.counts.changes = changes;
        self
    }

    pub fn positions(&self) -> &[[i32; 2]] {
        self.rows.positions()
    }

    /// The height of each vertex.
    pub fn heights(&self) -> &[i32] {
        self.rows.heights()
    }

    /// An out edge of each vertex.
    pub fn outs(&self) -> &[u32] {
        self.rows.outs()
    }

    /// Next, prev, face and origin of each half-edge.
    pub fn halves(&self) -> &[[u32; 4]] {
        self.rows.halves()
    }

    /// A half-edge of each face.
    pub fn adjacent(&self) -> &[u32] {
        self.rows.adjacent()
    }

    /// The vertices of each triangle, counterclockwise, by rising face.
    pub fn triangles(&self) -> impl Iterator<Item = [u32; 3]> + '_ {
        self.adjacent().iter().skip(1).map(|&a| self.corners(a))
    }

    /// The vertices of the triangle of a half-edge, from where it starts.
    fn corners(&self, a: u32) -> [u32; 3] {
        let halves = self.halves();
        let [b, _, _, u] = halves[a as usize];
        let [c, _, _, v] = halves[b as usize];
        [u, v, halves[c as usize][3]]
    }

    /// The boundary's vertices, clockwise.
    pub fn boundary(&self) -> Vec<u32> {
        let halves = self.halves();
        let start = self.adjacent()[0];
        let mut around = vec![halves[start as usize][3]];
        let mut e = halves[start as usize][0];
        while e != start {
            around.push(halves[e as usize][3]);
            e = halves[e as usize][0];
        }
        around
    }
}

impl fmt::Debug for Mesh {
    fn fmt(&self, f: &mut fmt::Formatter<'_>) -> fmt::Result {
        write!(
            f,
            "Mesh({} vertices, {} edges, {} faces)",
            self.vertex_count(),
            self.edge_count(),
            self.face_count()
        )
    }
}

/// A number of 128 bits by its halves.
fn int128(high: u64, low: u64) -> i128 {
    (u128::from(high) << 64 | u128::from(low)) as i128
}

/// Twice the signed area of the triangle p1 p2 q, in square millimetres: positive where q is left of the line from p1 to p2, 0 where it is on it.
pub fn side_query(p1: [i32; 2], p2: [i32; 2], q: [i32; 2]) -> Result<i64, Refusal> {
    let result = rows::side_query(p1, p2, q);
    refusal::of(result.refusal, result.place)?;
    Ok(result.doubled_area)
}

/// x and y.
fn at([x, y, _]: Point) -> [i32; 2] {
    [x, y]
}

/// A refusal of the points in this order, as one of the points as they were given.
fn as_given(refusal: Refusal, points: &[Point], order: &[usize]) -> Refusal {
    match refusal {
        // as they were given they are refused for the same reason, at their own first place
        Refusal::Coordinate { .. } => Mesh::bulk_load_in_order(points).err().unwrap_or(refusal),
        Refusal::Pending { point } => {
            Refusal::Pending { point: order.get(point as usize).map_or(point, |&i| i as u32) }
        }
        _ => refusal,
    }
}

/// The points' indices by their distance from their average, nearest first; of equal ones that with the greater x, then y, as the Rust has them. Points at
/// one place stay in their order.
pub fn by_distance(points: &[Point]) -> Vec<usize> {
    let mut sum = [0.0f64; 2];
    for p in points {
        sum = [sum[0] + f64::from(p[0]), sum[1] + f64::from(p[1])];
    }
    let [x, y] = sum.map(|s| s * (1.0 / points.len() as f64));
    let distance = |p: &Point| {
        let [dx, dy] = [f64::from(p[0]) - x, f64::from(p[1]) - y];
        // not negative, so its bits rise with it
        (dx * dx + dy * dy).to_bits()
    };
    let mut order: Vec<(u64, usize)> = points.iter().map(distance).zip(0..).collect();
    let among_equals = |i: usize| (Reverse(at(points[i])), i);
    order.sort_unstable_by(|a, b| a.0.cmp(&b.0).then_with(|| among_equals(a.1).cmp(&among_equals(b.1))));
    order.into_iter().map(|(_, i)| i).collect()
}

/// The middle of a triangle: a centre for a run from it, unless the triangle has hardly any width.
pub fn middle(corners: [Point; 3]) -> [f64; 2] {
    [0, 1].map(|k| corners.iter().map(|p| f64::from(p[k])).sum::<f64>() / 3.0)
}
