//! Drives `bulk_load` from bare points, in list order and as it is.
//!
//! In list order: the function's own body without its sort, each of its functions as it stands: `insert` until
//! `try_get_hull_center` and `Hull::from_triangulation` succeed, then the steps, the pass and the insertions as
//! in the driver. `insert` has no hint, so that it asks the hint generator, whose stand-in names vertex 0.
//!
//! As it is: the points go to the function in any order, and it answers a mesh.

use super::{bulk_load, bulk_load_distance_fn, hull_sanity_check, try_get_hull_center, Hull};
use crate::bare::{Bare, BareAnswer, Start};
use crate::budget;
use crate::case::{reason, Answer, Ending};
use crate::delaunay_core::FixedVertexHandle;
use crate::driver::{
    boundary_angles, guarded, is_strict, outside, point, rows, swept, Outcome, Sweep, Swept,
};
use crate::mesh::{Mesh, Position, RANGE};
use crate::{Point2, Triangulation};

/// The number of the refusal that bare points get: rows 1 and 3 of 01 as Change 6 has them.
fn refusal(points: &[Position]) -> Option<u32> {
    let outside = |p: &Position| p.iter().any(|c| !(-RANGE..=RANGE).contains(c));
    if points.len() > 1_000_000 {
        return Some(1);
    }
    points.iter().any(outside).then_some(3)
}

/// One point of the growing seed: fate, vertex, faces, flips.
fn insert(mesh: &mut Swept, position: Position) -> Outcome<[u32; 4]> {
    let [vertices, faces, flips] = [mesh.num_vertices() as u64, mesh.num_all_faces() as u64, budget::flips()];
    let [panics, runs_on] = [reason::GROWING_FAILS; 2];
    let vertex = guarded(panics, runs_on, || mesh.insert(point(position)).expect("a valid point"))?;
    let fate = if mesh.num_vertices() as u64 == vertices { 9 } else { 1 };
    let faces = mesh.num_all_faces() as u64 - faces;
    Ok([fate, vertex.index() as u32, faces as u32, (budget::flips() - flips) as u32])
}

/// The hull with which the sweep starts.
fn first_hull(mesh: &Swept) -> Outcome<Option<Hull>> {
    let Some(first) = mesh.num_vertices().checked_sub(3) else { return Ok(None) };
    let last = [first, first + 1, first + 2].map(FixedVertexHandle::new);
    let hull = guarded(reason::GROWING_FAILS, reason::GROWING_FAILS, || {
        let center = try_get_hull_center(mesh, last)?;
        let hull = Hull::from_triangulation(mesh, center)?;
        hull_sanity_check(mesh, &hull);
        Some(hull)
    })?;
    match &hull {
        Some(hull) if !is_strict(&boundary_angles(mesh, hull.center)) => Err(reason::NOT_STRICT),
        _ => Ok(hull),
    }
}

/// The Rust's answer to a list, in list order.
pub fn answer(list: &Bare) -> BareAnswer {
    let (mut start, mut fates) = (None, Vec::new());
    let ending = ending(&list.points, &mut start, &mut fates).unwrap_or_else(|ending| ending);
    BareAnswer { start, answer: Answer { number: list.number, fates, ending } }
}

fn ending(
    points: &[Position],
    start: &mut Option<Start>,
    fates: &mut Vec<[u32; 4]>,
) -> Result<Ending, Ending> {
    if let Some(number) = refusal(points) {
        return Err(outside(number as usize)(reason::REFUSED));
    }
    let mut mesh = Swept::default();
    for (index, &position) in points.iter().enumerate() {
        let fate = insert(&mut mesh, position).map_err(outside(index))?;
        fates.push(fate);
        let Some(hull) = first_hull(&mesh).map_err(outside(index))? else { continue };
        let centre = [hull.center.x, hull.center.y].map(f64::to_bits);
        *start = Some(Start { taken: index as u32 + 1, centre });
        if fates.len() == points.len() {
            break;
        }
        return swept(points, Sweep::from_hull(mesh, hull), fates);
    }
    Ok(Ending::Grown(rows(&mesh)))
}

/// The mesh that `bulk_load` itself makes of the points.
pub fn loaded(list: &Bare) -> Outcome<Mesh> {
    let elements: Vec<_> = list.points.iter().map(|&p| point(p)).collect();
    guarded(reason::STEP_PANICS, reason::STEP_RUNS_ON, || {
        bulk_load::<_, Swept>(elements).expect("valid points")
    })
    .map(|mesh| rows(&mesh))
}

/// The points in the order in which `bulk_load` takes them: by `bulk_load_distance_fn`, the last first. Equal
/// points alone have equal keys.
pub fn as_taken(points: &[Position]) -> Vec<Position> {
    // The sum is one of whole numbers, and exact: the order in which they are added does not matter.
    let sum = points.iter().fold(Point2::new(0.0, 0.0), |sum: Point2<f64>, &p| sum.add(point(p)));
    let center = sum.mul(1.0 / points.len() as f64);
    let mut taken = points.to_vec();
    taken.sort_by_key(|&p| bulk_load_distance_fn(center, point(p)));
    taken.reverse();
    taken
}
