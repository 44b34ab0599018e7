//! Stand-in for spade's handle_impls.rs: what a handle answers.
//!
//! 01: half-edges 2u and 2u+1 are each other's reverse; a far vertex is the origin of prev, and a
//! half-edge of the outer face has none; `out_edges` starts at the stored out edge, and each further
//! one is the reverse of prev.

use core::fmt;
use core::panic::Location;

use super::super::line_side_info::LineSideInfo;
use super::super::{math, Dcel};
use super::handle_defs::{DynamicHandleImpl, FixedHandleImpl};
use super::iterators::OutEdgeIterator;
use super::public_handles::*;
use crate::budget;
use crate::cdt::CdtEdge;
use crate::{HasPosition, Point2};
use num_traits::Float;

impl FixedDirectedEdgeHandle {
    pub fn new_normalized(index: usize) -> Self {
        Self::new(2 * index)
    }

    pub fn is_normalized(self) -> bool {
        self.index() % 2 == 0
    }

    pub fn normalize_index(self) -> usize {
        self.index() % 2
    }

    pub fn rev(self) -> Self {
        Self::new(self.index() ^ 1)
    }

    pub fn as_undirected(self) -> FixedUndirectedEdgeHandle {
        FixedUndirectedEdgeHandle::new(self.index() / 2)
    }
}

impl FixedUndirectedEdgeHandle {
    /// `flip_cw` calls this once, and it alone of dcel_operations.rs in a sweep: so flips are counted.
    #[track_caller]
    pub fn as_directed(self) -> FixedDirectedEdgeHandle {
        if cfg!(feature = "budget") && Location::caller().file().ends_with("dcel_operations.rs") {
            budget::flip();
        }
        self.normalized()
    }

    pub fn normalized(self) -> FixedDirectedEdgeHandle {
        FixedDirectedEdgeHandle::new_normalized(self.index())
    }

    pub fn not_normalized(self) -> FixedDirectedEdgeHandle {
        self.normalized().rev()
    }
}

impl FixedFaceHandle<PossiblyOuterTag> {
    pub fn is_outer(self) -> bool {
        self.index() == 0
    }

    pub fn as_inner(self) -> Option<FixedFaceHandle<InnerTag>> {
        (!self.is_outer()).then(|| self.adjust_inner_outer())
    }
}

impl<V, DE, UE, F, Type: Copy, IO: InnerOuterMarker> Clone for DynamicHandleImpl<'_, V, DE, UE, F, Type, IO> {
    fn clone(&self) -> Self {
        *self
    }
}

impl<V, DE, UE, F, Type: Copy, IO: InnerOuterMarker> Copy for DynamicHandleImpl<'_, V, DE, UE, F, Type, IO> {}

impl<V, DE, UE, F, Type: PartialEq, IO: InnerOuterMarker> PartialEq
    for DynamicHandleImpl<'_, V, DE, UE, F, Type, IO>
{
    fn eq(&self, other: &Self) -> bool {
        self.handle == other.handle
    }
}

impl<V, DE, UE, F, Type, IO: InnerOuterMarker> fmt::Debug for DynamicHandleImpl<'_, V, DE, UE, F, Type, IO> {
    fn fmt(&self, f: &mut fmt::Formatter<'_>) -> fmt::Result {
        self.handle.fmt(f)
    }
}

impl<V, DE, UE, F, Type: Copy + Default, IO: InnerOuterMarker> DynamicHandleImpl<'_, V, DE, UE, F, Type, IO> {
    pub fn fix(&self) -> FixedHandleImpl<Type, IO> {
        self.handle
    }

    pub fn index(&self) -> usize {
        self.handle.index()
    }
}

impl<'a, V, DE, UE, F> DirectedEdgeHandle<'a, V, DE, UE, F> {
    fn at(&self, handle: FixedDirectedEdgeHandle) -> Self {
        budget::tick();
        DirectedEdgeHandle::new(self.dcel, handle)
    }

    pub fn next(&self) -> Self {
        self.at(self.dcel.half_edge(self.handle).next)
    }

    pub fn prev(&self) -> Self {
        self.at(self.dcel.half_edge(self.handle).prev)
    }

    pub fn rev(&self) -> Self {
        self.at(self.handle.rev())
    }

    pub fn ccw(&self) -> Self {
        self.prev().rev()
    }

    pub fn cw(&self) -> Self {
        self.rev().next()
    }

    pub fn from(&self) -> VertexHandle<'a, V, DE, UE, F> {
        VertexHandle::new(self.dcel, self.dcel.half_edge(self.handle).origin)
    }

    pub fn to(&self) -> VertexHandle<'a, V, DE, UE, F> {
        self.rev().from()
    }

    pub fn vertices(&self) -> [VertexHandle<'a, V, DE, UE, F>; 2] {
        [self.from(), self.to()]
    }

    pub fn face(&self) -> FaceHandle<'a, PossiblyOuterTag, V, DE, UE, F> {
        self.dcel.face(self.dcel.half_edge(self.handle).face)
    }

    pub fn is_outer_edge(&self) -> bool {
        self.face().is_outer()
    }

    pub fn is_part_of_convex_hull(&self) -> bool {
        self.is_outer_edge() || self.rev().is_outer_edge()
    }

    pub fn as_undirected(&self) -> UndirectedEdgeHandle<'a, V, DE, UE, F> {
        UndirectedEdgeHandle::new(self.dcel, self.handle.as_undirected())
    }

    pub fn opposite_vertex(&self) -> Option<VertexHandle<'a, V, DE, UE, F>> {
        let outer = self.is_outer_edge();
        budget::far_asked(outer);
        (!outer).then(|| self.prev().from())
    }

    pub fn as_voronoi_edge(&self) -> DirectedVoronoiEdge<'a, V, DE, UE, F> {
        unimplemented!("not part of the sweep")
    }
}

impl<V: HasPosition, DE, UE, F> DirectedEdgeHandle<'_, V, DE, UE, F> {
    pub fn positions(&self) -> [Point2<V::Scalar>; 2] {
        [self.from().position(), self.to().position()]
    }

    pub fn opposite_position(&self) -> Option<Point2<V::Scalar>> {
        self.opposite_vertex().map(|vertex| vertex.position())
    }

    pub fn side_query(&self, point: Point2<V::Scalar>) -> LineSideInfo {
        let [from, to] = self.positions();
        math::side_query(from, to, point)
    }
}

impl<V, DE, UE, F> DirectedEdgeHandle<'_, V, DE, CdtEdge<UE>, F> {
    pub fn is_constraint_edge(&self) -> bool {
        self.as_undirected().is_constraint_edge()
    }
}

impl<'a, V, DE, UE, F> UndirectedEdgeHandle<'a, V, DE, UE, F> {
    pub fn as_directed(&self) -> DirectedEdgeHandle<'a, V, DE, UE, F> {
        DirectedEdgeHandle::new(self.dcel, self.handle.normalized())
    }

    pub fn as_voronoi_edge(&self) -> UndirectedVoronoiEdge<'a, V, DE, UE, F> {
        unimplemented!("not part of the sweep")
    }
}

impl<V, DE, UE, F> UndirectedEdgeHandle<'_, V, DE, CdtEdge<UE>, F> {
    pub fn is_constraint_edge(&self) -> bool {
        self.dcel.undirected_edge_data(self.handle).is_constraint_edge()
    }
}

impl<'a, V, DE, UE, F> VertexHandle<'a, V, DE, UE, F> {
    pub fn out_edge(&self) -> Option<DirectedEdgeHandle<'a, V, DE, UE, F>> {
        let out_edge = self.dcel.vertex_out_edge(self.handle)?;
        Some(DirectedEdgeHandle::new(self.dcel, out_edge))
    }

    pub fn out_edges(&self) -> OutEdgeIterator<'a, V, DE, UE, F> {
        OutEdgeIterator::new(self.out_edge())
    }

    pub fn as_voronoi_face(&self) -> VoronoiFace<'a, V, DE, UE, F> {
        unimplemented!("not part of the sweep")
    }
}

impl<V: HasPosition, DE, UE, F> VertexHandle<'_, V, DE, UE, F> {
    pub fn position(&self) -> Point2<V::Scalar> {
        budget::tick();
        self.dcel.vertex_data(self.handle).position()
    }
}

impl<'a, V, DE, UE, F> FaceHandle<'a, PossiblyOuterTag, V, DE, UE, F> {
    pub fn is_outer(&self) -> bool {
        self.handle.is_outer()
    }

    pub fn as_inner(&self) -> Option<FaceHandle<'a, InnerTag, V, DE, UE, F>> {
        (!self.is_outer()).then(|| self.adjust_inner_outer())
    }

    pub fn adjacent_edge(&self) -> Option<DirectedEdgeHandle<'a, V, DE, UE, F>> {
        let edge = self.dcel.face_adjacent_edge(self.handle)?;
        Some(DirectedEdgeHandle::new(self.dcel, edge))
    }
}

impl<'a, V, DE, UE, F> FaceHandle<'a, InnerTag, V, DE, UE, F> {
    pub fn adjacent_edge(&self) -> DirectedEdgeHandle<'a, V, DE, UE, F> {
        let edge = self.dcel.face_adjacent_edge(self.handle).unwrap();
        DirectedEdgeHandle::new(self.dcel, edge)
    }

    pub fn adjacent_edges(&self) -> [DirectedEdgeHandle<'a, V, DE, UE, F>; 3] {
        let edge = self.adjacent_edge();
        [edge, edge.next(), edge.prev()]
    }

    pub fn vertices(&self) -> [VertexHandle<'a, V, DE, UE, F>; 3] {
        self.adjacent_edges().map(|edge| edge.from())
    }
}

impl<V: HasPosition, DE, UE, F> FaceHandle<'_, InnerTag, V, DE, UE, F>
where
    V::Scalar: Float,
{
    pub fn circumcenter(&self) -> Point2<V::Scalar> {
        math::circumcenter(self.vertices().map(|vertex| vertex.position())).0
    }
}
