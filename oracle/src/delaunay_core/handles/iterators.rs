//! Stand-in for spade's iterators over a mesh.
//!
//! 01: the walk of `HullIterator` starts at face 0's stored edge and follows next; `out_edges` starts
//! at the stored out edge, and each further one is the reverse of prev. The others go by rising number.

use core::marker::PhantomData;

use super::super::Dcel;
use super::handle_defs::{DelaunayElementType, DynamicHandleImpl, FixedHandleImpl};
use super::public_handles::*;

/// The walk along next from face 0's stored edge, until it is met again.
pub struct HullIterator<'a, V, DE, UE, F> {
    first: DirectedEdgeHandle<'a, V, DE, UE, F>,
    current: Option<DirectedEdgeHandle<'a, V, DE, UE, F>>,
}

impl<'a, V, DE, UE, F> HullIterator<'a, V, DE, UE, F> {
    pub fn new(dcel: &'a Dcel<V, DE, UE, F>) -> Self {
        let first = dcel.outer_face().adjacent_edge().unwrap();
        HullIterator { first, current: Some(first) }
    }
}

impl<'a, V, DE, UE, F> Iterator for HullIterator<'a, V, DE, UE, F> {
    type Item = DirectedEdgeHandle<'a, V, DE, UE, F>;

    fn next(&mut self) -> Option<Self::Item> {
        let edge = self.current?;
        self.current = Some(edge.next()).filter(|next| *next != self.first);
        Some(edge)
    }
}

/// The half-edges that start at a vertex: the stored one, then the reverse of prev, until it is met
/// again. From the back: the next of the reverse, beginning with the last.
pub struct OutEdgeIterator<'a, V, DE, UE, F> {
    ends: Option<[DirectedEdgeHandle<'a, V, DE, UE, F>; 2]>,
}

impl<'a, V, DE, UE, F> OutEdgeIterator<'a, V, DE, UE, F> {
    pub fn new(out_edge: Option<DirectedEdgeHandle<'a, V, DE, UE, F>>) -> Self {
        OutEdgeIterator { ends: out_edge.map(|first| [first, first.cw()]) }
    }
}

impl<'a, V, DE, UE, F> Iterator for OutEdgeIterator<'a, V, DE, UE, F> {
    type Item = DirectedEdgeHandle<'a, V, DE, UE, F>;

    fn next(&mut self) -> Option<Self::Item> {
        let [front, back] = self.ends?;
        self.ends = (front != back).then(|| [front.ccw(), back]);
        Some(front)
    }
}

impl<V, DE, UE, F> DoubleEndedIterator for OutEdgeIterator<'_, V, DE, UE, F> {
    fn next_back(&mut self) -> Option<Self::Item> {
        let [front, back] = self.ends?;
        self.ends = (front != back).then(|| [front, back.cw()]);
        Some(back)
    }
}

/// The numbers 0, 1, .. of a kind of element.
pub struct FixedIterator<Type, InnerOuter> {
    numbers: core::ops::Range<usize>,
    kind: PhantomData<(Type, InnerOuter)>,
}

impl<Type, InnerOuter> FixedIterator<Type, InnerOuter> {
    pub fn new(count: usize) -> Self {
        FixedIterator { numbers: 0..count, kind: PhantomData }
    }
}

impl<Type: Default, InnerOuter: InnerOuterMarker> Iterator for FixedIterator<Type, InnerOuter> {
    type Item = FixedHandleImpl<Type, InnerOuter>;

    fn next(&mut self) -> Option<Self::Item> {
        self.numbers.next().map(FixedHandleImpl::new)
    }
}

/// The elements 0, 1, .. of a kind.
pub struct DynamicIterator<'a, V, DE, UE, F, Type, InnerOuter> {
    dcel: &'a Dcel<V, DE, UE, F>,
    numbers: FixedIterator<Type, InnerOuter>,
}

impl<'a, V, DE, UE, F, Type: DelaunayElementType, InnerOuter>
    DynamicIterator<'a, V, DE, UE, F, Type, InnerOuter>
{
    pub fn new(dcel: &'a Dcel<V, DE, UE, F>) -> Self {
        DynamicIterator { dcel, numbers: FixedIterator::new(Type::num_elements(dcel)) }
    }
}

impl<'a, V, DE, UE, F, Type: Default, InnerOuter: InnerOuterMarker> Iterator
    for DynamicIterator<'a, V, DE, UE, F, Type, InnerOuter>
{
    type Item = DynamicHandleImpl<'a, V, DE, UE, F, Type, InnerOuter>;

    fn next(&mut self) -> Option<Self::Item> {
        self.numbers.next().map(|handle| DynamicHandleImpl::new(self.dcel, handle))
    }
}

pub type FixedVertexIterator = FixedIterator<VertexTag, InnerTag>;
pub type FixedDirectedEdgeIterator = FixedIterator<DirectedEdgeTag, InnerTag>;
pub type FixedUndirectedEdgeIterator = FixedIterator<UndirectedEdgeTag, InnerTag>;
pub type FixedFaceIterator = FixedIterator<FaceTag, PossiblyOuterTag>;
pub type FixedInnerFaceIterator = FixedIterator<FaceTag, InnerTag>;
pub type VertexIterator<'a, V, DE, UE, F> = DynamicIterator<'a, V, DE, UE, F, VertexTag, InnerTag>;
pub type DirectedEdgeIterator<'a, V, DE, UE, F> =
    DynamicIterator<'a, V, DE, UE, F, DirectedEdgeTag, InnerTag>;
pub type UndirectedEdgeIterator<'a, V, DE, UE, F> =
    DynamicIterator<'a, V, DE, UE, F, UndirectedEdgeTag, InnerTag>;
pub type FaceIterator<'a, V, DE, UE, F> = DynamicIterator<'a, V, DE, UE, F, FaceTag, PossiblyOuterTag>;
pub type InnerFaceIterator<'a, V, DE, UE, F> = DynamicIterator<'a, V, DE, UE, F, FaceTag, InnerTag>;
pub type VoronoiFaceIterator<'a, V, DE, UE, F> =
    DynamicIterator<'a, V, DE, UE, F, VoronoiFaceTag, PossiblyOuterTag>;
pub type DirectedVoronoiEdgeIterator<'a, V, DE, UE, F> =
    DynamicIterator<'a, V, DE, UE, F, DirectedVoronoiEdgeTag, InnerTag>;
pub type UndirectedVoronoiEdgeIterator<'a, V, DE, UE, F> =
    DynamicIterator<'a, V, DE, UE, F, UndirectedVoronoiEdgeTag, InnerTag>;
