//! Types that spade's files name and that no sweep reaches: they have a name and a shape, no meaning.

use core::marker::PhantomData;

use crate::delaunay_core::{DirectedEdgeHandle, FixedVertexHandle, VertexHandle};
use crate::{HasPosition, Point2, SpadeNum, Triangulation};

pub struct Barycentric<'a, T>(&'a T);

impl<'a, T> Barycentric<'a, T> {
    pub(crate) fn new(triangulation: &'a T) -> Self {
        Barycentric(triangulation)
    }
}

pub mod flood_fill_iterator {
    use super::*;

    pub struct CircleMetric<S>(Point2<S>, S);

    impl<S> CircleMetric<S> {
        pub(crate) fn new(center: Point2<S>, radius_2: S) -> Self {
            CircleMetric(center, radius_2)
        }
    }

    pub struct RectangleMetric<S>(Point2<S>, Point2<S>);

    impl<S> RectangleMetric<S> {
        pub(crate) fn new(lower: Point2<S>, upper: Point2<S>) -> Self {
            RectangleMetric(lower, upper)
        }
    }

    pub struct FloodFillIterator<'a, T, M>(&'a T, M);

    impl<'a, T: Triangulation, M> FloodFillIterator<'a, T, M> {
        pub(crate) fn new(
            triangulation: &'a T,
            metric: M,
            _: Point2<<T::Vertex as HasPosition>::Scalar>,
        ) -> Self {
            FloodFillIterator(triangulation, metric)
        }
    }

    pub struct EdgesInShapeIterator<'a, T, M> {
        pub(crate) inner_iter: FloodFillIterator<'a, T, M>,
    }

    pub struct VerticesInShapeIterator<'a, T, M>(FloodFillIterator<'a, T, M>);

    impl<'a, T, M> VerticesInShapeIterator<'a, T, M> {
        pub(crate) fn new(inner: FloodFillIterator<'a, T, M>) -> Self {
            VerticesInShapeIterator(inner)
        }
    }
}

pub mod intersection_iterator {
    use super::*;

    pub enum Intersection<'a, V, DE, UE, F> {
        EdgeIntersection(DirectedEdgeHandle<'a, V, DE, UE, F>),
        VertexIntersection(VertexHandle<'a, V, DE, UE, F>),
        EdgeOverlap(DirectedEdgeHandle<'a, V, DE, UE, F>),
    }

    impl<'a, V, DE, UE, F> Intersection<'a, V, DE, UE, F> {
        pub fn as_edge_intersection(&self) -> Option<DirectedEdgeHandle<'a, V, DE, UE, F>> {
            unimplemented!("not part of the sweep")
        }
    }

    pub struct LineIntersectionIterator<'a, V, DE, UE, F>(PhantomData<&'a (V, DE, UE, F)>);

    impl<'a, V: HasPosition, DE, UE, F> LineIntersectionIterator<'a, V, DE, UE, F> {
        pub fn new<T>(_: &'a T, _: Point2<V::Scalar>, _: Point2<V::Scalar>) -> Self
        where
            T: Triangulation<Vertex = V, DirectedEdge = DE, UndirectedEdge = UE, Face = F>,
        {
            unimplemented!("not part of the sweep")
        }

        pub fn new_from_handles<T>(_: &'a T, _: FixedVertexHandle, _: FixedVertexHandle) -> Self
        where
            T: Triangulation<Vertex = V, DirectedEdge = DE, UndirectedEdge = UE, Face = F>,
        {
            unimplemented!("not part of the sweep")
        }
    }

    impl<'a, V, DE, UE, F> Iterator for LineIntersectionIterator<'a, V, DE, UE, F> {
        type Item = Intersection<'a, V, DE, UE, F>;

        fn next(&mut self) -> Option<Self::Item> {
            unimplemented!("not part of the sweep")
        }
    }
}
