//! Stand-in for spade's hint_generator.rs. A sweep from a given mesh asks for no hint; `insert`, by which a seed
//! grows from bare points, does, and gets vertex 0, as 02 sets it.

use super::FixedVertexHandle;
use crate::{Point2, SpadeNum, Triangulation};

pub trait HintGenerator<S: SpadeNum>: Default {
    fn get_hint(&self, position: Point2<S>) -> FixedVertexHandle;
    fn notify_vertex_lookup(&self, vertex: FixedVertexHandle);
    fn notify_vertex_inserted(&mut self, vertex: FixedVertexHandle, position: Point2<S>);
    fn notify_vertex_removed(
        &mut self,
        swapped_in_point: Option<Point2<S>>,
        vertex: FixedVertexHandle,
        position: Point2<S>,
    );
    fn initialize_from_triangulation<TR: Triangulation>(triangulation: &TR) -> Self
    where
        TR::Vertex: crate::HasPosition<Scalar = S>;
}

/// Always the first vertex.
#[derive(Default, Debug, Clone)]
pub struct LastUsedVertexHintGenerator;

impl<S: SpadeNum> HintGenerator<S> for LastUsedVertexHintGenerator {
    fn get_hint(&self, _: Point2<S>) -> FixedVertexHandle {
        FixedVertexHandle::new(0)
    }

    fn notify_vertex_lookup(&self, _: FixedVertexHandle) {}

    fn notify_vertex_inserted(&mut self, _: FixedVertexHandle, _: Point2<S>) {}

    fn notify_vertex_removed(&mut self, _: Option<Point2<S>>, _: FixedVertexHandle, _: Point2<S>) {}

    fn initialize_from_triangulation<TR: Triangulation>(_: &TR) -> Self
    where
        TR::Vertex: crate::HasPosition<Scalar = S>,
    {
        LastUsedVertexHintGenerator
    }
}
