//! Stand-in for spade's delaunay_triangulation.rs: a mesh and a hint generator. `is_defined_legal`
//! keeps the trait's own answer, false: no edge is a constraint.

use crate::delaunay_core::Dcel;
use crate::{HasPosition, HintGenerator, LastUsedVertexHintGenerator, Triangulation};

#[derive(Debug, Clone)]
pub struct DelaunayTriangulation<V, DE = (), UE = (), F = (), L = LastUsedVertexHintGenerator> {
    pub(crate) dcel: Dcel<V, DE, UE, F>,
    pub(crate) hint_generator: L,
}

impl<V, DE: Default, UE: Default, F: Default, L: Default> Default for DelaunayTriangulation<V, DE, UE, F, L> {
    fn default() -> Self {
        DelaunayTriangulation { dcel: Dcel::default(), hint_generator: L::default() }
    }
}

impl<V, DE, UE, F, L> Triangulation for DelaunayTriangulation<V, DE, UE, F, L>
where
    V: HasPosition,
    DE: Default,
    UE: Default,
    F: Default,
    L: HintGenerator<V::Scalar>,
{
    type Vertex = V;
    type DirectedEdge = DE;
    type UndirectedEdge = UE;
    type Face = F;
    type HintGenerator = L;

    fn s(&self) -> &Dcel<V, DE, UE, F> {
        &self.dcel
    }

    fn s_mut(&mut self) -> &mut Dcel<V, DE, UE, F> {
        &mut self.dcel
    }

    fn hint_generator(&self) -> &L {
        &self.hint_generator
    }

    fn hint_generator_mut(&mut self) -> &mut L {
        &mut self.hint_generator
    }

    fn from_parts(dcel: Dcel<V, DE, UE, F>, hint_generator: L, num_constraints: usize) -> Self {
        assert_eq!(num_constraints, 0);
        DelaunayTriangulation { dcel, hint_generator }
    }

    fn into_parts(self) -> (Dcel<V, DE, UE, F>, L, usize) {
        (self.dcel, self.hint_generator, 0)
    }
}
