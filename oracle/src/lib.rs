//! The Rust of spade 2.15.1, compiled unchanged from its place, with stand-ins for the files that are
//! missing, and a driver of its sweep.
//!
//! A line `spade!("..")` below takes a file of spade as it stands. The stand-ins have the places of
//! spade's own files (handle_impls.rs, iterators.rs, hint_generator.rs, delaunay_triangulation.rs;
//! unused.rs for the rest) and follow 01-scope.md, which gives the accessors' meanings. The drivers are
//! children of the module of bulk_load.rs, because the sweep's functions are private there.

#![allow(unexpected_cfgs, dead_code, unused_imports, unused_variables)]
#![allow(clippy::all)]

extern crate alloc;

// The pictures of spade's documentation are missing; their text is in no program.
macro_rules! include_str {
    ($file:literal) => {
        ""
    };
}

macro_rules! spade {
    ($file:literal) => {
        include!(concat!(env!("SPADE"), "/", $file));
    };
}

pub mod budget;

pub mod cdt {
    spade!("cdt.rs");
}

pub mod point {
    spade!("point.rs");
}

pub mod triangulation {
    spade!("triangulation.rs");
}

pub mod delaunay_core {
    pub mod bulk_load {
        spade!("delaunay_core/bulk_load.rs");

        pub mod driver;

        pub mod growing;
    }

    pub mod dcel {
        spade!("delaunay_core/dcel.rs");
    }

    pub mod dcel_operations {
        spade!("delaunay_core/dcel_operations.rs");
    }

    pub mod line_side_info {
        spade!("delaunay_core/line_side_info.rs");
    }

    pub mod math {
        spade!("delaunay_core/math.rs");
    }

    pub mod triangulation_ext {
        spade!("delaunay_core/triangulation_ext.rs");
    }

    pub mod handles {
        pub mod handle_defs {
            spade!("delaunay_core/handles/handle_defs.rs");
        }

        pub mod public_handles {
            spade!("delaunay_core/handles/public_handles.rs");
        }

        pub mod handle_impls;

        pub mod iterators;

        pub use public_handles::*;
    }

    pub mod hint_generator;

    pub use bulk_load::{bulk_load, bulk_load_cdt, try_bulk_load_cdt};
    pub use dcel::Dcel;
    pub use handles::{iterators, *};
    pub use hint_generator::{HintGenerator, LastUsedVertexHintGenerator};
    pub use line_side_info::LineSideInfo;
    pub use triangulation_ext::{RemovalResult, TriangulationExt};
}

pub mod delaunay_triangulation;
mod unused;

pub use cdt::ConstrainedDelaunayTriangulation;
pub use delaunay_core::math::{
    mitigate_underflow, validate_coordinate, validate_vertex, InsertionError, PointProjection,
};
pub use delaunay_core::{
    bulk_load::driver, handles, iterators, HintGenerator, LastUsedVertexHintGenerator, LineSideInfo,
    RemovalResult, TriangulationExt,
};
pub use delaunay_triangulation::DelaunayTriangulation;
pub use point::{HasPosition, Point2, SpadeNum};
pub use triangulation::{FloatTriangulation, PositionInTriangulation, Triangulation};
pub use unused::{flood_fill_iterator, intersection_iterator, Barycentric};

pub mod bare;
pub mod case;
pub mod compare;
pub mod generate;
pub mod generate_bare;
pub mod list;
pub mod mesh;
pub mod random;
pub mod smallest;
pub mod worker;
