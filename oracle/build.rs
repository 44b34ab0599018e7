//! Tells the compiler where the Rust of spade stands: SPADE_SRC, or ../shared/docs/src seen from the
//! repository's root. Nothing is copied.

use std::path::PathBuf;

const FILES: [&str; 11] = [
    "cdt.rs",
    "point.rs",
    "triangulation.rs",
    "delaunay_core/bulk_load.rs",
    "delaunay_core/dcel.rs",
    "delaunay_core/dcel_operations.rs",
    "delaunay_core/handles/handle_defs.rs",
    "delaunay_core/handles/public_handles.rs",
    "delaunay_core/line_side_info.rs",
    "delaunay_core/math.rs",
    "delaunay_core/triangulation_ext.rs",
];

fn main() {
    println!("cargo:rerun-if-env-changed=SPADE_SRC");
    let manifest = PathBuf::from(std::env::var("CARGO_MANIFEST_DIR").unwrap());
    let docs = match std::env::var("SPADE_SRC") {
        Ok(given) => PathBuf::from(given),
        Err(_) => manifest.join("../../shared/docs/src"),
    };
    let Ok(src) = docs.join("src").canonicalize() else {
        panic!("no spade in {}: set SPADE_SRC", docs.display());
    };
    for file in FILES {
        let path = src.join(file);
        assert!(path.is_file(), "{} is missing", path.display());
        println!("cargo:rerun-if-changed={}", path.display());
    }
    println!("cargo:rustc-env=SPADE={}", src.display());
}
