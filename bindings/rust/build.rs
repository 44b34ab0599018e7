//! Tells the linker where libfithmoul.a stands: FITHMOUL_LIB, or target/staticlib/ of the repository, where `tools/archive fithmoul` writes it.

use std::path::PathBuf;

fn main() {
    println!("cargo:rerun-if-env-changed=FITHMOUL_LIB");
    let manifest = PathBuf::from(std::env::var("CARGO_MANIFEST_DIR").expect("cargo sets it"));
    let folder =
        std::env::var("FITHMOUL_LIB").map_or_else(|_| manifest.join("../../target/staticlib"), PathBuf::from);
    let archive = folder.join("libfithmoul.a");
    assert!(
        archive.is_file(),
        "no libfithmoul.a in {}: run `tools/archive fithmoul`, or set FITHMOUL_LIB",
        folder.display()
    );
    println!("cargo:rerun-if-changed={}", archive.display());
    println!("cargo:rustc-link-search=native={}", folder.display());
    println!("cargo:rustc-link-lib=static=fithmoul");
}
