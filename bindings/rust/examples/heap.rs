//! A heap surveyed at some points: its triangles, and its volume over the ground at height 0. `cargo run --example heap`

use fithmoul::{Mesh, Point, Refusal, Shape};

/// East, north and height, in millimetres.
const SURVEY: [Point; 9] = [
    [0, 0, 0],
    [4000, 0, 0],
    [8000, 0, 0],
    [0, 4000, 0],
    [4100, 3900, 2500],
    [8000, 4000, 0],
    [0, 8000, 0],
    [4000, 8000, 0],
    [8000, 8000, 0],
];

fn main() -> Result<(), Refusal> {
    let Shape::Mesh(mesh) = Mesh::bulk_load(&SURVEY)?.shape else {
        println!("no triangle: all points are on one line");
        return Ok(());
    };
    for [a, b, c] in mesh.triangles() {
        println!("{a} {b} {c}");
    }
    let volume = mesh.volume(0)?;
    println!("{} points, {} cubic metres", SURVEY.len(), volume.cubic_metres);
    println!("six times that, exactly: {} cubic millimetres", volume.six_volumes);
    Ok(())
}
