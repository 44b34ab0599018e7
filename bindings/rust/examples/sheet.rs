//! The load sheet of a heap: each triangle's area and part of six times the volume above a level, the area total and the volume (examples/sheet.md).
//!
//! `sheet TEXT HEIGHTS LEVEL`: a listing's text (examples/README.md), the heights of the seed's vertices and of the points, one a line, and the level.

use std::error::Error;
use std::fs::read_to_string;

use fithmoul::{Mesh, Point};

/// The numbers of all lines with this letter, two by two.
fn pairs(text: &str, tag: &str) -> Result<Vec<[i32; 2]>, Box<dyn Error>> {
    let lines = text.lines().filter_map(|line| line.strip_prefix(tag));
    let numbers = lines.flat_map(str::split_whitespace).map(str::parse).collect::<Result<Vec<i32>, _>>()?;
    Ok(numbers.chunks_exact(2).map(|p| [p[0], p[1]]).collect())
}

fn main() -> Result<(), Box<dyn Error>> {
    let words: Vec<String> = std::env::args().skip(1).collect();
    let [text, heights, level] = &words[..] else { return Err("sheet TEXT HEIGHTS LEVEL".into()) };
    let (text, level) = (read_to_string(text)?, level.parse()?);
    let heights = read_to_string(heights)?.lines().map(str::parse).collect::<Result<Vec<i32>, _>>()?;
    let (positions, center) = ([pairs(&text, "S")?, pairs(&text, "P")?].concat(), pairs(&text, "C")?);
    let surveyed: Vec<Point> = positions.iter().zip(&heights).map(|(&[x, y], &z)| [x, y, z]).collect();
    let (&[a, b, c, ref points @ ..], &[center]) = (&surveyed[..], &center[..]) else {
        return Err("three vertices with heights, and a centre".into());
    };

    let mut mesh = Mesh::triangle([a, b, c])?;
    mesh.run(center.map(f64::from), points)?;
    println!("triangle  vertices  doubled area  heights - 3 * {level}  product");
    for (number, corners) in (1..).zip(mesh.triangles()) {
        let area = mesh.doubled_area(number).ok_or("a triangle has an area")?;
        let above = corners.map(|v| i64::from(mesh.heights()[v as usize] - level)).iter().sum::<i64>();
        let [u, v, w] = corners;
        println!("{number}  {u} {v} {w}  {area}  {above}  {}", area * above);
    }
    println!("area total {}", mesh.area_total()?);
    let volume = mesh.volume(level)?;
    println!("six volumes {}", volume.six_volumes);
    println!("cubic metres {}", volume.cubic_metres);
    Ok(())
}
