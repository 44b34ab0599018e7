//! What the tests share: numbers that are the same each time, and meshes of given triangles.

mod random;

use std::collections::HashMap;

use fithmoul::{Mesh, Point};
pub use random::Random;

/// The mesh of triangles that turn left and share whole edges. Where a vertex has several fans they are joined in the order in which they come.
pub fn of_triangles(points: &[Point], triangles: &[[u32; 3]]) -> Mesh {
    let mut number = HashMap::with_capacity(3 * triangles.len());
    let (mut outs, mut halves, mut adjacent) = (vec![0; points.len()], Vec::new(), vec![0]);
    for (f, t) in (1..).zip(triangles) {
        let e = [0, 1, 2].map(|k| {
            let (p, q) = (t[k], t[(k + 1) % 3]);
            let e = number.get(&(q, p)).map(|e| e ^ 1).unwrap_or_else(|| {
                halves.extend([[0; 4]; 2]);
                halves.len() as u32 - 2
            });
            number.insert((p, q), e);
            e
        });
        for k in 0..3 {
            halves[e[k] as usize] = [e[(k + 1) % 3], e[(k + 2) % 3], f, t[k]];
            outs[t[k] as usize] = e[k];
        }
        adjacent.push(e[0]);
    }
    join_outside(&mut halves, &mut adjacent, points.len());
    Mesh::from_rows(points, &outs, &halves, &adjacent).expect("a good mesh")
}

/// The half-edges that have no triangle are those of the outer face.
fn join_outside(halves: &mut [[u32; 4]], adjacent: &mut [u32], vertices: usize) {
    let outside: Vec<u32> = (0..halves.len() as u32).filter(|&e| halves[e as usize][2] == 0).collect();
    let mut fans = vec![Vec::new(); vertices];
    for &e in &outside {
        let [ahead, _, _, end] = halves[e as usize ^ 1];
        halves[e as usize][3] = halves[ahead as usize][3];
        // about the vertex where e ends, through the triangles of its fan
        let mut leaves = e ^ 1;
        while halves[leaves as usize][2] != 0 {
            leaves = halves[leaves as usize][1] ^ 1;
        }
        fans[end as usize].push((e, leaves));
    }
    for fan in &fans {
        for (i, &(comes, _)) in fan.iter().enumerate() {
            let (_, leaves) = fan[(i + 1) % fan.len()];
            halves[comes as usize][0] = leaves;
            halves[leaves as usize][1] = comes;
        }
    }
    adjacent[0] = outside[0];
}
