//! A mesh as plain rows, the mesh rules of 01, and meshes made of triangles.

use std::collections::HashMap;

use crate::random::Random;

pub type Position = [i32; 2];

pub const NEXT: usize = 0;
pub const PREV: usize = 1;
pub const FACE: usize = 2;
pub const ORIGIN: usize = 3;

/// The greatest coordinate.
pub const RANGE: i32 = 16_777_216;

#[derive(Clone, Debug, Default, PartialEq, Eq)]
pub struct Mesh {
    pub positions: Vec<Position>,
    pub out_edges: Vec<u32>,
    pub half_edges: Vec<[u32; 4]>,
    pub faces: Vec<u32>,
}

/// Positive where `c` is left of the line from `a` to `b`.
pub fn orient(a: Position, b: Position, c: Position) -> i64 {
    let [ax, ay, bx, by, cx, cy] = [a[0], a[1], b[0], b[1], c[0], c[1]].map(i64::from);
    (bx - ax) * (cy - ay) - (by - ay) * (cx - ax)
}

/// Positive where `d` is strictly inside the circle of `a`, `b`, `c`, these turning left.
pub fn incircle([a, b, c, d]: [Position; 4]) -> i128 {
    let row = |p: Position| {
        let [x, y] = [0, 1].map(|i| i128::from(p[i]) - i128::from(d[i]));
        [x, y, x * x + y * y]
    };
    let [a, b, c] = [row(a), row(b), row(c)];
    let minor = |p: [i128; 3], q: [i128; 3]| p[0] * q[1] - q[0] * p[1];
    a[2] * minor(b, c) + b[2] * minor(c, a) + c[2] * minor(a, b)
}

impl Mesh {
    /// The seed of a listing: half-edges 0, 2, 4 run v0, v1, v2 in face 1.
    pub fn triangle(corners: [Position; 3]) -> Mesh {
        Mesh {
            positions: corners.to_vec(),
            out_edges: vec![0, 2, 4],
            half_edges: vec![
                [2, 4, 1, 0],
                [5, 3, 0, 1],
                [4, 0, 1, 1],
                [1, 5, 0, 2],
                [0, 2, 1, 2],
                [3, 1, 0, 0],
            ],
            faces: vec![1, 0],
        }
    }

    pub fn edges(&self) -> usize {
        self.half_edges.len() / 2
    }

    pub fn next(&self, e: u32) -> u32 {
        self.half_edges[e as usize][NEXT]
    }

    pub fn prev(&self, e: u32) -> u32 {
        self.half_edges[e as usize][PREV]
    }

    pub fn face(&self, e: u32) -> u32 {
        self.half_edges[e as usize][FACE]
    }

    pub fn origin(&self, e: u32) -> u32 {
        self.half_edges[e as usize][ORIGIN]
    }

    pub fn position(&self, e: u32) -> Position {
        self.positions[self.origin(e) as usize]
    }

    /// The edges of face 0's cycle, along next from the stored one.
    pub fn boundary(&self) -> Vec<u32> {
        let mut edges = vec![self.faces[0]];
        loop {
            let next = self.next(*edges.last().unwrap());
            if next == edges[0] {
                return edges;
            }
            edges.push(next);
        }
    }

    /// The corners of the inner faces.
    pub fn triangles(&self) -> Vec<[u32; 3]> {
        let corners = |&e: &u32| [e, self.next(e), self.prev(e)].map(|e| self.origin(e));
        self.faces[1..].iter().map(corners).collect()
    }

    /// The number of the refusal that 01 gives for this mesh and further `points`: rows 1, 3, 4, 5.
    pub fn refusal(&self, points: &[Position]) -> Option<u32> {
        let vertices = self.positions.len() + points.len();
        let outside = |p: &Position| p.iter().any(|c| !(-RANGE..=RANGE).contains(c));
        if !(3..=1_000_000).contains(&vertices) {
            Some(1)
        } else if self.positions.iter().chain(points).any(outside) {
            Some(3)
        } else if !self.keeps_rules() {
            Some(4)
        } else if !self.turns_left() {
            Some(5)
        } else {
            None
        }
    }

    pub fn turns_left(&self) -> bool {
        let left = |t: [u32; 3]| {
            let [a, b, c] = t.map(|v| self.positions[v as usize]);
            orient(a, b, c) > 0
        };
        self.triangles().into_iter().all(left)
    }

    /// The mesh rules of 01, one after another.
    pub fn keeps_rules(&self) -> bool {
        self.in_range()
            && self.links_agree()
            && self.faces_are_cycles()
            && self.vertices_are_met()
            && self.positions.len() + self.faces.len() == self.edges() + 2
    }

    fn in_range(&self) -> bool {
        let halves = self.half_edges.len() as u32;
        let [vertices, faces] = [self.positions.len(), self.faces.len()].map(|n| n as u32);
        halves % 2 == 0
            && faces >= 1
            && self.out_edges.len() == self.positions.len()
            && self.out_edges.iter().chain(&self.faces).all(|&e| e < halves)
            && self
                .half_edges
                .iter()
                .all(|&[n, p, f, o]| n < halves && p < halves && f < faces && o < vertices)
    }

    fn links_agree(&self) -> bool {
        (0..self.half_edges.len() as u32).all(|e| {
            self.prev(self.next(e)) == e
                && self.next(self.prev(e)) == e
                && self.face(self.next(e)) == self.face(e)
                && self.origin(self.next(e)) == self.origin(e ^ 1)
                && (self.face(e) != 0 || self.face(e ^ 1) != 0)
        })
    }

    fn faces_are_cycles(&self) -> bool {
        let mut met = vec![false; self.half_edges.len()];
        for (face, &first) in self.faces.iter().enumerate() {
            let mut length = 0;
            let mut e = first;
            while !met[e as usize] {
                if self.face(e) != face as u32 {
                    return false;
                }
                met[e as usize] = true;
                length += 1;
                e = self.next(e);
            }
            if e != first || length < 3 || (face > 0 && length != 3) {
                return false;
            }
        }
        met.into_iter().all(|met| met)
    }

    fn vertices_are_met(&self) -> bool {
        let mut met = vec![false; self.half_edges.len()];
        for (vertex, &first) in self.out_edges.iter().enumerate() {
            let mut e = first;
            while !met[e as usize] {
                if self.origin(e) != vertex as u32 {
                    return false;
                }
                met[e as usize] = true;
                e = self.prev(e) ^ 1;
            }
            if e != first {
                return false;
            }
        }
        met.into_iter().all(|met| met)
    }

    /// The mesh of these triangles, its vertices, edges, faces, halves, stored and out edges numbered
    /// and chosen at random; nothing where the mesh rules would not be met. Unused positions go.
    pub fn of_triangles(positions: &[Position], triangles: &[[u32; 3]], random: &mut Random) -> Option<Mesh> {
        let mut used: Vec<u32> = triangles.iter().flatten().copied().collect();
        used.sort_unstable();
        used.dedup();
        random.shuffle(&mut used);
        let renamed: HashMap<u32, u32> = used.iter().zip(0..).map(|(&v, n)| (v, n)).collect();
        let mut triangles: Vec<[u32; 3]> = triangles.iter().map(|t| t.map(|v| renamed[&v])).collect();
        random.shuffle(&mut triangles);

        let mut ends: Vec<[u32; 2]> = Vec::new();
        for t in &triangles {
            for i in 0..3 {
                let [a, b] = [t[i], t[(i + 1) % 3]];
                ends.push([a.min(b), a.max(b)]);
            }
        }
        ends.sort_unstable();
        ends.dedup();
        random.shuffle(&mut ends);
        let mut halves: HashMap<[u32; 2], u32> = HashMap::new();
        for (u, &[a, b]) in ends.iter().enumerate() {
            let [a, b] = if random.below(2) == 0 { [a, b] } else { [b, a] };
            halves.insert([a, b], 2 * u as u32);
            halves.insert([b, a], 2 * u as u32 + 1);
        }
        Mesh::linked(used.iter().map(|&v| positions[v as usize]).collect(), &triangles, &halves, random)
    }

    fn linked(
        positions: Vec<Position>,
        triangles: &[[u32; 3]],
        halves: &HashMap<[u32; 2], u32>,
        random: &mut Random,
    ) -> Option<Mesh> {
        let mut half_edges = vec![[u32::MAX; 4]; halves.len()];
        for (&[from, _], &e) in halves {
            half_edges[e as usize] = [u32::MAX, u32::MAX, 0, from];
        }
        let mut faces = vec![0];
        for (face, t) in (1..).zip(triangles) {
            let cycle = [0, 1, 2].map(|i| halves[&[t[i], t[(i + 1) % 3]]]);
            for i in 0..3 {
                let half = &mut half_edges[cycle[i] as usize];
                if half[FACE] != 0 {
                    return None;
                }
                *half = [cycle[(i + 1) % 3], cycle[(i + 2) % 3], face, half[ORIGIN]];
            }
            faces.push(cycle[random.below(3) as usize]);
        }
        let mut mesh = Mesh { positions, out_edges: Vec::new(), half_edges, faces };
        mesh.link_outer_face(random)?;
        mesh.choose_out_edges(random);
        mesh.keeps_rules().then_some(mesh)
    }

    /// Links the half-edges that no triangle took; each vertex may start only one of them.
    fn link_outer_face(&mut self, random: &mut Random) -> Option<()> {
        let outer: Vec<u32> = (0..self.half_edges.len() as u32).filter(|&e| self.face(e) == 0).collect();
        let mut starts = HashMap::new();
        for &e in &outer {
            if starts.insert(self.origin(e), e).is_some() {
                return None;
            }
        }
        for &e in &outer {
            let next = *starts.get(&self.origin(e ^ 1))?;
            self.half_edges[e as usize][NEXT] = next;
            self.half_edges[next as usize][PREV] = e;
        }
        self.faces[0] = *random.pick(&outer);
        Some(())
    }

    fn choose_out_edges(&mut self, random: &mut Random) {
        let mut starts = vec![Vec::new(); self.positions.len()];
        for e in 0..self.half_edges.len() as u32 {
            starts[self.origin(e) as usize].push(e);
        }
        self.out_edges = starts.iter().map(|edges| *random.pick(edges)).collect();
    }
}
