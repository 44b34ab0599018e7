//! Inputs and answers, and their text (FORMAT.md).

use std::fmt::{Display, Write};

use crate::mesh::{Mesh, Position};

#[derive(Clone, Debug, PartialEq)]
pub struct Case {
    pub number: u64,
    pub seed: Mesh,
    pub centre: [f64; 2],
    pub points: Vec<Position>,
}

#[derive(Clone, Debug, PartialEq, Eq)]
pub struct Answer {
    pub number: u64,
    /// Fate, vertex, faces, flips.
    pub fates: Vec<[u32; 4]>,
    pub ending: Ending,
}

#[derive(Clone, Debug, PartialEq, Eq)]
pub enum Ending {
    /// The mesh after the last step, the faces and flips of the first pass, the mesh after it, and what
    /// the insertions of the skipped points came to.
    Inside {
        stepped: Mesh,
        pass: [u32; 2],
        passed: Mesh,
        inserted: Insertions,
    },
    Outside {
        reason: u32,
        index: u32,
    },
    Refused {
        number: u32,
        place: u32,
    },
    /// Of bare points alone: the list ends before a point is left for a step, and this is the mesh so far.
    Grown(Mesh),
}

/// The insertions of the skipped points (Change 2).
#[derive(Clone, Debug, PartialEq, Eq)]
pub enum Insertions {
    /// The answers of the whole run, and the mesh after the last insertion.
    Made { fates: Vec<[u32; 4]>, mesh: Mesh },
    /// A further pass would add a face, so that the points go into another mesh than the Rust has then.
    AfterPasses,
    /// The Rust's search for a point goes round for ever; it panics.
    SearchPanics,
}

/// Why a case is outside the domain.
pub mod reason {
    pub const STEP_PANICS: u32 = 1;
    pub const STEP_RUNS_ON: u32 = 2;
    pub const AT_CENTRE: u32 = 3;
    pub const UNSOUND: u32 = 4;
    pub const OTHER_FLIP: u32 = 5;
    pub const REFUSED: u32 = 6;
    pub const NO_HULL: u32 = 7;
    pub const PASS_FAILS: u32 = 8;
    pub const INSERTION_FAILS: u32 = 9;
    /// These two are of the insertions alone: the answer before them stays.
    pub const AFTER_PASSES: u32 = 10;
    pub const SEARCH_PANICS: u32 = 11;
    /// Of bare points alone.
    pub const NOT_STRICT: u32 = 12;
    pub const GROWING_FAILS: u32 = 13;
}

pub fn line<T: Display>(text: &mut String, tag: char, numbers: impl IntoIterator<Item = T>) {
    text.push(tag);
    for number in numbers {
        write!(text, " {number}").unwrap();
    }
    text.push('\n');
}

pub fn write_mesh(text: &mut String, mesh: &Mesh) {
    line(text, 'm', [mesh.positions.len(), mesh.edges(), mesh.faces.len()]);
    line(text, 'p', mesh.positions.iter().flatten());
    line(text, 'o', &mesh.out_edges);
    line(text, 'h', mesh.half_edges.iter().flatten());
    line(text, 'f', &mesh.faces);
}

impl Case {
    pub fn write(&self, text: &mut String) {
        line(text, 'i', [self.number]);
        write_mesh(text, &self.seed);
        line(text, 'c', self.centre.map(f64::to_bits));
        line(text, 'q', self.points.iter().flatten());
    }

    /// The vertices of seed and points: the measure by which cases are small.
    pub fn size(&self) -> usize {
        self.seed.positions.len() + self.points.len()
    }

    /// The case with its first `count` points alone.
    pub fn cut(&self, count: usize) -> Case {
        Case { points: self.points[..count].to_vec(), ..self.clone() }
    }
}

impl Answer {
    pub fn write(&self, text: &mut String) {
        line(text, 'i', [self.number]);
        self.write_unnumbered(text);
    }

    pub fn write_unnumbered(&self, text: &mut String) {
        if let Ending::Refused { number, place } = self.ending {
            line(text, 'r', [number, place]);
        } else {
            line(text, 'a', self.fates.iter().flatten());
        }
        match &self.ending {
            Ending::Inside { stepped, pass, passed, inserted } => {
                write_mesh(text, stepped);
                line(text, 'g', pass);
                write_mesh(text, passed);
                inserted.write(text);
            }
            Ending::Outside { reason, index } => line(text, 'x', [reason, index]),
            Ending::Refused { .. } => {}
            Ending::Grown(mesh) => write_mesh(text, mesh),
        }
        line(text, 'e', [0u32; 0]);
    }
}

impl Insertions {
    fn write(&self, text: &mut String) {
        match self {
            Insertions::Made { fates, mesh } => {
                line(text, 'b', fates.iter().flatten());
                write_mesh(text, mesh);
            }
            Insertions::AfterPasses => line(text, 'b', [0u32; 0]),
            Insertions::SearchPanics => line(text, 'l', [0u32; 0]),
        }
    }
}

pub type Read<T> = Result<T, String>;

/// The lines of a text, from the front.
pub struct Lines<'a> {
    lines: Vec<&'a str>,
    at: usize,
}

impl<'a> Lines<'a> {
    pub fn new(text: &'a str) -> Lines<'a> {
        let at = usize::from(text.starts_with('#'));
        Lines { lines: text.lines().collect(), at }
    }

    pub fn is_empty(&self) -> bool {
        self.at >= self.lines.len()
    }

    pub fn tag(&self) -> Option<char> {
        self.lines.get(self.at)?.chars().next()
    }

    /// The numbers of the next line, which has this tag.
    pub fn take<T: std::str::FromStr>(&mut self, tag: char) -> Read<Vec<T>> {
        let line = self.lines.get(self.at).ok_or(format!("the text ends before a line {tag}"))?;
        self.at += 1;
        let mut fields = line.split(' ');
        if fields.next() != Some(tag.to_string().as_str()) {
            return Err(format!("line {}: not a line {tag}: {:.40}", self.at, line));
        }
        let number = |field: &str| field.parse().map_err(|_| format!("line {}: no number: {field}", self.at));
        fields.map(number).collect()
    }

    pub fn take_exactly<T: std::str::FromStr, const N: usize>(&mut self, tag: char) -> Read<[T; N]> {
        let numbers = self.take(tag)?;
        let at = self.at;
        numbers.try_into().map_err(|_| format!("line {at}: not {N} numbers"))
    }

    pub fn take_groups<T: std::str::FromStr + Copy, const N: usize>(
        &mut self,
        tag: char,
    ) -> Read<Vec<[T; N]>> {
        let numbers: Vec<T> = self.take(tag)?;
        if numbers.len() % N != 0 {
            return Err(format!("line {}: not groups of {N} numbers", self.at));
        }
        Ok(numbers.chunks(N).map(|group| std::array::from_fn(|i| group[i])).collect())
    }

    pub fn mesh(&mut self) -> Read<Mesh> {
        let counts: [usize; 3] = self.take_exactly('m')?;
        let mesh = Mesh {
            positions: self.take_groups('p')?,
            out_edges: self.take('o')?,
            half_edges: self.take_groups('h')?,
            faces: self.take('f')?,
        };
        let lengths = [mesh.positions.len(), mesh.half_edges.len(), mesh.faces.len()];
        if [counts[0], 2 * counts[1], counts[2]] != lengths || mesh.out_edges.len() != counts[0] {
            return Err(format!("line {}: the rows before are not as long as counted", self.at));
        }
        Ok(mesh)
    }

    pub fn case(&mut self) -> Read<Case> {
        let [number] = self.take_exactly('i')?;
        let seed = self.mesh()?;
        let centre = self.take_exactly('c')?.map(f64::from_bits);
        Ok(Case { number, seed, centre, points: self.take_groups('q')? })
    }

    pub fn answer(&mut self) -> Read<Answer> {
        let [number] = self.take_exactly('i')?;
        self.unnumbered_answer(number)
    }

    pub fn unnumbered_answer(&mut self, number: u64) -> Read<Answer> {
        let (fates, ending) = if self.tag() == Some('r') {
            let [number, place] = self.take_exactly('r')?;
            (Vec::new(), Ending::Refused { number, place })
        } else {
            (self.take_groups('a')?, self.ending()?)
        };
        let [] = self.take_exactly::<u32, 0>('e')?;
        Ok(Answer { number, fates, ending })
    }

    fn ending(&mut self) -> Read<Ending> {
        if self.tag() == Some('x') {
            let [reason, index] = self.take_exactly('x')?;
            return Ok(Ending::Outside { reason, index });
        }
        let stepped = self.mesh()?;
        if self.tag() == Some('e') {
            return Ok(Ending::Grown(stepped));
        }
        let pass = self.take_exactly('g')?;
        Ok(Ending::Inside { stepped, pass, passed: self.mesh()?, inserted: self.insertions()? })
    }

    /// The line after `b` tells whether the insertions were made: a mesh follows, also when there is no
    /// point.
    fn insertions(&mut self) -> Read<Insertions> {
        if self.tag() == Some('l') {
            let [] = self.take_exactly::<u32, 0>('l')?;
            return Ok(Insertions::SearchPanics);
        }
        let fates = self.take_groups('b')?;
        if self.tag() != Some('m') && fates.is_empty() {
            return Ok(Insertions::AfterPasses);
        }
        Ok(Insertions::Made { fates, mesh: self.mesh()? })
    }

    /// An entry of a list: a case with its answer.
    pub fn entry(&mut self) -> Read<(Case, Answer)> {
        let case = self.case()?;
        let answer = self.unnumbered_answer(case.number)?;
        Ok((case, answer))
    }

    pub fn all<T>(&mut self, mut one: impl FnMut(&mut Self) -> Read<T>) -> Read<Vec<T>> {
        let mut items = Vec::new();
        while !self.is_empty() {
            items.push(one(self)?);
        }
        Ok(items)
    }
}

pub fn read_cases(text: &str) -> Read<Vec<Case>> {
    Lines::new(text).all(Lines::case)
}

pub fn read_answers(text: &str) -> Read<Vec<Answer>> {
    Lines::new(text).all(Lines::answer)
}

pub fn read_list(text: &str) -> Read<Vec<(Case, Answer)>> {
    Lines::new(text).all(Lines::entry)
}
