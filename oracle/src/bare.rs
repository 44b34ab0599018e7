//! Bare points: lists without a seed, their answers, the text of both (FORMAT.md), and a program's answers
//! beside the Rust's.

use std::collections::BTreeMap;

use crate::case::{line, reason, Answer, Ending, Insertions, Lines, Read};
use crate::compare::{answers_of, difference, mesh_difference, outside_counts, Tally};
use crate::delaunay_core::bulk_load::growing::as_taken;
use crate::generate_bare;
use crate::mesh::{Mesh, Position};
use crate::worker::Oracle;

#[derive(Clone, Debug, PartialEq, Eq)]
pub struct Bare {
    pub number: u64,
    pub points: Vec<Position>,
}

/// The sweep starts: so many points are in, and the centre's bits.
#[derive(Clone, Copy, Debug, PartialEq, Eq)]
pub struct Start {
    pub taken: u32,
    pub centre: [u64; 2],
}

/// The answers of the points, first those of the growing seed, with fates 1 and 9.
#[derive(Clone, Debug, PartialEq, Eq)]
pub struct BareAnswer {
    pub start: Option<Start>,
    pub answer: Answer,
}

impl Bare {
    pub fn write(&self, text: &mut String) {
        line(text, 'i', [self.number]);
        line(text, 'q', self.points.iter().flatten());
    }

    /// The list with its first `count` points alone.
    pub fn cut(&self, count: usize) -> Bare {
        Bare { points: self.points[..count].to_vec(), ..*self }
    }
}

impl BareAnswer {
    pub fn write(&self, text: &mut String) {
        line(text, 'i', [self.answer.number]);
        if !matches!(self.answer.ending, Ending::Refused { .. }) {
            let start = self.start.map(|s| [u64::from(s.taken), s.centre[0], s.centre[1]]);
            line(text, 's', start.iter().flatten());
        }
        self.answer.write_unnumbered(text);
    }

    /// The last mesh, where the Rust has it too.
    fn last_mesh(&self) -> Option<&Mesh> {
        match &self.answer.ending {
            Ending::Grown(mesh) => Some(mesh),
            Ending::Inside { inserted: Insertions::Made { mesh, .. }, .. } => Some(mesh),
            _ => None,
        }
    }
}

pub fn read_bare(lines: &mut Lines) -> Read<Bare> {
    let [number] = lines.take_exactly('i')?;
    Ok(Bare { number, points: lines.take_groups('q')? })
}

pub fn read_answer(lines: &mut Lines) -> Read<BareAnswer> {
    let [number] = lines.take_exactly('i')?;
    let start = if lines.tag() == Some('r') { vec![] } else { lines.take_groups('s')? };
    let start = match start[..] {
        [] => None,
        [[taken, x, y]] => Some(Start { taken: taken as u32, centre: [x, y] }),
        _ => return Err("more than one start".to_string()),
    };
    Ok(BareAnswer { start, answer: lines.unnumbered_answer(number)? })
}

/// A list of the generator, as it is drawn or in the order in which `bulk_load` takes it.
pub fn list(seed: u64, number: u64, most: u64, taken: bool) -> Bare {
    let points = generate_bare::points(seed, number, most);
    Bare { number, points: if taken { as_taken(&points) } else { points } }
}

/// What the other answer says otherwise than the Rust's; the Rust's comes first.
pub fn bare_difference(rust: &BareAnswer, other: &BareAnswer) -> Option<String> {
    let outside = matches!(rust.answer.ending, Ending::Outside { .. });
    if !outside && rust.start != other.start {
        return Some(format!("the start: {:?} against {:?}", rust.start, other.start));
    }
    difference(&rust.answer, &other.answer)
}

/// What was compared, in numbers.
#[derive(Default)]
struct Grown {
    sweeps: Tally,
    outside: BTreeMap<u32, u64>,
    /// Lists that end on a line, with a triangle before the sweep starts, and with its start.
    ended: [u64; 3],
    /// Sweeps, by the points that the seed took: 3, 4 to 7, 8 to 15, more.
    starts: [u64; 4],
    most: u32,
    /// Points of the growing seed of fate 1 and 9, their faces and flips.
    growing: [u64; 4],
    /// Lists that were put to `bulk_load` itself.
    loaded: u64,
    disagreements: u64,
}

impl Grown {
    fn add(&mut self, list: &Bare, rust: &BareAnswer) {
        if matches!(rust.answer.ending, Ending::Outside { .. }) {
            return;
        }
        let taken = rust.start.map_or(list.points.len(), |s| s.taken as usize);
        for &[fate, _, faces, flips] in &rust.answer.fates[..taken] {
            self.growing[usize::from(fate == 9)] += 1;
            self.growing[2] += u64::from(faces);
            self.growing[3] += u64::from(flips);
        }
        if let Ending::Grown(mesh) = &rust.answer.ending {
            let kind = if mesh.faces.len() < 2 { 0 } else { 1 + usize::from(rust.start.is_some()) };
            self.ended[kind] += 1;
            return;
        }
        self.starts[match taken {
            ..=3 => 0,
            4..=7 => 1,
            8..=15 => 2,
            _ => 3,
        }] += 1;
        self.most = self.most.max(taken as u32);
        // The points of the seed are counted above.
        let mut rest = rust.answer.clone();
        rest.fates.drain(..taken);
        if let Ending::Inside { inserted: Insertions::Made { fates, .. }, .. } = &mut rest.ending {
            fates.drain(..taken);
        }
        self.sweeps.add(&rest);
    }

    fn print(&self) {
        let [line, triangle, start] = self.ended;
        let [few, some, many, most] = self.starts;
        let [added, met, faces, flips] = self.growing;
        println!(
            "lists that end while the seed grows: on a line {line}, with a triangle {triangle}, with the start {start}"
        );
        println!(
            "lists that are swept, by the points in their seed: 3 {few}, 4 to 7 {some}, 8 to 15 {many}, more {most}, at most {}",
            self.most
        );
        println!(
            "points of the growing seeds: added {added} (faces {faces}, flips {flips}), on a vertex {met}"
        );
        self.sweeps.print_inside();
        if self.loaded > 0 {
            println!("of all these put to bulk_load itself: {}", self.loaded);
        }
        outside_counts(&self.outside);
        println!("disagreements: {}", self.disagreements);
    }
}

/// A list with the Rust's answer, and with what `bulk_load` itself makes of it where it is asked.
struct Entry {
    list: Bare,
    rust: BareAnswer,
    loaded: Option<Mesh>,
}

/// The Rust, in list order and as it is.
#[derive(Default)]
pub struct Judge {
    order: Oracle,
    load: Oracle,
    /// Whether `bulk_load` itself is asked.
    taken: bool,
}

impl Judge {
    pub fn new(taken: bool) -> Judge {
        Judge { taken, ..Judge::default() }
    }

    fn entry(&mut self, list: Bare) -> Entry {
        let rust = self.order.bare(&list);
        // Outside the domain it may not return. A list that was cut may be in another order than it is taken in.
        let asked = self.taken && rust.last_mesh().is_some() && list.points == as_taken(&list.points);
        let loaded = asked.then(|| self.load.loaded(&list).unwrap_or_default());
        Entry { list, rust, loaded }
    }
}

fn entry_difference(entry: &Entry, other: Option<&BareAnswer>) -> Option<String> {
    let Some(other) = other else { return Some("no answer".to_string()) };
    let of_load = || {
        let mesh = entry.loaded.as_ref()?;
        let other = other.last_mesh()?;
        mesh_difference(mesh, other).map(|text| format!("after bulk_load: {text}"))
    };
    bare_difference(&entry.rust, other).or_else(of_load)
}

fn program_answers(program: &[String], entries: &[Entry]) -> Result<Vec<BareAnswer>, String> {
    let mut text = String::new();
    for entry in entries {
        entry.list.write(&mut text);
    }
    answers_of(program, text, read_answer)
}

/// Lists that a program gets in one run of it.
const CHUNK: u64 = 500;

/// Compares `count` generated lists. A list outside the domain is compared up to the point where it leaves it,
/// and then once more as the list of the points before.
pub fn at_scale([count, seed, most]: [u64; 3], taken: bool, program: &[String]) -> Result<bool, String> {
    let mut judge = Judge::new(taken);
    let mut tally = Grown::default();
    let mut smallest: Option<(Bare, String)> = None;
    for start in (0..count).step_by(CHUNK as usize) {
        let mut entries = Vec::new();
        for number in start..count.min(start + CHUNK) {
            let entry = judge.entry(list(seed, number, most, taken));
            if let Ending::Outside { reason, index } = entry.rust.answer.ending {
                *tally.outside.entry(reason).or_default() += 1;
                let upto = if reason == reason::REFUSED { 0 } else { index as usize };
                entries.push(judge.entry(entry.list.cut(upto.min(entry.list.points.len()))));
            }
            entries.push(entry);
        }
        let answers = program_answers(program, &entries)?;
        for (at, entry) in entries.into_iter().enumerate() {
            tally.add(&entry.list, &entry.rust);
            tally.loaded += u64::from(entry.loaded.is_some());
            let Some(text) = entry_difference(&entry, answers.get(at)) else { continue };
            tally.disagreements += 1;
            if smallest.as_ref().is_none_or(|(list, _)| entry.list.points.len() < list.points.len()) {
                smallest = Some((entry.list, text));
            }
        }
    }
    tally.print();
    if let Some(found) = smallest {
        report(&mut judge, program, found)?;
    }
    Ok(tally.disagreements == 0)
}

/// Leaves out points as long as a disagreement remains, and prints what is left.
fn report(judge: &mut Judge, program: &[String], found: (Bare, String)) -> Result<(), String> {
    let (mut list, mut words) = found;
    let mut at = list.points.len();
    while at > 0 {
        at -= 1;
        let mut fewer = list.clone();
        fewer.points.remove(at);
        if judge.taken {
            fewer.points = as_taken(&fewer.points);
        }
        let entries = [judge.entry(fewer)];
        let answers = program_answers(program, &entries)?;
        if let Some(text) = entry_difference(&entries[0], answers.first()) {
            let [entry] = entries;
            (list, words) = (entry.list, text);
            at = at.min(list.points.len());
        }
    }
    let mut text = String::new();
    list.write(&mut text);
    println!("the smallest disagreement, the Rust's answer first: {words}");
    print!("{text}");
    Ok(())
}
