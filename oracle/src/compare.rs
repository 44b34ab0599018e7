//! Another program's answers beside the Rust's, on thousands of inputs.

use std::collections::BTreeMap;
use std::io::{Read as _, Write};
use std::process::{Command, Stdio};
use std::thread;

use crate::case::{reason, Answer, Case, Ending, Insertions, Lines, Read};
use crate::generate;
use crate::mesh::Mesh;
use crate::worker::Oracle;

/// The points of a generated input number at most this, unless the command says otherwise.
pub const MOST_POINTS: u64 = 40;

/// Inputs that the program gets in one run of it.
const CHUNK: u64 = 500;

/// The program's answers to a text of inputs, as far as it gives them in the format.
pub fn answers_of<T>(
    program: &[String],
    text: String,
    mut one: impl FnMut(&mut Lines) -> Read<T>,
) -> Result<Vec<T>, String> {
    let mut child = Command::new(&program[0])
        .args(&program[1..])
        .stdin(Stdio::piped())
        .stdout(Stdio::piped())
        .spawn()
        .map_err(|error| format!("{}: {error}", program[0]))?;
    let mut input = child.stdin.take().unwrap();
    let writer = thread::spawn(move || {
        // A program that ends early leaves the rest unanswered, which is reported below.
        let _ = input.write_all(text.as_bytes());
    });
    let mut output = String::new();
    let read = child.stdout.take().unwrap().read_to_string(&mut output);
    let _ = writer.join();
    let _ = child.wait();
    read.map_err(|error| format!("{}: {error}", program[0]))?;
    let mut lines = Lines::new(&output);
    let mut answers = Vec::new();
    while !lines.is_empty() {
        match one(&mut lines) {
            Ok(answer) => answers.push(answer),
            Err(text) => {
                eprintln!("{}: {text}", program[0]);
                break;
            }
        }
    }
    Ok(answers)
}

fn case_answers(program: &[String], cases: &[(Case, Answer)]) -> Result<Vec<Answer>, String> {
    let mut text = String::new();
    for (case, _) in cases {
        case.write(&mut text);
    }
    answers_of(program, text, |lines| lines.answer())
}

/// The first difference of two meshes, in words.
pub fn mesh_difference(rust: &Mesh, other: &Mesh) -> Option<String> {
    fn rows<T: PartialEq + std::fmt::Debug>(name: &str, a: &[T], b: &[T]) -> Option<String> {
        if a.len() != b.len() {
            return Some(format!("{name}: {} against {}", a.len(), b.len()));
        }
        let at = (0..a.len()).find(|&i| a[i] != b[i])?;
        Some(format!("{name} {at}: {:?} against {:?}", a[at], b[at]))
    }
    rows("half-edge (next prev face origin)", &rust.half_edges, &other.half_edges)
        .or_else(|| rows("out edge of vertex", &rust.out_edges, &other.out_edges))
        .or_else(|| rows("stored edge of face", &rust.faces, &other.faces))
        .or_else(|| rows("position", &rust.positions, &other.positions))
}

fn fates_difference(rust: &[[u32; 4]], other: &[[u32; 4]]) -> Option<String> {
    let at = (0..rust.len()).find(|&i| other.get(i) != Some(&rust[i]))?;
    Some(format!("point {at} (fate vertex faces flips): {:?} against {:?}", rust[at], other.get(at)))
}

fn after(when: &'static str) -> impl FnOnce(String) -> String {
    move |text| format!("{when}: {text}")
}

/// Where the Rust's insertions are outside the domain, the other side has them all the same, and the
/// answers of the points that were not skipped stay.
fn insertions_difference(steps: &[[u32; 4]], rust: &Insertions, other: &Insertions) -> Option<String> {
    match (rust, other) {
        (Insertions::Made { fates, mesh }, Insertions::Made { fates: f, mesh: m }) => {
            let extra = (fates.len() != f.len()).then(|| "more points answered".to_string());
            extra
                .or(fates_difference(fates, f).map(after("in the run")))
                .or(mesh_difference(mesh, m).map(after("after the insertions")))
        }
        (Insertions::Made { .. }, _) => Some("no insertions".to_string()),
        (_, Insertions::Made { fates, .. }) => {
            let stays =
                |(a, b): (&[u32; 4], &[u32; 4])| if a[0] < 3 { a == b } else { (6..=9).contains(&b[0]) };
            let all = steps.len() == fates.len() && steps.iter().zip(fates).all(stays);
            (!all).then(|| format!("in the run: {fates:?} after the steps' {steps:?}"))
        }
        (rust, other) => (rust != other).then(|| format!("insertions: {rust:?} against {other:?}")),
    }
}

/// What the other answer says otherwise than the Rust's; the Rust's comes first.
pub fn difference(rust: &Answer, other: &Answer) -> Option<String> {
    if rust.number != other.number {
        return Some(format!("case {} answered as {}", rust.number, other.number));
    }
    if let Ending::Refused { number, place } = other.ending {
        return Some(format!("refused {number}, place {place}"));
    }
    if let Some(text) = fates_difference(&rust.fates, &other.fates) {
        return Some(text);
    }
    match (&rust.ending, &other.ending) {
        (
            Ending::Inside { stepped, pass, passed, inserted },
            Ending::Inside { stepped: s, pass: p, passed: q, inserted: i },
        ) => {
            let extra = (rust.fates.len() != other.fates.len()).then(|| "more points answered".to_string());
            let flips = (pass != p).then(|| format!("pass (faces flips): {pass:?} against {p:?}"));
            extra
                .or(mesh_difference(stepped, s).map(after("after the last step")))
                .or(flips)
                .or(mesh_difference(passed, q).map(after("after the pass")))
                .or(insertions_difference(&rust.fates, inserted, i))
        }
        (Ending::Grown(mesh), Ending::Grown(grown)) => {
            let extra = (rust.fates.len() != other.fates.len()).then(|| "more points answered".to_string());
            extra.or(mesh_difference(mesh, grown).map(after("after the last point")))
        }
        (Ending::Outside { reason, index }, _) => outside_difference(*reason, *index, other),
        (_, ending) => Some(format!("no answer of the domain: {ending:?}")),
    }
}

/// Where the Rust panics or does not return, 01 has a fate 4 or 5.
fn outside_difference(reason: u32, index: u32, other: &Answer) -> Option<String> {
    if matches!(other.ending, Ending::Outside { .. }) {
        let same = other.ending == Ending::Outside { reason, index };
        return (!same).then(|| format!("outside for {reason} at {index} against {:?}", other.ending));
    }
    let expected: &[u32] = match reason {
        reason::STEP_PANICS | reason::STEP_RUNS_ON => &[4, 5],
        reason::AT_CENTRE => &[5],
        reason::UNSOUND => &[4],
        _ => return None,
    };
    let fate = other.fates.get(index as usize).map(|fate| fate[0]);
    let agrees = fate.is_some_and(|fate| expected.contains(&fate));
    (!agrees).then(|| format!("point {index}: outside for {reason} against fate {fate:?}"))
}

/// A disagreement with its input.
struct Disagreement {
    case: Case,
    text: String,
}

/// What was compared, in numbers.
#[derive(Default)]
pub struct Tally {
    compared: u64,
    fates: [u64; 4],
    faces: u64,
    flips: u64,
    pass: [u64; 2],
    /// Of fates 6 to 9, each with the flips.
    inserted: [[u64; 2]; 4],
    /// Inputs whose insertions are compared, that of the others a further pass would add a face, and that
    /// the Rust's search panics.
    insertions: [u64; 3],
}

impl Tally {
    pub fn add(&mut self, rust: &Answer) {
        let Ending::Inside { pass, inserted, .. } = &rust.ending else { return };
        self.compared += 1;
        for &[fate, _, faces, flips] in &rust.fates {
            self.fates[fate as usize] += 1;
            self.faces += u64::from(faces);
            self.flips += u64::from(flips);
        }
        self.pass = [self.pass[0] + u64::from(pass[0]), self.pass[1] + u64::from(pass[1])];
        self.add_insertions(inserted);
    }

    fn add_insertions(&mut self, inserted: &Insertions) {
        let Insertions::Made { fates, .. } = inserted else {
            self.insertions[if *inserted == Insertions::AfterPasses { 1 } else { 2 }] += 1;
            return;
        };
        self.insertions[0] += 1;
        for &[fate, _, _, flips] in fates.iter().filter(|f| f[0] >= 6) {
            let [count, total] = &mut self.inserted[fate as usize - 6];
            [*count, *total] = [*count + 1, *total + u64::from(flips)];
        }
    }

    pub fn print_inside(&self) {
        println!("compared inside the domain: {}", self.compared);
        println!(
            "  with points added {} (faces {}, flips {}), dropped {}, skipped {}; passes' faces {}, flips {}",
            self.fates[1], self.faces, self.flips, self.fates[2], self.fates[3], self.pass[0], self.pass[1]
        );
        let [[face, f], [edge, e], [outside, o], [vertex, _]] = self.inserted;
        let [made, after_passes, lost] = self.insertions;
        println!("  of these compared with their insertions: {made}");
        println!(
            "    into a face {face} (flips {f}), on an edge {edge} (flips {e}), outside {outside} (flips {o}), on a vertex {vertex}"
        );
        println!("  without: a further pass adds a face {after_passes}, the search panics {lost}");
    }
}

/// How many inputs are outside the domain, by the reason.
pub fn outside_counts(counts: &BTreeMap<u32, u64>) {
    let reasons = [
        "",
        "the Rust panics in a step",
        "the Rust does not return from a step",
        "a point at the centre (fate 5)",
        "no sound ring (fate 4), the Rust returns",
        "a flip for another reason",
        "refused",
        "no hull",
        "the pass fails",
        "an insertion fails",
        "a further pass adds a face",
        "the search panics",
        "the first hull is not strict",
        "the seed does not grow",
    ];
    println!("outside the domain: {}", counts.values().sum::<u64>());
    for (&reason, count) in counts {
        println!("  {}: {count}", reasons[reason as usize]);
    }
}

/// Compares `count` generated inputs. An input outside the domain is compared up to the point where it
/// leaves it, and then once more as the input of the points before.
pub fn at_scale([count, seed, most]: [u64; 3], program: &[String]) -> Result<bool, String> {
    let mut oracle = Oracle::default();
    let mut tally = Tally::default();
    let (mut outside, mut disagreements) = (BTreeMap::new(), 0);
    let mut smallest: Option<Disagreement> = None;
    for start in (0..count).step_by(CHUNK as usize) {
        let mut cases = Vec::new();
        for number in start..count.min(start + CHUNK) {
            let case = generate::case(seed, number, most);
            let answer = oracle.answer(&case);
            if let Ending::Outside { reason, index } = answer.ending {
                *outside.entry(reason).or_default() += 1;
                let cut = case.cut((index as usize).min(case.points.len()));
                let answer = oracle.answer(&cut);
                cases.push((cut, answer));
            }
            cases.push((case, answer));
        }
        let answers = case_answers(program, &cases)?;
        for (at, (case, rust)) in cases.into_iter().enumerate() {
            tally.add(&rust);
            let text = match answers.get(at) {
                Some(answer) => difference(&rust, answer),
                None => Some("no answer".to_string()),
            };
            let Some(text) = text else { continue };
            disagreements += 1;
            if smallest.as_ref().is_none_or(|d| case.size() < d.case.size()) {
                smallest = Some(Disagreement { case, text });
            }
        }
    }
    tally.print_inside();
    outside_counts(&outside);
    println!("disagreements: {disagreements}");
    if let Some(found) = smallest {
        report(&mut oracle, program, found)?;
    }
    Ok(disagreements == 0)
}

fn disagreement(oracle: &mut Oracle, program: &[String], case: Case) -> Result<Option<Disagreement>, String> {
    let rust = oracle.answer(&case);
    let cases = [(case, rust)];
    let answers = case_answers(program, &cases)?;
    let [(case, rust)] = cases;
    let text = match answers.first() {
        Some(answer) => difference(&rust, answer),
        None => Some("no answer".to_string()),
    };
    Ok(text.map(|text| Disagreement { case, text }))
}

/// Leaves out points as long as a disagreement remains, and prints what is left.
fn report(oracle: &mut Oracle, program: &[String], mut found: Disagreement) -> Result<(), String> {
    let mut at = found.case.points.len();
    while at > 0 {
        at -= 1;
        let mut fewer = found.case.clone();
        fewer.points.remove(at);
        if let Some(smaller) = disagreement(oracle, program, fewer)? {
            found = smaller;
        }
    }
    let mut text = String::new();
    found.case.write(&mut text);
    println!("the smallest disagreement, the Rust's answer first: {}", found.text);
    print!("{text}");
    Ok(())
}
