//! The search for the smallest inputs of docs/DIFFERENCES.md: small listings at random, sorted by what
//! the Rust does with them.

use std::collections::BTreeMap;
use std::fmt::Write;

use crate::case::{reason, Answer, Case, Ending, Insertions};
use crate::driver::{answer_from, Watch};
use crate::mesh::{incircle, orient, Mesh, Position};
use crate::random::Random;
use crate::worker::Oracle;

/// Points in a searched input number at most this.
const MOST_POINTS: u64 = 4;

/// Fewest points, then the least greatest coordinate, then the least sum of coordinates.
type Measure = (usize, i64, i64);

fn measure(case: &Case) -> Measure {
    let whole = case.seed.positions.iter().chain(&case.points).flatten().map(|&n| i64::from(n).abs());
    let all: Vec<i64> = whole.chain(case.centre.map(|c| c.abs() as i64)).collect();
    (case.points.len(), *all.iter().max().unwrap(), all.iter().sum())
}

fn lines(case: &Case) -> String {
    let mut text = "S".to_string();
    for number in case.seed.positions.iter().flatten() {
        write!(text, " {number}").unwrap();
    }
    write!(text, ", C {} {}", case.centre[0], case.centre[1]).unwrap();
    for [x, y] in &case.points {
        write!(text, ", P {x} {y}").unwrap();
    }
    text
}

fn small(random: &mut Random, spread: i32) -> Option<Case> {
    let mut position = || [random.between(-spread, spread), random.between(-spread, spread)];
    let [a, b, c, centre] = [(); 4].map(|()| position());
    let points: Vec<Position> = (0..MOST_POINTS).map(|_| position()).collect();
    if orient(a, b, c) <= 0 {
        return None;
    }
    let count = random.below(MOST_POINTS + 1) as usize;
    let case = Case { number: 0, seed: Mesh::triangle([a, b, c]), centre: centre.map(f64::from), points };
    Some(case.cut(count))
}

/// Whether a corner of the boundary turns left.
pub fn has_left_corner(mesh: &Mesh) -> bool {
    mesh.boundary().into_iter().any(|e| {
        let [n, m] = [mesh.next(e), mesh.next(mesh.next(e))];
        orient(mesh.position(e), mesh.position(n), mesh.position(m)) > 0
    })
}

/// Whether an edge has the far vertex of its second half strictly inside the circle of its first half.
pub fn has_unsettled_edge(mesh: &Mesh) -> bool {
    (0..mesh.half_edges.len() as u32).step_by(2).any(|e| {
        let corners = [e, mesh.next(e), mesh.prev(e), mesh.prev(e + 1)].map(|e| mesh.position(e));
        mesh.face(e) != 0 && mesh.face(e + 1) != 0 && incircle(corners) > 0
    })
}

/// Whether searches from another vertex than 0 lead to another answer, or to other links alone.
fn other_starts(case: &Case, answer: &Answer) -> Vec<&'static str> {
    let run = |answer: &Answer| match &answer.ending {
        Ending::Inside { inserted: Insertions::Made { fates, mesh }, .. } => {
            Some((fates.clone(), mesh.clone()))
        }
        _ => None,
    };
    let Some((fates, mesh)) = run(answer) else { return vec![] };
    let others = (1..mesh.positions.len()).filter_map(|hint| run(&answer_from(case, Watch::Domain, hint)));
    let others: Vec<_> = others.collect();
    let mut kinds = Vec::new();
    kinds.extend(others.iter().any(|o| o.0 != fates).then_some("another start, another answer"));
    kinds.extend(others.iter().any(|o| o.1 != mesh).then_some("another start, other links"));
    kinds
}

/// The kinds of an input, with the part of it that shows the kind.
fn kinds(case: &Case, answer: &Answer, beyond: impl FnOnce(&Case) -> Answer) -> Vec<(&'static str, Case)> {
    let upto = |index: u32| case.cut(case.points.len().min(index as usize + 1));
    match &answer.ending {
        Ending::Inside { passed, inserted, .. } => {
            let skipped = answer.fates.iter().any(|f| f[0] == 3);
            let again = has_left_corner(passed);
            let lost = *inserted == Insertions::SearchPanics;
            let mut kinds = if skipped { other_starts(case, answer) } else { vec![] };
            kinds.extend(again.then_some("a second pass adds a face"));
            kinds.extend((again && skipped).then_some("a second pass adds a face, and a point is skipped"));
            kinds.extend(has_unsettled_edge(passed).then_some("an edge is left for the closing pass"));
            kinds.extend(lost.then_some("the search goes round for ever"));
            kinds.into_iter().map(|kind| (kind, case.clone())).collect()
        }
        Ending::Outside { reason: reason::AT_CENTRE, index } => vec![("fate 5", upto(*index))],
        Ending::Outside { reason: reason::UNSOUND, index } => {
            let what = match beyond(case).ending {
                Ending::Outside { reason: reason::STEP_PANICS, .. } => "fate 4, and the Rust panics later",
                Ending::Outside { .. } => "fate 4, and the Rust does not return later",
                _ => "fate 4, and the Rust runs on",
            };
            vec![("fate 4", upto(*index)), (what, case.clone())]
        }
        Ending::Outside { reason: reason::REFUSED, index: 7 } => match beyond(case).ending {
            Ending::Outside { reason: reason::NO_HULL, .. } => {
                vec![("refusal 7, the Rust has no hull", case.cut(0))]
            }
            Ending::Outside { reason: reason::STEP_PANICS, index } => {
                vec![("refusal 7, the Rust panics", upto(index))]
            }
            Ending::Outside { index, .. } => vec![("refusal 7, the Rust does not return", upto(index))],
            _ => vec![("refusal 7, the Rust runs on", case.clone())],
        },
        Ending::Outside { reason: reason::REFUSED, .. } => vec![],
        _ => vec![("the Rust fails within the domain", case.clone())],
    }
}

/// Searches `count` inputs with coordinates up to `spread`; prints the smallest of each kind.
pub fn search([count, seed, spread]: [u64; 3]) {
    let mut random = Random::new(seed, spread);
    let mut oracle = Oracle::default();
    let mut beyond = Oracle::default();
    beyond.watch = Watch::Nowhere;
    let mut found: BTreeMap<&str, (u64, Measure, String)> = BTreeMap::new();
    for _ in 0..count {
        let Some(case) = small(&mut random, spread as i32) else { continue };
        let answer = oracle.answer(&case);
        let further = |case: &Case| {
            let mut case = case.clone();
            let centre = case.centre;
            case.points.retain(|p| p.map(f64::from) != centre);
            beyond.answer(&case)
        };
        for (kind, case) in kinds(&case, &answer, further) {
            let size = measure(&case);
            let entry = found.entry(kind).or_insert_with(|| (0, size, lines(&case)));
            entry.0 += 1;
            if size < entry.1 {
                (entry.1, entry.2) = (size, lines(&case));
            }
        }
    }
    for (kind, (times, _, text)) in found {
        println!("{kind}: met {times} times; the smallest: {text}");
    }
}
