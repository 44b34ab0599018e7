//! The fixed list of the oracle's answers, and 01's listing as far as the Rust has it.

use std::collections::{BTreeMap, BTreeSet};
use std::fmt::Write;

use crate::case::{reason, Answer, Case, Ending, Insertions};
use crate::driver::{boundary_angles, built, is_strict, Watch};
use crate::mesh::{Mesh, Position, RANGE};
use crate::smallest::{has_left_corner, has_unsettled_edge};
use crate::worker::Oracle;
use crate::{generate, Point2};

/// How many entries the list has.
pub const ENTRIES: usize = 300;

/// The seed of the generator for the list, and how many of its inputs of either kind the list is chosen
/// from.
const SEED: u64 = 1;
const POOL: u64 = 6000;
const FILLING_POOL: u64 = 3000;

/// The bytes that an entry of the pool may have when it is the first to show a feature, and otherwise. The
/// list as a whole goes into a reader's buffer of 524,288 bytes.
const LONGEST: [usize; 2] = [20_000, 6_000];

const REMARK: &str =
    "# answers of the Rust of spade 2.15.1, made by `oracle list`; the format is in oracle/FORMAT.md\n";

fn given(corners: [Position; 3], centre: [f64; 2], points: &[Position]) -> Case {
    Case { number: 0, seed: Mesh::triangle(corners), centre, points: points.to_vec() }
}

/// Inputs of the papers: 01's sample listing and its M5, then no points, a boundary that turns straight
/// back, a second convexity pass, a ring that is sound and not strict, a search that goes round for ever,
/// fans with a flip for each of their triangles.
fn from_the_papers() -> Vec<Case> {
    vec![
        given([[0, 0], [4, 0], [0, 4]], [1.0, 1.0], &[[4, 4], [2, 2], [4, 4], [1, 1]]),
        given([[0, 0], [4, 0], [2, 1]], [2.0, 0.5], &[[2, -1]]),
        given([[0, 0], [4, 0], [0, 4]], [1.0, 1.0], &[]),
        given([[-6, 4], [0, -6], [6, 4]], [6.0, -5.0], &[[6, 0], [12, -2], [6, 4]]),
        given([[-3, 3], [6, -6], [-3, 9]], [0.0, 2.0], &[[-18, 12], [-9, 6]]),
        given([[-1, 0], [1, -1], [0, 0]], [-0.5, 0.0], &[[1, 0], [3, 5]]),
        generate::going_round(),
        generate::fan(8),
        generate::fan(16),
    ]
}

/// Inputs of the generator's seed 5, with up to 40 points, that tell orders apart which few inputs tell:
/// those of the pending edges in the two walks, those of the pushes in `legalize_edges_after_removal`, and
/// a walk that ends at a point on the line. `mutations.sh` has the alterations that they notice.
const TELLING: [u64; 18] = [
    13074, 4230, 11178, 16345, 19612, 7255, 10623, 13613, 17831, 7328, 6233, 15217, 17169, 18662, 17199,
    15715, 8522, 9673,
];

/// The same for the insertions: the legalization in the first walk of `insert_outside_of_convex_hull`.
const TELLING_FILLING: [u64; 1] = [8264];

/// Few points in most of the pool, many in some.
fn most_points(number: u64) -> u64 {
    match number % 100 {
        0 => 200,
        1..=9 => 80,
        10..=49 => 30,
        _ => 12,
    }
}

/// A case with its answer, cut before the first point that is outside the domain.
pub fn entry(oracle: &mut Oracle, case: Case) -> Option<(Case, Answer)> {
    let answer = oracle.answer(&case);
    entry_of(oracle, case, answer)
}

fn entry_of(oracle: &mut Oracle, mut case: Case, mut answer: Answer) -> Option<(Case, Answer)> {
    if let Ending::Outside { index, .. } = answer.ending {
        case = case.cut((index as usize).min(case.points.len()));
        answer = oracle.answer(&case);
    }
    matches!(answer.ending, Ending::Inside { .. }).then_some((case, answer))
}

/// A number told exactly while it is small, and roughly beyond.
fn rough(number: usize) -> usize {
    match number {
        0..=4 => number,
        5..=6 => 5,
        7..=9 => 7,
        10..=19 => 10,
        _ => 20,
    }
}

/// What an entry shows. The list has some entries for each feature that is met at all.
fn features(case: &Case, answer: &Answer) -> Vec<String> {
    let Ending::Inside { stepped, pass, passed, inserted } = &answer.ending else { return Vec::new() };
    let most = |at: usize| answer.fates.iter().map(|f| f[at] as usize).max().unwrap_or(0);
    let with_fate = |fate: u32| answer.fates.iter().filter(|f| f[0] == fate).count();
    let [x, y] = case.centre;
    let angles = boundary_angles(&built(stepped), Point2::new(x, y));
    let greatest = passed.positions.iter().flatten().map(|n| n.unsigned_abs()).max().unwrap_or(0);
    let mut places = stepped.positions.clone();
    places.sort_unstable();
    places.dedup();
    let gaps = angles.iter().zip(angles.iter().cycle().skip(1)).map(|(a, b)| (b - a).rem_euclid(1.0));
    let mut features = vec![
        format!("flips {}", rough(most(3))),
        format!("faces {}", rough(most(2))),
        format!("pass faces {}", rough(pass[0] as usize)),
        format!("pass flips {}", rough(pass[1] as usize)),
        format!("boundary {}", rough(angles.len())),
        format!("seed faces {}", rough(case.seed.faces.len() - 1)),
        format!("dropped {}", rough(with_fate(2))),
        format!("skipped {}", rough(with_fate(3))),
        format!("coordinates of {} bits", greatest.ilog2().max(1) / 4 * 4),
    ];
    let mut note = |holds: bool, feature: &str| features.extend(holds.then(|| feature.to_string()));
    note(!is_strict(&angles), "equal neighbouring angles");
    note(angles.contains(&0.0), "an angle of 0.0");
    note(angles.contains(&1.0), "an angle of 1.0");
    note(gaps.fold(0.0, f64::max) > 0.5, "the centre outside");
    note([x, y].iter().any(|c| c.fract() != 0.0), "the centre not whole");
    note(places.len() < stepped.positions.len(), "two vertices at one position");
    for end in [-RANGE, RANGE] {
        for at in 0..2 {
            let ends = case.points.iter().any(|p| p[at] == end);
            note(ends, &format!("coordinate {at} of a point is {end}"));
        }
    }
    note(has_left_corner(passed), "a second pass");
    note(has_unsettled_edge(passed), "an unsettled edge");
    features.extend(insertion_features(&answer.fates, inserted));
    features
}

fn insertion_features(steps: &[[u32; 4]], inserted: &Insertions) -> Vec<String> {
    let Insertions::Made { fates, mesh } = inserted else {
        let skipped = steps.iter().any(|f| f[0] == 3);
        return vec![format!("{inserted:?}, skipped points {skipped}")];
    };
    let mut features = Vec::new();
    for &[fate, vertex, faces, flips] in fates.iter().filter(|f| f[0] >= 6) {
        let [vertex, faces, flips] = [vertex, faces, flips].map(|n| rough(n as usize));
        features.push(format!("fate {fate}, faces {faces}"));
        features.push(format!("fate {fate}, flips {flips}"));
        if fate == 9 {
            features.push(format!("on vertex {vertex}"));
        }
    }
    features.sort_unstable();
    features.dedup();
    let changed = fates.iter().zip(steps).any(|(a, b)| a != b);
    features.extend((changed && has_unsettled_edge(mesh)).then(|| "unsettled after insertions".to_string()));
    features
}

/// From the pool, for each feature from the rarest on, the smallest entries that have it.
fn chosen(pool: Vec<(Case, Answer)>, wanted: usize) -> Vec<(Case, Answer)> {
    let mut having: BTreeMap<String, Vec<usize>> = BTreeMap::new();
    for (at, (case, answer)) in pool.iter().enumerate() {
        for feature in features(case, answer) {
            having.entry(feature).or_default().push(at);
        }
    }
    let lengths: Vec<usize> = pool.iter().map(|(case, answer)| text_of(case, answer).len()).collect();
    let mut having: Vec<Vec<usize>> = having.into_values().collect();
    for entries in &mut having {
        // The smallest with some points or none alike: an entry that adds nothing shows little.
        let added = |fate: &[u32; 4]| [1, 6, 7, 8].contains(&fate[0]);
        let idle = |at: usize| !told(&pool[at].1).0.iter().any(added);
        entries.sort_by_key(|&at| (idle(at), lengths[at], at));
    }
    having.sort_by_key(|entries| entries.len());
    let mut taken = BTreeSet::new();
    for round in 0.. {
        for entries in &having {
            if taken.len() < wanted {
                let short = |at: &&usize| lengths[**at] <= LONGEST[round.min(1)];
                taken.extend(entries.get(round).filter(short));
            }
        }
        if taken.len() >= wanted {
            break;
        }
    }
    let mut pool: Vec<Option<(Case, Answer)>> = pool.into_iter().map(Some).collect();
    taken.into_iter().filter_map(|at: usize| pool[at].take()).collect()
}

pub fn entries() -> Vec<(Case, Answer)> {
    let mut oracle = Oracle::default();
    let telling = TELLING.into_iter().map(|number| generate::sweeping(5, number, 40));
    let filling = TELLING_FILLING.into_iter().map(|number| generate::filling(5, number, 40));
    let given = from_the_papers().into_iter().chain(telling).chain(filling);
    let mut entries: Vec<_> = given.filter_map(|case| entry(&mut oracle, case)).collect();
    let sweeping = (0..POOL).map(|number| generate::sweeping(SEED, number, most_points(number)));
    let filling = (0..FILLING_POOL).map(|number| generate::filling(SEED, number, most_points(number)));
    let pool = sweeping.chain(filling).filter_map(|case| entry(&mut oracle, case)).collect();
    entries.extend(chosen(pool, ENTRIES - entries.len()));
    for (number, (case, answer)) in (0..).zip(&mut entries) {
        case.number = number;
        answer.number = number;
    }
    entries
}

fn text_of(case: &Case, answer: &Answer) -> String {
    let mut text = String::new();
    case.write(&mut text);
    answer.write_unnumbered(&mut text);
    text
}

pub fn text() -> String {
    let entries = entries();
    let texts = entries.iter().map(|(case, answer)| text_of(case, answer));
    [REMARK.to_string()].into_iter().chain(texts).collect()
}

/// Counts the entries that the oracle answers otherwise than the list has it.
pub fn check(entries: &[(Case, Answer)]) -> Result<bool, String> {
    let mut oracle = Oracle::default();
    let [mut fates, mut links, mut changed] = [0; 3];
    for (case, stored) in entries {
        let Some(answer) = oracle.ask(case) else {
            [fates, links, changed] = [fates + 1, links + 1, changed + 1];
            continue;
        };
        fates += usize::from(answer.fates != stored.fates);
        links += usize::from(answer.ending != stored.ending);
        changed += usize::from(answer != *stored);
    }
    println!(
        "{changed} of {} entries answered otherwise ({fates} in the steps' answers, {links} in the links, the pass or the insertions)",
        entries.len()
    );
    Ok(changed == 0)
}

// The listing

fn numbers<const N: usize>(line: &str, tag: &str) -> Result<[i32; N], String> {
    let mut fields = line.split(' ');
    let numbers: Option<Vec<i32>> =
        (fields.next() == Some(tag)).then(|| fields.map(|field| field.parse().ok()).collect()).flatten();
    let numbers = numbers.and_then(|numbers| numbers.try_into().ok());
    numbers.ok_or(format!("not a line {tag}: {line}"))
}

/// The input of a listing.
pub fn listed(text: &str) -> Result<Case, String> {
    let mut lines = text.lines();
    let [ax, ay, bx, by, cx, cy] = numbers(lines.next().unwrap_or_default(), "S")?;
    let [x, y] = numbers::<2>(lines.next().unwrap_or_default(), "C")?.map(f64::from);
    let points = lines.map(|line| numbers(line, "P")).collect::<Result<Vec<_>, _>>()?;
    Ok(given([[ax, ay], [bx, by], [cx, cy]], [x, y], &points))
}

/// The boundary's doubled area.
pub fn doubled_area(mesh: &Mesh) -> i64 {
    let corner = |e: &u32| mesh.position(*e).map(i64::from);
    let boundary = mesh.boundary();
    let pairs = boundary.iter().zip(boundary.iter().cycle().skip(1));
    // Face 0 runs against the area: its edges are walked against next.
    pairs.map(|(e, next)| (corner(next), corner(e))).map(|(p, q)| p[0] * q[1] - p[1] * q[0]).sum()
}

/// The answers of a listing: the run's, or the steps' alone with the reason why there are no more.
fn told(answer: &Answer) -> (&[[u32; 4]], Option<[u32; 2]>) {
    let count = answer.fates.len() as u32;
    match &answer.ending {
        Ending::Inside { inserted: Insertions::Made { fates, .. }, .. } => (fates, None),
        Ending::Inside { inserted: Insertions::AfterPasses, .. } => {
            (&answer.fates, Some([reason::AFTER_PASSES, count]))
        }
        Ending::Inside { inserted: Insertions::SearchPanics, .. } => {
            (&answer.fates, Some([reason::SEARCH_PANICS, count]))
        }
        Ending::Outside { reason, index } => (&answer.fates, Some([*reason, *index])),
        Ending::Refused { .. } => (&[], None),
        Ending::Grown(_) => (&answer.fates, None),
    }
}

/// 01's lines `p` for the points before the first that is outside the domain, a line `x` with that
/// one's reason and index, and the line `t` of those points without its closing flips. The faces and
/// flips in it are those of the first pass. Where the insertions are outside the domain, the answers and
/// the line `t` are those without them, and `x` has the count of points.
///
/// Beyond the domain, the Rust goes on after fates 4 and 5 as it does by itself, and inserts after its
/// one pass.
pub fn listing(text: &str, beyond: bool) -> Result<String, String> {
    let mut oracle = Oracle::default();
    oracle.watch = if beyond { Watch::Nowhere } else { Watch::Centre };
    oracle.loud = beyond;
    let case = listed(text)?;
    let answer = oracle.answer(&case);
    let mut lines = String::new();
    let (fates, stopped) = told(&answer);
    for (index, [fate, vertex, faces, flips]) in fates.iter().enumerate() {
        writeln!(lines, "p {index} {fate} {vertex} {faces} {flips}").unwrap();
    }
    if let Some([reason, index]) = stopped {
        writeln!(lines, "x {reason} {index}").unwrap();
    }
    if let Some((_, answer)) = entry_of(&mut oracle, case, answer) {
        let Ending::Inside { pass: [faces, flips], passed, inserted, .. } = answer.ending else {
            unreachable!("an entry is inside the domain")
        };
        let last = if let Insertions::Made { mesh, .. } = inserted { mesh } else { passed };
        let [vertices, edges, inner] = [last.positions.len(), last.edges(), last.faces.len() - 1];
        let area = doubled_area(&last);
        writeln!(lines, "t {vertices} {edges} {inner} {area} {faces} {flips}").unwrap();
    }
    Ok(lines)
}
