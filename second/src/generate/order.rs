//! Books that speak only of order, or nearly so, and plans that differ in their
//! times alone.

use super::draft::{Draft, Plan, NO_TRIGGER};
use super::random::{pair, MEDIUM, SMALL};
use super::rng::Rng;
use crate::layout::{Kind, LAST, N};

/// A book of the profile, or one atom away from it, and a plan. Any token may
/// last any time, so that only the order counts.
pub fn case(rng: &mut Rng) -> (Draft, Plan) {
    let size = if rng.percent(10) { MEDIUM } else { SMALL };
    let (mut draft, plan) = pair(rng, Kind::Book, size);
    for value in draft.variables.iter_mut().flatten() {
        *value = [1, N, value[2]];
    }
    for rule in &mut draft.rules {
        let first = u32::from(rule.trigger == NO_TRIGGER);
        for one in &mut rule.alternatives {
            let last = one.names.len() as u32;
            if last < first {
                one.tests.clear();
            }
            one.tests.iter_mut().for_each(|atom| to_order(rng, atom, first, last));
        }
    }
    if rng.percent(20) {
        spoil(rng, &mut draft);
    }
    (draft, plan)
}

/// The atom with a token in the place of what has a fixed time, and with bounds
/// that ask for no more than an order.
fn to_order(rng: &mut Rng, atom: &mut [u32], first: u32, last: u32) {
    if atom[0] == 4 {
        return;
    }
    for side in [0, 2] {
        if atom[side] > 1 {
            atom[side] = rng.below(2);
            atom[side + 1] = rng.from(first, last);
        }
    }
    let bounds = match (atom[4], atom[5]) {
        (0, 0) => [0, 0],
        (0, _) => [0, N],
        _ => [1, N],
    };
    atom[4..6].copy_from_slice(&bounds);
}

/// One atom that asks for more than an order, where there is an atom.
fn spoil(rng: &mut Rng, draft: &mut Draft) {
    let mut atoms: Vec<&mut Vec<u32>> = draft
        .rules
        .iter_mut()
        .flat_map(|rule| &mut rule.alternatives)
        .flat_map(|one| &mut one.tests)
        .filter(|atom| atom[0] != 4)
        .collect();
    if atoms.is_empty() {
        return;
    }
    let at = rng.index(atoms.len());
    let atom = &mut atoms[at];
    let side = 2 * rng.index(2);
    match rng.below(4) {
        0 => atom[side..side + 2].copy_from_slice(&[2, rng.pick(&[0, 1, 7, LAST])]),
        1 => atom[side..side + 2].copy_from_slice(&[3, 0]),
        _ => {
            let bounds = [[0, LAST], [1, LAST], [1, 1], [2, N], [0, 1], [0, LAST - 1], [LAST, N]];
            atom[4..6].copy_from_slice(&rng.pick(&bounds));
        }
    }
}

/// A plan of the same values and jobs whose starts and ends stand in the same
/// order at other times. Needs a plan whose times leave room.
pub fn stretched(rng: &mut Rng, plan: &Plan) -> Plan {
    let ends = |line: &Vec<[u32; 2]>| -> Vec<u32> {
        let add = |time: &mut u32, token: &[u32; 2]| {
            *time += token[1];
            Some(*time)
        };
        line.iter().scan(0, add).collect()
    };
    let mut times: Vec<u32> = plan.lines.iter().flat_map(ends).collect();
    times.sort_unstable();
    times.dedup();
    let mut now = 0;
    let mut later = |_: &u32| {
        now += rng.pick(&[1, 1, 1, 2, 9, 1_000]);
        now
    };
    let moved: Vec<u32> = times.iter().map(&mut later).collect();
    let to = |time: u32| times.binary_search(&time).map_or(0, |at| moved[at]);
    let mut out = plan.clone();
    for line in &mut out.lines {
        let ends = ends(line);
        let mut start = 0;
        for (token, end) in line.iter_mut().zip(ends) {
            token[1] = to(end) - start;
            start = to(end);
        }
    }
    out
}
