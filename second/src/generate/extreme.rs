//! Inputs at the limits and one past them.

use super::draft::{alternative, AlternativeDraft, Draft, Lines, Plan, NO_TRIGGER};
use super::load;
use super::rng::Rng;
use crate::layout::{Kind, LAST, N};

fn plain(kind: Kind, variables: usize, values: usize) -> Draft {
    let set = ((1u64 << values.min(32)) - 1) as u32;
    Draft::new(kind, vec![vec![[1, N, set]; values]; variables])
}

/// A test that may stand anywhere that has a trigger.
fn test(kind: Kind) -> Vec<u32> {
    match kind {
        Kind::Book => vec![0, 0, 1, 0, 1, N],
        Kind::Sheet => vec![0, 0, 1 << 6],
    }
}

/// Counts at their limits, one past them, or with records left over.
pub fn counts(rng: &mut Rng, kind: Kind) -> Draft {
    let over = rng.index(2);
    let mut draft = plain(kind, 1, 1);
    let one = |names: usize, tests: usize| AlternativeDraft {
        names: vec![[0, 0]; names],
        tests: vec![test(kind); tests],
    };
    let most_tests = kind.most_tests() as usize;
    let mut rules = |number: usize, alternatives: usize, one: &AlternativeDraft| {
        for _ in 0..number {
            draft.rule([0, 0], vec![one.clone(); alternatives]);
        }
    };
    match rng.below(10) {
        0 => draft = plain(kind, 16 + over, 32),
        1 => draft = plain(kind, 1, 32 + over),
        2 => rules(64 + over, 1, &one(0, 1)),
        3 => rules(1, 64 + over, &one(1, 1)),
        4 => {
            rules(16, 64, &one(0, 0));
            rules(over, 1, &one(0, 0));
        }
        5 => rules(1, 1, &one(4 + over, 0)),
        6 => {
            rules(8, 64, &one(4, 0));
            rules(over, 1, &one(1, 0));
        }
        7 => rules(1, 1, &one(0, most_tests + over)),
        8 => {
            rules(2048 / most_tests / 4, 4, &one(0, most_tests));
            rules(over, 1, &one(0, 1));
        }
        _ => {
            rules(rng.index(3), 1, &one(1, 1));
            let table = rng.index(6);
            draft.spare[table] = 1 + rng.index(2);
        }
    }
    draft
}

/// Least, greatest and successors around their limits.
pub fn values(rng: &mut Rng, kind: Kind) -> Draft {
    let number = rng.pick(&[1, 2, 31, 32]);
    let mut draft = plain(kind, 1 + rng.index(2), number);
    let variable = rng.index(draft.variables.len());
    let least = rng.pick(&[0, 1, 2, LAST - 1, LAST, LAST + 1, N]);
    let greatest = rng.pick(&[0, 1, 2, least, least.saturating_sub(1), LAST, LAST + 1, N - 1, N]);
    let past = 1u64 << number;
    let set = rng.pick(&[0, (past - 1) as u32, past as u32, 1 << 31, N]);
    let at = rng.index(number);
    draft.variables[variable][at] = [least, greatest, set];
    let trigger = rng.pick(&[[0, 0], NO_TRIGGER, [N, 1], [0, number as u32], [2, 0], [N - 1, 0]]);
    draft.rule(trigger, vec![alternative(&[], &[&test(kind)])]);
    draft
}

/// Sets by how many relations they hold; the product is what one alternative
/// becomes. The last ones are past 64.
const SETS: [&[u32]; 16] = [
    &[8, 8],
    &[4, 4, 4],
    &[2, 2, 2, 2, 2, 2],
    &[13, 4],
    &[7, 9],
    &[1, 1, 1, 1, 1, 1, 1, 1],
    &[1, 1],
    &[13],
    &[4, 2, 1, 1],
    &[4, 4],
    &[1, 1, 1, 1, 2],
    &[],
    &[5, 13],
    &[13, 13],
    &[13; 8],
    &[12; 8],
];

/// With nine of twelve relations eight times, these alternatives of one rule
/// become 2 to the 32nd in all, which a sum in 32 bits would take for none.
const WRAPS: [[u32; 8]; 7] = [
    [12, 12, 12, 12, 12, 12, 12, 8],
    [12, 12, 12, 12, 12, 12, 8, 4],
    [12, 12, 12, 12, 12, 8, 8, 2],
    [12, 12, 12, 12, 8, 8, 8, 1],
    [8, 8, 8, 8, 8, 8, 1, 1],
    [8, 8, 8, 8, 8, 4, 1, 1],
    [8, 8, 8, 8, 8, 2, 1, 1],
];

/// A set of so many relations.
fn set(rng: &mut Rng, relations: u32) -> u32 {
    let mut set = 0u32;
    while set.count_ones() < relations {
        set |= 1 << rng.below(13);
    }
    set
}

fn constraints(rng: &mut Rng, names: u32, sizes: &[u32]) -> AlternativeDraft {
    let mut one = AlternativeDraft { names: vec![[0, 0]; names as usize], tests: Vec::new() };
    for &size in sizes {
        let (left, right) = (rng.from(0, names), rng.from(0, names));
        one.tests.push(vec![left, right, set(rng, size)]);
    }
    one
}

/// Sheets whose translation is at a limit or past one.
pub fn expansion(rng: &mut Rng) -> Draft {
    let mut draft = plain(Kind::Sheet, 1, rng.pick(&[1, 2, 32]));
    match rng.below(100) {
        0..=7 => return past_32_bits(rng),
        8..=34 => return brim(rng),
        _ => (),
    }
    let names = rng.from(0, 4);
    let kinds = if rng.percent(20) { SETS.len() } else { 12 };
    let sizes = SETS[rng.index(kinds)];
    for _ in 0..rng.pick(&[1, 2, 8, 15, 16, 17, 31, 32, 63, 64]) {
        let mut alternatives = vec![constraints(rng, names, sizes)];
        if rng.percent(5) {
            let extra = rng.pick(&SETS[5..12]);
            alternatives.push(constraints(rng, names, extra));
        }
        draft.rule([0, 0], alternatives);
    }
    draft
}

/// A sheet of one rule with 2 to the 32nd alternatives, or a few more.
pub fn past_32_bits(rng: &mut Rng) -> Draft {
    let mut draft = plain(Kind::Sheet, 1, 1);
    let mut all = vec![constraints(rng, 1, &[12; 8]); 9];
    all.extend(WRAPS.iter().map(|sizes| constraints(rng, 1, sizes)));
    let more = rng.index(4);
    all.extend(vec![constraints(rng, 1, &[1, 1]); more]);
    draft.rule([0, 0], all);
    draft
}

/// A sheet whose translation has about 16,384 words. 64 rules of all relations
/// make 14,480 words, each value 3, each further alternative 4 to 12.
fn brim(rng: &mut Rng) -> Draft {
    let target = rng.from(16_380, 16_388) as usize;
    let values = 1 + rng.index(32);
    let mut draft = plain(Kind::Sheet, 1, values);
    for _ in 0..64 {
        draft.rule([0, 0], vec![alternative(&[[0, 0]], &[&[0, 1, 8191]])]);
    }
    let mut left = target - 14_480 - 3 * values;
    let mut rule = 0;
    while left >= 4 {
        let names = ((left - 4) / 2).min(4);
        draft.rules[rule % 64].alternatives.push(alternative(&vec![[0, 0]; names], &[]));
        left -= 4 + 2 * names;
        rule += 1;
    }
    draft
}

/// Long lines for a draft of variables that follow themselves, which mostly end
/// together, at the last tick or just past it; the others end anywhere. On 16
/// lines of edition 2 there are at most 5,449 tokens; now and then one more.
pub fn long_plan(rng: &mut Rng, draft: &Draft) -> Vec<u32> {
    let mut lines: Lines = Vec::new();
    let edition_2 = rng.percent(40);
    let mut left = if edition_2 { rng.pick(&[5_449, 5_449, 5_450]) } else { 8_174 };
    let together = rng.percent(60);
    let end = rng.pick(&[LAST, LAST, LAST - 1, LAST + 1, 513]);
    let counts: &[usize] =
        if together { &[1, 2, 511, 512, 512] } else { &[0, 1, 2, 511, 512, 512, 513] };
    for values in &draft.variables {
        let count = rng.pick(counts).min(left);
        left -= count;
        let mut line = vec![[0, 0]; count];
        for token in &mut line {
            *token = [rng.index(values.len()) as u32, 1];
        }
        if let Some(last) = line.last_mut() {
            let before = count as u32 - 1;
            let exact = end - before;
            last[1] = match together {
                true => exact,
                false => rng.pick(&[1, exact, exact - 1, exact + 1, N, LAST, LAST + 1, 0]),
            };
        }
        lines.push(line);
    }
    let job = |line: &Vec<[u32; 2]>| vec![rng.pick(&[0, 1, LAST + 1, N]); line.len()];
    let jobs = edition_2.then(|| lines.iter().map(job).collect());
    Plan { lines, jobs }.words()
}

/// The largest book or sheet, with the largest plan of an edition.
pub fn largest(kind: Kind, edition: u32) -> (Vec<u32>, Vec<u32>) {
    let words = match kind {
        Kind::Book => load::largest_book(),
        Kind::Sheet => load::largest_sheet(),
    };
    match edition {
        1 => (words, load::largest_plan()),
        _ => (words, load::largest_plan_with_jobs()),
    }
}
