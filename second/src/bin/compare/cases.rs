//! The kinds of cases.

use crate::both::{Both, DOORS};
use crate::part::Part;
use second::generate::draft::{plan_words, AlternativeDraft, Draft, NO_TRIGGER};
use second::generate::random::{pair, Size, LARGE, MEDIUM, SMALL};
use second::generate::rng::Rng;
use second::generate::slow::{Slow, BOTH, SHEETS};
use second::generate::{damage, extreme};
use second::layout::{Kind, LAST, N};
use second::specimens::{self, Call, E, E_SHEET, P1, P2, P2_JOBS};
use second::words::{from_bytes, to_bytes};
use second::{narrow, Position};

/// What the base asks, and the requests that have no file of their own.
pub const BASE: Part = Part {
    name: "base",
    doors: &DOORS,
    specimens: |both| specimens(both) + narrowings(both),
    fixed: |both| every_place(both, 400) + busy(both),
    random,
    cases: 240_000,
};

/// The law's specimens. Both have to give the line that stands in the law.
fn specimens(both: &mut Both) -> u64 {
    let mut number = 0;
    for specimen in specimens::all() {
        both.case = format!("specimen {}", specimen.name);
        let answer = match &specimen.call {
            Call::Judge(book, plan) => both.judge(&to_bytes(book), &to_bytes(plan)),
            Call::Check(book) => both.judge(&to_bytes(book), &[]),
            Call::JudgeSheet(sheet, plan) => both.judge_sheet(&to_bytes(sheet), &to_bytes(plan)),
            Call::Translate(sheet, room) => both.translate(&to_bytes(sheet), *room).0,
            Call::Earliest(book, number, times) => {
                let (answer, room) = both.earliest(&to_bytes(book), *number, 11);
                both.expect(
                    "the times that the law expects",
                    &&room[..times.len()],
                    &&times[..],
                    &[],
                );
                answer
            }
        };
        both.specimen(specimen.name, answer, specimen.expected);
        number += 1;
    }
    number
}

/// The law's specimens of narrowing, tables and all.
fn narrowings(both: &mut Both) -> u64 {
    let list = narrow::specimens();
    for specimen in &list {
        both.case = format!("specimen {}", specimen.name);
        let sheet = to_bytes(&specimen.sheet);
        let (answer, table) = both.narrow(&sheet, specimen.alternative, specimen.room);
        let written = &table[..specimen.written.len()];
        both.expect("the table that it expects", &written, &&specimen.written[..], &[]);
        both.specimen(specimen.name, answer, specimen.answer);
    }
    list.len() as u64
}

/// Every word of some inputs in turn, replaced by every edge.
fn every_place(both: &mut Both, cases: u64) -> u64 {
    let (p1, p2) = (to_bytes(&P1), to_bytes(&P2));
    let mut number = 0;
    let mut each = |words: &[u32], ask: &mut dyn FnMut(&mut Both, &[u8])| {
        for at in 0..words.len() {
            for edge in damage::edges(words[at]) {
                both.case = format!("word {at} as {edge}");
                ask(both, &to_bytes(&specimens::with(words, at, edge)));
                number += 1;
            }
        }
    };
    each(&E, &mut |both, book| {
        both.judge(book, &p1);
        both.read(book, &p2, 1, 5);
        both.earliest(book, 0, 11);
    });
    each(&E_SHEET, &mut |both, sheet| {
        both.judge_sheet(sheet, &p2);
        both.translate(sheet, 16_384);
        both.narrow(sheet, 0, 5);
    });
    let (e, e_sheet) = (to_bytes(&E), to_bytes(&E_SHEET));
    for plan in [&P1[..], &P2[..], &P2_JOBS[..]] {
        each(plan, &mut |both, plan| {
            both.judge(&e, plan);
            both.judge_sheet(&e_sheet, plan);
            (0..3).for_each(|line| both.read(&e, plan, line, 5));
        });
    }
    // And every word of random ones, by one edge each.
    for case in 0..cases {
        let mut rng = Rng::new(77, case);
        let kind = if case % 2 == 0 { Kind::Book } else { Kind::Sheet };
        let (draft, plan) = pair(&mut rng, kind, SMALL);
        let (words, plan) = (draft.words(), plan.words());
        for at in 0..words.len() + plan.len() {
            let (mut words, mut plan) = (words.clone(), plan.clone());
            let word = words.iter_mut().chain(&mut plan).nth(at).expect("in one of the two");
            *word = damage::edge(&mut rng, *word);
            both.case = format!("every place, case {case}, word {at}");
            judge(both, kind, &to_bytes(&words), &to_bytes(&plan));
            number += 1;
        }
    }
    number
}

fn judge(both: &mut Both, kind: Kind, words: &[u8], plan: &[u8]) {
    match kind {
        Kind::Book => both.judge(words, plan),
        Kind::Sheet => both.judge_sheet(words, plan),
    };
}

/// What keeps a judge busy, on short lines.
fn busy(both: &mut Both) -> u64 {
    let mut number = 0;
    let mut each = |kind: Kind, one: &Slow| {
        for tokens in [1, 2, 3, 6] {
            both.case = format!("{}, lines of {tokens}", one.name);
            let (words, plan) = (one.make)(kind, tokens);
            judge(both, kind, &to_bytes(&words), &to_bytes(&plan));
            number += 1;
        }
    };
    BOTH.iter().for_each(|one| each(Kind::Book, one));
    BOTH.iter().chain(&SHEETS).for_each(|one| each(Kind::Sheet, one));
    number
}

/// All that can be asked of a book or sheet and a plan.
fn ask(both: &mut Both, rng: &mut Rng, kind: Kind, words: &[u8], plan: &[u8]) {
    match kind {
        Kind::Book => {
            both.judge(words, plan);
            if rng.percent(50) {
                let room = rng.pick(&[11, 11, 11, 12, 10, 5, 1, 0]);
                both.earliest(words, rng.pick(&[0, 0, 0, 1, 1, 2, 3, 5, 1023, 1024, N]), room);
            }
            if rng.percent(30) {
                let line = rng.pick(&[0, 0, 0, 1, 1, 2, 3, 15, 16, N]);
                // Each step is handed the whole plan, so long ones are mostly cut short.
                let most = if plan.len() > 4_000 && rng.percent(90) { 6 } else { 600 };
                both.read(words, plan, line, most);
            }
        }
        Kind::Sheet => {
            let direct = both.judge_sheet(words, plan);
            let (answer, book) = both.translate(words, rng.pick(&[16_384, 16_384, 20_000]));
            if answer[0] == 0 {
                // The translation has to say what the sheet says.
                let by_book = both.judge(&to_bytes(&book), plan);
                both.expect(
                    "judging the translation",
                    &by_book,
                    &direct,
                    &[("sheet", words), ("plan", plan)],
                );
            }
            if rng.percent(50) {
                narrow_some(both, rng, words);
            }
            let needed = answer[1] as usize;
            if answer[0] == 0 && rng.percent(50) {
                both.translate(words, rng.pick(&[0, 1, needed - 1, needed, needed + 1]));
            }
        }
    }
}

/// Some alternative of a sheet, mostly one that it has, and a table that is
/// mostly long enough.
fn narrow_some(both: &mut Both, rng: &mut Rng, sheet: &[u8]) {
    let count = from_bytes(sheet).get(8).copied().unwrap_or(0);
    let alternative = match rng.below(20) {
        0 => count,
        1 => rng.pick(&[count.wrapping_add(1), N, N - 1, HALF]),
        _ => rng.below(count.clamp(1, 1_024)),
    };
    both.narrow(sheet, alternative, rng.pick(&[0, 1, 3, 4, 8, 9, 15, 16, 24, 25, 25, 26, 30]));
}

/// A sheet whose alternatives have many constraints between few tokens.
fn networks(both: &mut Both, rng: &mut Rng) {
    let mut draft = Draft::new(Kind::Sheet, vec![vec![[1, N, 1]]]);
    for _ in 0..rng.from(1, 3) {
        let trigger = if rng.percent(30) { NO_TRIGGER } else { [0, 0] };
        let first = u32::from(trigger == NO_TRIGGER);
        let mut alternatives = Vec::new();
        for _ in 0..rng.from(1, 3) {
            let names = rng.from(0, 4);
            let mut tests = Vec::new();
            for _ in 0..if names < first { 0 } else { rng.from(0, 8) } {
                let mut token = || rng.from(first, names);
                let (left, right) = (token(), token());
                let few = rng.word() & rng.word() & if rng.percent(50) { rng.word() } else { N };
                let set = (few | 1 << rng.below(13)) & 8191;
                tests.push(vec![left, right, set]);
            }
            alternatives.push(AlternativeDraft { names: vec![[0, 0]; names as usize], tests });
        }
        draft.rule(trigger, alternatives);
    }
    let sheet = to_bytes(&draft.words());
    for _ in 0..4 {
        narrow_some(both, rng, &sheet);
    }
}

fn size(rng: &mut Rng) -> Size {
    match rng.below(300) {
        0 => LARGE,
        1..=20 => MEDIUM,
        _ => SMALL,
    }
}

/// One random case.
fn random(both: &mut Both, rng: &mut Rng) {
    let kind = if rng.percent(65) { Kind::Book } else { Kind::Sheet };
    match rng.below(1000) {
        0..=29 => return extremes(both, rng, kind),
        30..=89 => return steps(both, rng),
        90..=129 => return networks(both, rng),
        _ => (),
    }
    let size = size(rng);
    let (draft, plan) = pair(rng, kind, size);
    let (mut words, mut plan) = (draft.words(), plan.words());
    match rng.below(100) {
        0..=44 => (),
        45..=64 => damage::words(rng, &mut words),
        65..=84 => damage::words(rng, &mut plan),
        85..=89 => damage::stretch(rng, &mut words),
        90..=94 => damage::stretch(rng, &mut plan),
        _ => {
            damage::words(rng, &mut words);
            damage::words(rng, &mut plan);
        }
    }
    let (mut words, mut plan) = (to_bytes(&words), to_bytes(&plan));
    match rng.below(200) {
        0 => damage::bytes(rng, &mut words),
        1 => damage::bytes(rng, &mut plan),
        _ => (),
    }
    ask(both, rng, kind, &words, &plan);
}

fn extremes(both: &mut Both, rng: &mut Rng, kind: Kind) {
    let (mut words, mut plan) = match rng.below(10) {
        0 => extreme::largest(kind, rng.from(1, 2)),
        1..=4 => {
            let draft = extreme::counts(rng, kind);
            (draft.words(), extreme::long_plan(rng, &draft))
        }
        5..=6 => {
            let draft = extreme::values(rng, kind);
            (draft.words(), extreme::long_plan(rng, &draft))
        }
        _ if kind == Kind::Sheet => {
            let draft = extreme::expansion(rng);
            let lines = vec![vec![[0, 1 + rng.below(3)]; rng.index(4)]];
            (draft.words(), plan_words(&lines))
        }
        _ => {
            let draft = extreme::values(rng, kind);
            (draft.words(), extreme::long_plan(rng, &draft))
        }
    };
    match rng.below(10) {
        0 => damage::stretch(rng, &mut words),
        1 => damage::stretch(rng, &mut plan),
        2 => damage::words(rng, &mut plan),
        _ => (),
    }
    ask(both, rng, kind, &to_bytes(&words), &to_bytes(&plan));
}

const HALF: u32 = 0x8000_0000;
/// A step takes words of any edition.
const EDITIONS: [u32; 8] = [1, 1, 1, 2, 2, 0, 3, N];

/// Steps from any position on any words.
fn steps(both: &mut Both, rng: &mut Rng) {
    let (words, positions) = if rng.percent(30) { wrapping(rng) } else { any_words(rng) };
    let mut bytes = to_bytes(&words);
    if rng.percent(3) {
        damage::bytes(rng, &mut bytes);
    }
    for at in positions {
        both.step(&bytes, at);
    }
}

fn any_words(rng: &mut Rng) -> (Vec<u32>, Vec<Position>) {
    let lines = rng.pick(&[0, 1, 1, 2, 2, 3, 15, 16, HALF - 1, HALF, HALF + 1, N - 1, N]);
    let mut words = vec![rng.pick(&EDITIONS), 0, lines];
    let some = [0, 0, 0, 1, 1, 2, 3, 10, HALF - 1, HALF, N - 2, N - 1, N, LAST, LAST - 1];
    for _ in 0..rng.below(14) {
        words.push(rng.pick(&some));
    }
    words.truncate(rng.pick(&[0, 2, 3, 4, 5, 6, 7, 99, 99, 99, 99, 99]));
    let mut position = || Position {
        line: rng.pick(&[0, 0, 0, 1, 2, lines, lines.wrapping_sub(1), HALF, N]),
        token: rng.pick(&[0, 0, 0, 1, 1, 2, 3, HALF, N - 1, N]),
        start: rng.pick(&[0, 0, 0, 1, 5, LAST - 1, LAST, LAST + 1, HALF, N - 1, N]),
    };
    let positions = (0..4).map(|_| position()).collect();
    (words, positions)
}

/// Sums that come out small, and so name a token, when 32 bits are all there is.
fn wrapping(rng: &mut Rng) -> (Vec<u32>, Vec<Position>) {
    let lines = rng.pick(&[1, 1, 2, 3, HALF, HALF + 1]);
    let line = rng.below(lines.min(3));
    let duration = rng.pick(&[0, 1, 5, LAST, N, N - 4]);
    let first = rng.pick(&[0, 1, HALF, HALF + 1, N - 1, N]);
    let token = rng.below(4).wrapping_sub(rng.pick(&[0, first, first ^ HALF]));
    let mut words = vec![rng.pick(&EDITIONS), 0, lines];
    for _ in 0..3 {
        words.extend([first, rng.pick(&[N, N, token, token.wrapping_add(1)])]);
    }
    words.resize(3 + 2 * lines.min(3) as usize, 0);
    for value in 0..rng.below(6) {
        words.extend([value, duration]);
        if words[0] == 2 {
            words.push(rng.pick(&[0, 7, N]));
        }
    }
    // The last token may lack a word.
    words.truncate(words.len() - rng.pick(&[0, 0, 1]));
    let start =
        rng.pick(&[0, 0, 5, LAST, 0u32.wrapping_sub(duration), 3u32.wrapping_sub(duration)]);
    (words, vec![Position { line, token, start }])
}
