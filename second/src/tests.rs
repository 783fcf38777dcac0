use crate::generate::draft::{end, plan_words, AlternativeDraft, Draft, Plan, NO_TRIGGER};
use crate::generate::random::{pair, SMALL};
use crate::generate::rng::Rng;
use crate::generate::{extreme, jobs, load, plan_end, slow};
use crate::layout::{Answer, Kind, LAST, N};
use crate::specimens::{all, with, Call, E, EMPTY_PLAN, E_SHEET, P1, P2};
use crate::words::to_bytes;
use crate::{bytes, earliest, judge, judge_sheet, open_reader, order, step, translate};
use crate::{Position, Seen};

#[test]
fn specimens_give_their_lines() {
    for specimen in all() {
        let answer = match &specimen.call {
            Call::Judge(book, plan) => judge(book, plan),
            Call::Check(book) => judge(book, &[]),
            Call::JudgeSheet(sheet, plan) => judge_sheet(sheet, plan),
            Call::Translate(sheet, room) => translate(sheet, &mut vec![0; *room]),
            Call::Earliest(book, number, times) => {
                let mut room = [7; 11];
                let answer = earliest(book, *number, &mut room);
                assert_eq!(&room[..times.len()], &times[..], "{}", specimen.name);
                assert_eq!(room[times.len()..], [7; 11][times.len()..], "{}", specimen.name);
                answer
            }
        };
        assert_eq!(answer, specimen.expected, "{}", specimen.name);
    }
}

#[test]
fn e_translates_word_for_word() {
    let mut room = vec![7; 110];
    assert_eq!(translate(&E_SHEET, &mut room), [0, 106, 4, 0]);
    let head = [1, 106, 2, 14, 4, 18, 1, 30, 4, 34, 4, 50, 8, 58];
    assert_eq!(room[..14], head);
    assert_eq!(room[14..30], E[14..30]);
    assert_eq!(room[30..34], [1, 1, 0, 4]);
    assert_eq!(room[34..50], [0, 1, 0, 2, 1, 1, 2, 2, 2, 1, 4, 2, 3, 1, 6, 2]);
    assert_eq!(room[50..58], [0, 1, 0, 1, 0, 1, 0, 1]);
    let starts = [0, 0, 0, 1, 0, 0, 1, 0, 1, 1, 1, N];
    let equals = [0, 0, 0, 1, 0, 0, 1, 0, 1, 1, 0, 0];
    let during = [0, 1, 0, 0, 1, N, 1, 0, 1, 1, 1, N];
    let finishes = [0, 1, 0, 0, 1, N, 1, 0, 1, 1, 0, 0];
    assert_eq!(room[58..106], [starts, equals, during, finishes].concat());
    assert_eq!(room[106..], [7; 4], "words past the book stay");
    assert_eq!(judge(&room[..106], &P1), [12, 0, 3, 0]);
    assert_eq!(judge(&room[..106], &P2), [0, 2, 0, 0]);

    let mut short = vec![7; 105];
    assert_eq!(translate(&E_SHEET, &mut short), [15, 106, 0, 0]);
    assert_eq!(short, [7; 105], "refused, the room stays");
}

#[test]
fn the_last_constraint_turns_fastest() {
    let mut draft = Draft::new(Kind::Sheet, vec![vec![[1, N, 1]]]);
    let tests = vec![vec![0, 1, 0b11], vec![1, 0, 1 << 1 | 1 << 12]];
    let one = AlternativeDraft { names: vec![[0, 0]], tests };
    draft.rule([0, 0], vec![one]);
    let mut room = vec![0; 200];
    let [_, written, alternatives, _] = translate(&draft.words(), &mut room);
    assert_eq!(alternatives, 4);
    let before = [1, 0, 0, 1, 1, N];
    let meets = [1, 0, 0, 1, 0, 0];
    let meets_back = [1, 1, 0, 0, 0, 0];
    let after_back = [1, 0, 0, 1, 1, N];
    let atoms = [before, meets_back, before, after_back, meets, meets_back, meets, after_back];
    assert_eq!(room[written as usize - 48..written as usize], atoms.concat());
}

#[test]
fn header_faults_name_the_first_wrong_word() {
    assert_eq!(judge(&E[..13], &P2), [1, 0, 0, 0]);
    assert_eq!(judge(&[0; 16_385], &P2), [1, 0, 0, 0]);
    for word in 0..14 {
        // The last count is only too small for the length, so word 12 stays good.
        let expected = if word == 12 { [3, 0, 0, 0] } else { [2, word as u32, 0, 0] };
        let other = if word == 12 { 1 } else { 70_000 };
        assert_eq!(judge(&with(&E, word, other), &P2), expected);
    }
    assert_eq!(judge(&with(&E, 12, 2049), &P2), [2, 12, 0, 0]);
    // A count within its limits moves the next offset.
    assert_eq!(judge(&with(&E, 2, 3), &P2), [2, 5, 0, 0]);
}

#[test]
fn record_faults() {
    let cases: [(usize, u32, Answer); 25] = [
        (14, 1, [4, 0, 0, 0]),
        (15, 0, [4, 0, 0, 1]),
        (15, 33, [4, 0, 0, 1]),
        (15, 1, [4, 0, 1, 0]),
        (17, 1, [4, 0, 2, 0]),
        (17, 3, [4, 0, 1, 1]),
        (18, 0, [4, 1, 0, 0]),
        (19, LAST + 1, [4, 1, 0, 1]),
        (19, N - 1, [4, 1, 0, 1]),
        (20, 4, [4, 1, 0, 2]),
        (28, 4, [4, 1, 3, 1]),
        (30, 2, [4, 2, 0, 0]),
        (31, 2, [4, 2, 0, 1]),
        (30, N, [4, 2, 0, 1]),
        (33, 0, [4, 2, 0, 3]),
        (35, 0, [4, 3, 1, 0]),
        (37, 33, [4, 3, 0, 3]),
        (37, 1, [4, 3, 1, 0]),
        (38, 2, [4, 4, 0, 0]),
        (39, 2, [4, 4, 0, 1]),
        (40, 3, [4, 5, 0, 1]),
        (40, 9, [4, 5, 0, 0]),
        (41, 2, [4, 5, 0, 1]),
        (50, LAST + 1, [4, 5, 1, 4]),
        (51, N - 1, [4, 5, 1, 5]),
    ];
    for (at, word, expected) in cases {
        assert_eq!(judge(&with(&E, at, word), &P2), expected, "word {at} = {word}");
    }
    let mut no_trigger = with(&E, 30, N);
    no_trigger[31] = 0;
    assert_eq!(judge(&no_trigger, &P2), [4, 5, 0, 3], "0 needs a trigger");
}

#[test]
fn left_over_records() {
    for (table, expected) in [(1, 0), (3, 2), (4, 3), (5, 3)] {
        let mut draft = Draft::new(Kind::Book, vec![vec![[1, N, 1]]]);
        draft.spare[table] = 1;
        let count = u32::from(expected == 0);
        assert_eq!(judge(&draft.words(), &[]), [4, expected, count, 0]);
    }
}

#[test]
fn plan_faults_before_the_tokens() {
    assert_eq!(judge(&E, &P2[..6]), [5, 0, 0, 0]);
    assert_eq!(judge(&E, &[0; 16_385]), [5, 0, 0, 0]);
    for word in 0..7 {
        let expected = [6, word as u32, 0, 0];
        assert_eq!(judge(&E, &with(&P2, word, 513)), expected);
    }
    assert_eq!(judge(&E, &with(&EMPTY_PLAN, 6, 1)), [7, 0, 0, 0]);
}

#[test]
fn the_first_line_that_ends_elsewhere_than_line_0() {
    let draft = Draft::new(Kind::Book, vec![vec![[1, N, 1]]; 4]);
    let answer = |ends: [u32; 4]| {
        let lines = ends.map(|end| if end == 0 { vec![] } else { vec![[0, end]] });
        judge(&draft.words(), &plan_words(&lines.into()))
    };
    assert_eq!(answer([0, 0, 0, 0]), [0, 0, 0, 0]);
    assert_eq!(answer([7, 7, 7, 7]), [0, 0, 0, 0]);
    assert_eq!(answer([7, 7, 6, 8]), [18, 2, 0, 0]);
    assert_eq!(answer([7, 7, 7, 0]), [18, 3, 0, 0]);
    assert_eq!(answer([0, 0, 7, 7]), [18, 2, 0, 0]);
    assert_eq!(answer([7, 8, 8, 8]), [18, 1, 0, 0]);
    // The last tick of every line is tested before.
    assert_eq!(answer([7, 8, 8, LAST + 1]), [11, 3, 0, 0]);
}

#[test]
fn the_sheet_has_limits_of_its_own() {
    assert_eq!(judge_sheet(&E, &P2), [2, 0, 0, 0]);
    assert_eq!(judge(&E_SHEET, &P2), [2, 0, 0, 0]);
    for (at, word) in [(40, 2), (41, 2), (42, 0), (42, 8192)] {
        let expected = [4, 5, 0, at as u32 - 40];
        assert_eq!(judge_sheet(&with(&E_SHEET, at, word), &P2), expected);
        assert_eq!(translate(&with(&E_SHEET, at, word), &mut [0; 200]), expected);
    }
    assert_eq!(judge_sheet(&with(&E_SHEET, 42, 8191), &P1), [0, 2, 0, 0]);
}

#[test]
fn sums_past_32_bits_are_refused() {
    for case in 0..20 {
        let draft = extreme::past_32_bits(&mut Rng::new(1, case));
        let one = |a: &AlternativeDraft| -> u64 {
            a.tests.iter().map(|t| u64::from(t[2].count_ones())).product()
        };
        let sum: u64 = draft.rules[0].alternatives.iter().map(one).sum();
        assert!((0..4).contains(&(sum - (1 << 32))));
        assert_eq!(translate(&draft.words(), &mut [0; 16_384]), [13, 0, 0, 0]);
    }
}

#[test]
fn largest_inputs_pass() {
    let (book, plan) = extreme::largest(Kind::Book, 1);
    assert_eq!((book.len(), plan.len()), (16_384, 16_383));
    assert_eq!(judge(&book, &plan), [0, 0, 0, 0]);
    let (_, with_jobs) = extreme::largest(Kind::Book, 2);
    assert_eq!(with_jobs.len(), 3 + 32 + 3 * 5_449);
    assert_eq!(judge(&book, &with_jobs), [0, 0, 0, 0]);
    let sheet = load::largest_sheet();
    let mut room = vec![0; 16_384];
    assert_eq!(translate(&sheet, &mut room), [0, 16_384, 888, 0]);
    assert_eq!(judge(&room, &plan), [0, 0, 0, 0]);
}

#[test]
fn what_is_measured_reaches_the_rules() {
    let by = |kind, (book, plan): (Vec<u32>, Vec<u32>)| match kind {
        Kind::Book => judge(&book, &plan),
        Kind::Sheet => judge_sheet(&book, &plan),
    };
    assert_eq!(by(Kind::Book, load::one_name()), [0, 16_384, 0, 0]);
    assert_eq!(by(Kind::Book, load::two_names()), [0, 256, 0, 0]);
    let (book, plan) = load::one_name_by_order();
    assert_eq!(order::judge_by_order(&book, &plan), [0, 16_384, 0, 0]);
    let (book, plan) = (load::largest_order_book(), load::staggered_plan());
    assert_eq!((book.len(), plan.len()), (16_384, 16_383));
    assert_eq!(order::judge_by_order(&book, &plan), [0, 0, 0, 0]);
    for (names, chained) in [(3, false), (4, false), (3, true), (4, true)] {
        assert_eq!(by(Kind::Book, load::names(names, 8, chained)), [12, 0, 0, 0]);
    }
    for kind in [Kind::Book, Kind::Sheet] {
        for one in slow::BOTH {
            let (book, plan) = (one.make)(kind, 8);
            let rules = book[6];
            assert_eq!(by(kind, (book, plan)), [0, 8 * rules, 0, 0], "{}", one.name);
        }
    }
    let answers = [[0, 8, 0, 0], [0, 8, 0, 0], [12, 0, 0, 0]];
    for ((row, one), expected) in jobs::SLOW.iter().zip(answers) {
        assert_eq!(by(Kind::Book, (one.make)(Kind::Book, 8)), expected, "row {row}");
    }
    for one in slow::SHEETS {
        assert_eq!(by(Kind::Sheet, (one.make)(Kind::Sheet, 8)), [12, 0, 0, 0], "{}", one.name);
    }
}

#[test]
fn bytes_out_of_bounds_are_no_words() {
    let (book, plan) = (to_bytes(&E), to_bytes(&P2));
    assert_eq!(bytes::judge(&book, &plan), [0, 2, 0, 0]);
    assert_eq!(bytes::judge(&book[1..], &plan), [1, 0, 0, 0]);
    assert_eq!(bytes::judge(&book, &plan[1..]), [5, 0, 0, 0]);
    assert_eq!(bytes::judge(&vec![0; 65_540], &plan), [1, 0, 0, 0]);
    assert_eq!(bytes::judge(&book, &vec![0; 65_540]), [5, 0, 0, 0]);
}

#[test]
fn a_reader_hands_out_the_line_and_then_no_more() {
    assert_eq!(open_reader(&E, &P2, 2), ([17, 0, 0, 0], N, 0));
    assert_eq!(open_reader(&E, &P2[..6], 2), ([5, 0, 0, 0], N, 0));
    assert_eq!(open_reader(&E, &with(&P2, 14, 5), 2), ([18, 1, 0, 0], N, 0), "18 before 17");
    assert_eq!(open_reader(&E, &P2, 1), ([0, 0, 0, 0], 0, 0));
    let mut at = Position { line: 1, token: 0, start: 0 };
    for (value, start, end) in [(0, 0, 10), (1, 10, 30), (0, 30, 40), (1, 40, 50)] {
        let (seen, next) = step(&P2, at).expect("a token");
        assert_eq!(seen, Seen { value, start, end, job: 0 });
        assert_eq!(next, Position { line: 1, token: at.token + 1, start: end });
        at = next;
    }
    assert_eq!(step(&P2, at), None);
}

#[test]
fn a_step_takes_any_words_and_any_position() {
    let at = |line, token, start| Position { line, token, start };
    assert_eq!(step(&[], at(0, 0, 0)), None);
    assert_eq!(step(&[0, 0, N], at(N - 1, 0, 0)), None);
    assert_eq!(step(&P2, at(2, 0, 0)), None);
    assert_eq!(step(&P2, at(0, N, 0)), None);
    assert_eq!(step(&P2, at(0, 0, N)), None);
    assert_eq!(step(&P2, at(0, 0, LAST - 9)), None);
    assert!(step(&P2, at(0, 0, LAST - 10)).is_some());
    assert_eq!(step(&P2[..8], at(0, 0, 0)), None, "half a token");
    // In 32 bits first and token would come to 0.
    assert_eq!(step(&[0, 0, 1, N, N, 4, 5], at(0, 1, 0)), None);
    assert!(step(&[0, 0, 1, 0, N, 4, 5], at(0, 0, 0)).is_some());
}

/// All tests at the end of each choice, and every choice tried.
fn slow_answer(draft: &Draft, plan: &Plan) -> Answer {
    let ends: Vec<u32> = plan.lines.iter().map(|line| end(line)).collect();
    if let Some(line) = (1..ends.len()).find(|&line| ends[line] != ends[0]) {
        return [18, line as u32, 0, 0];
    }
    let mut examined = 0;
    let tokens = |name: [u32; 2]| -> Vec<[i64; 4]> {
        let mut start = 0;
        let mut out = Vec::new();
        let line = name[0] as usize;
        for (i, token) in plan.lines[line].iter().enumerate() {
            let end = start + i64::from(token[1]);
            if token[0] == name[1] {
                out.push([start, end, i64::from(plan.job(line, i)), i as i64]);
            }
            start = end;
        }
        out
    };
    for (number, rule) in draft.rules.iter().enumerate() {
        let triggers = match rule.trigger {
            NO_TRIGGER => vec![[0; 4]],
            trigger => tokens(trigger),
        };
        for trigger in triggers {
            let met = rule.alternatives.iter().any(|a| {
                let mut choices = vec![vec![trigger]];
                for &name in &a.names {
                    let longer = |c: &Vec<[i64; 4]>| {
                        let one = |t| [c.clone(), vec![t]].concat();
                        tokens(name).into_iter().map(one).collect::<Vec<_>>()
                    };
                    choices = choices.iter().flat_map(longer).collect();
                }
                choices.iter().any(|c| a.tests.iter().all(|t| slow_test(t, c, ends[0])))
            });
            if !met {
                return [12, number as u32, trigger[3] as u32, 0];
            }
            examined += 1;
        }
    }
    [0, examined, 0, 0]
}

/// A choice has start, end, job and number of the trigger and of each name.
fn slow_test(test: &[u32], chosen: &[[i64; 4]], plan_end: u32) -> bool {
    let job = |argument: u32| chosen[argument as usize][2];
    if test[0] == 4 {
        return job(test[1]) == job(test[3]);
    }
    let time = |kind: u32, argument: u32| match kind {
        2 => i64::from(argument),
        3 => i64::from(plan_end),
        _ => chosen[argument as usize][kind as usize],
    };
    let difference = time(test[2], test[3]) - time(test[0], test[1]);
    difference >= i64::from(test[4]) && (test[5] == N || difference <= i64::from(test[5]))
}

#[test]
fn the_search_agrees_with_trying_everything() {
    let [mut met, mut apart] = [0; 2];
    for case in 0..3_000 {
        let mut rng = Rng::new(5, case);
        let (draft, plan) = pair(&mut rng, Kind::Book, SMALL);
        let answer = judge(&draft.words(), &plan.words());
        assert_eq!(answer, slow_answer(&draft, &plan), "case {case}");
        met += u32::from(answer[0] == 0 && answer[1] > 0);
        apart += u32::from(answer[0] == 18);
    }
    assert!(met > 300, "{met} were met");
    assert!((100..500).contains(&apart), "{apart} had lines that end apart");
}

#[test]
fn the_end_of_the_plan_decides() {
    let [mut met, mut failed] = [0; 2];
    for case in 0..3_000 {
        let (draft, lines) = plan_end::case(&mut Rng::new(8, case));
        let answer = judge(&draft.words(), &plan_words(&lines));
        let plan = Plan { lines: lines.clone(), jobs: None };
        assert_eq!(answer, slow_answer(&draft, &plan), "case {case}");
        let free = judge(&plan_end::without(&draft).words(), &plan_words(&lines));
        met += u32::from(answer[0] == 0 && answer[1] > 0);
        failed += u32::from(answer[0] == 12 && free[0] == 0);
    }
    assert!(met > 300 && failed > 300, "{met} were met, {failed} failed by the end");
}

#[test]
fn jobs_decide() {
    let [mut met, mut failed] = [0; 2];
    for case in 0..3_000 {
        let (draft, plan) = jobs::case(&mut Rng::new(9, case));
        let answer = judge(&draft.words(), &plan.words());
        assert_eq!(answer, slow_answer(&draft, &plan), "case {case}");
        let free = judge(&jobs::without(&draft).words(), &plan.words());
        met += u32::from(answer[0] == 0 && answer[1] > 0);
        failed += u32::from(answer[0] == 12 && free[0] == 0);
    }
    assert!(met > 300 && failed > 300, "{met} were met, {failed} failed by a job");
}

#[test]
fn a_translated_sheet_judges_as_the_sheet_does() {
    let mut done = 0;
    for case in 0..3_000 {
        let mut rng = Rng::new(6, case);
        let (draft, plan) = pair(&mut rng, Kind::Sheet, SMALL);
        let (sheet, plan) = (draft.words(), plan.words());
        let mut room = vec![0; 16_384];
        let answer = translate(&sheet, &mut room);
        if answer[0] == 0 {
            let book = &room[..answer[1] as usize];
            assert_eq!(judge(book, &plan), judge_sheet(&sheet, &plan), "case {case}");
            done += 1;
        }
    }
    assert!(done > 300, "{done} were translated");
}
