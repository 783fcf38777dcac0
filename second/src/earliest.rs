//! The earliest times of an alternative, by raising times from 0 until nothing
//! asks for more. Where a time is still raised after as many rounds as there
//! are times, or the constant 0 would be, no day could meet the alternative.

use crate::decode::decode;
use crate::layout::{tables, Answer, Kind, N};
use crate::search::Atom;

/// Time `to` is at least `least` after time `from`; `least` may be negative.
struct Edge {
    from: usize,
    to: usize,
    least: i64,
}

/// The constant 0 is the first time, then start and end of each token, then
/// the plan's end.
struct Net {
    times: usize,
    edges: Vec<Edge>,
}

impl Net {
    fn plan_end(&self) -> usize {
        self.times - 1
    }

    /// The right time is within lower..upper after the left one; what is added
    /// to each is a time point's tick.
    fn between(&mut self, left: (usize, i64), right: (usize, i64), lower: u32, upper: u32) {
        let moved = left.1 - right.1;
        self.edges.push(Edge { from: left.0, to: right.0, least: i64::from(lower) + moved });
        if upper != N {
            let least = -(i64::from(upper) + moved);
            self.edges.push(Edge { from: right.0, to: left.0, least });
        }
    }

    fn solve(&self) -> Option<Vec<u64>> {
        let mut times = vec![0i64; self.times];
        for _ in 0..=self.times {
            let mut raised = false;
            for edge in &self.edges {
                let asked = times[edge.from] + edge.least;
                if times[edge.to] < asked {
                    times[edge.to] = asked;
                    raised = true;
                }
            }
            if times[0] > 0 {
                return None;
            }
            if !raised {
                return Some(times[1..].iter().map(|&t| t as u64).collect());
            }
        }
        None
    }
}

/// Yes is 0 1 0 with the times at the start of `room`, no is 0 0 0.
pub fn earliest(words: &[u32], alternative: u32, room: &mut [u64]) -> Answer {
    let book = match decode::<Atom>(words) {
        Ok(book) => book,
        Err(fault) => return fault,
    };
    let number = alternative as usize;
    let Some(own) = book.alternatives.get(number) else {
        return [27, 0, 0, 0];
    };
    let rule = book.rules.iter().find(|r| r.alternatives.contains(&number));
    let trigger = rule.expect("the ranges use all of the table").trigger;
    let values: Vec<usize> =
        trigger.into_iter().chain(book.names[own.names.clone()].iter().copied()).collect();
    let mut net = Net { times: 2 + 2 * values.len(), edges: Vec::new() };
    let end = net.plan_end();
    for (token, &value) in values.iter().enumerate() {
        let value = &book.values[value];
        net.between((2 * token + 1, 0), (2 * token + 2, 0), value.least, value.greatest);
        net.between((2 * token + 2, 0), (end, 0), 0, N);
    }
    // An argument counts from the trigger, which may not be there.
    let skipped = usize::from(trigger.is_none());
    let term = |kind: u32, argument: u32| match kind {
        2 => (0, i64::from(argument)),
        3 => (end, 0),
        _ => (2 * (argument as usize - skipped) + 1 + kind as usize, 0),
    };
    let records = tables(words, Kind::Book).expect("it was decoded");
    for r in records.records(5).skip(own.tests.start).take(own.tests.len()) {
        // Jobs say nothing of times.
        if r[0] != 4 {
            net.between(term(r[0], r[1]), term(r[2], r[3]), r[4], r[5]);
        }
    }
    match net.solve() {
        None => [0, 0, 0, 0],
        Some(times) => {
            room.iter_mut().zip(times).for_each(|(place, time)| *place = time);
            [0, 1, 0, 0]
        }
    }
}
