//! A plan as events in time order, and back. Writing sorts all starts and ends;
//! reading follows the tokens that run on each line and asks of every word that
//! it is what the writer would have put there.

use crate::decode::{decode, Book};
use crate::layout::Answer;
use crate::plan::{tokens, width};
use crate::search::Atom;

mod specimens;
pub use specimens::{reading, writing, Reading, Writing, L};

/// Where a start or end stands in a list: by time, then by line, then end before
/// start.
#[derive(Clone, Copy, PartialEq, Eq, PartialOrd, Ord)]
struct Place {
    time: u64,
    line: usize,
    start: bool,
}

/// A token's words without the duration.
#[derive(Clone, Copy, PartialEq, Eq)]
struct Token {
    value: u32,
    job: u32,
}

/// The list of a plan that was found good.
fn list_of(plan: &[u32]) -> Vec<u32> {
    let edition = plan[0];
    let width = width(edition).expect("a good plan");
    let lines = plan[2] as usize;
    let mut left = plan[3 + 2 * lines..].chunks_exact(width);
    let mut actions: Vec<(Place, Token)> = Vec::new();
    for line in 0..lines {
        let mut time = 0;
        for record in left.by_ref().take(plan[4 + 2 * line] as usize) {
            let token = Token { value: record[0], job: record.get(2).copied().unwrap_or(0) };
            actions.push((Place { time, line, start: true }, token));
            time += u64::from(record[1]);
            actions.push((Place { time, line, start: false }, token));
        }
    }
    actions.sort_by_key(|(place, _)| *place);

    let mut out = vec![edition, 0, 0];
    let mut before = 0;
    for event in actions.chunk_by(|a, b| a.0.time == b.0.time) {
        let time = event[0].0.time;
        out.extend([(time - before) as u32, event.len() as u32]);
        for (place, token) in event {
            out.extend([place.line as u32, token.value, u32::from(place.start)]);
            out.extend((width == 3).then_some(token.job));
        }
        before = time;
        out[2] += 1;
    }
    out[1] = out.len() as u32;
    out
}

/// Puts the words at the start of the room, or answers how many they are.
fn put(words: &[u32], room: &mut [u32]) -> Answer {
    let needed = words.len() as u32;
    match room.get_mut(..words.len()) {
        None => [21, needed, 0, 0],
        Some(place) => {
            place.copy_from_slice(words);
            [0, needed, 0, 0]
        }
    }
}

/// Writes the list of a plan into the room.
pub fn write_events(book: &[u32], plan: &[u32], room: &mut [u32]) -> Answer {
    let listed = || -> Result<Vec<u32>, Answer> {
        let book: Book<Atom> = decode(book)?;
        tokens(&book, plan)?;
        Ok(list_of(plan))
    };
    match listed() {
        Ok(list) => put(&list, room),
        Err(fault) => fault,
    }
}

/// What was read of a line so far.
#[derive(Clone, Default)]
struct Line {
    /// The words of the tokens that have ended.
    words: Vec<u32>,
    tokens: u32,
    running: Option<Token>,
    /// When the running token started, or the last one ended.
    since: u64,
}

impl Line {
    /// Nothing where the action isn't one that the writer could put here.
    fn act(&mut self, start: bool, token: Token, time: u64, edition: u32) -> Option<()> {
        match (start, self.running) {
            // A token starts where the one before it ended, the first at 0.
            (true, None) if self.since == time => self.running = Some(token),
            (false, Some(running)) if running == token => {
                let duration = u32::try_from(time - self.since).ok()?;
                self.words.extend([token.value, duration]);
                self.words.extend((edition == 2).then_some(token.job));
                self.tokens += 1;
                self.running = None;
                self.since = time;
            }
            _ => return None,
        }
        Some(())
    }
}

/// Takes the words of a list one by one.
struct Reader<'a> {
    left: std::slice::Iter<'a, u32>,
}

impl Reader<'_> {
    fn word(&mut self) -> Option<u32> {
        self.left.next().copied()
    }
}

/// The words of the plan that a list stands for, if it has the form of one. They
/// may still be too many, or no good plan.
fn plan_of(list: &[u32], lines: usize) -> Option<Vec<u32>> {
    let mut reader = Reader { left: list.iter() };
    let (edition, total, events) = (reader.word()?, reader.word()?, reader.word()?);
    width(edition)?;
    if total as usize != list.len() {
        return None;
    }
    let mut read = vec![Line::default(); lines];
    let mut time = 0;
    for event in 0..events {
        let (delay, actions) = (reader.word()?, reader.word()?);
        if (delay == 0) != (event == 0) || actions == 0 {
            return None;
        }
        time += u64::from(delay);
        let mut before = None;
        for _ in 0..actions {
            let (line, value, kind) = (reader.word()?, reader.word()?, reader.word()?);
            let job = if edition == 2 { reader.word()? } else { 0 };
            let place = Place { time, line: line as usize, start: kind == 1 };
            if kind > 1 || before >= Some(place) {
                return None;
            }
            before = Some(place);
            read.get_mut(place.line)?.act(place.start, Token { value, job }, time, edition)?;
        }
    }
    if reader.word().is_some() || read.iter().any(|line| line.running.is_some()) {
        return None;
    }
    let mut out = vec![edition, 0, lines as u32];
    let mut first = 0;
    for line in &read {
        out.extend([first, line.tokens]);
        first += line.tokens;
    }
    out.extend(read.iter().flat_map(|line| &line.words));
    out[1] = out.len() as u32;
    Some(out)
}

/// Writes the plan of a list into the room.
pub fn read_events(book: &[u32], list: &[u32], room: &mut [u32]) -> Answer {
    let book: Book<Atom> = match decode(book) {
        Ok(book) => book,
        Err(fault) => return fault,
    };
    let plan = plan_of(list, book.variables.len());
    // Only good plans are written.
    match plan.filter(|plan| tokens(&book, plan).is_ok()) {
        None => [20, 0, 0, 0],
        Some(plan) => put(&plan, room),
    }
}

#[cfg(test)]
mod tests {
    use super::*;
    use crate::generate::random::{pair, SMALL};
    use crate::generate::rng::Rng;
    use crate::generate::{damage, events};
    use crate::layout::Kind;

    #[test]
    fn specimens_give_their_words() {
        for s in writing() {
            let mut room = s.room.clone();
            assert_eq!(write_events(&s.book, &s.plan, &mut room), s.answer, "{}", s.name);
            assert_eq!(room, s.after, "{}", s.name);
        }
        for s in reading() {
            let mut room = s.room.clone();
            assert_eq!(read_events(&s.book, &s.list, &mut room), s.answer, "{}", s.name);
            assert_eq!(room, s.after, "{}", s.name);
        }
    }

    fn written(book: &[u32], plan: &[u32]) -> (Answer, Vec<u32>) {
        let mut room = vec![9; 70_000];
        let answer = write_events(book, plan, &mut room);
        room.truncate(answer[1] as usize);
        (answer, room)
    }

    fn read(book: &[u32], list: &[u32]) -> (Answer, Vec<u32>) {
        let mut room = vec![9; 20_000];
        let answer = read_events(book, list, &mut room);
        room.truncate(answer[1] as usize);
        (answer, room)
    }

    #[test]
    fn writing_then_reading_and_reading_then_writing() {
        let [mut done, mut refused, mut other] = [0; 3];
        for case in 0..3_000 {
            let mut rng = Rng::new(19, case);
            let (draft, plan) = pair(&mut rng, Kind::Book, SMALL);
            let (book, plan) = (draft.words(), plan.words());
            let (answer, list) = written(&book, &plan);
            if answer[0] != 0 {
                continue;
            }
            assert_eq!(read(&book, &list), ([0, plan.len() as u32, 0, 0], plan), "case {case}");
            done += 1;
            let mut damaged = list.clone();
            match rng.percent(50) {
                true => events::damage(&mut rng, &mut damaged),
                false => damage::words(&mut rng, &mut damaged),
            }
            let (answer, plan) = read(&book, &damaged);
            if answer[0] == 0 {
                assert_eq!(written(&book, &plan).1, damaged, "case {case}");
                other += u32::from(damaged != list);
            } else {
                assert_eq!(answer, [20, 0, 0, 0], "case {case}");
                refused += 1;
            }
        }
        assert!(done > 1_000 && refused > 500 && other > 50, "{done}, {refused}, {other}");
    }

    #[test]
    fn the_longest_lists() {
        for (edition, plan_words, list_words) in [(1, 16_383, 65_367), (2, 16_384, 54_515)] {
            let (book, plan) = events::longest(edition);
            assert_eq!(plan.len(), plan_words);
            let (answer, list) = written(&book, &plan);
            assert_eq!(answer, [0, list_words, 0, 0]);
            assert_eq!(read(&book, &list), ([0, plan_words as u32, 0, 0], plan));
        }
        // One token more on 16 lines of edition 2 is no plan, and no list.
        let (book, list) = events::too_long();
        assert_eq!(read(&book, &list).0, [20, 0, 0, 0]);
        let sister = events::without_jobs(&list);
        assert_eq!(read(&book, &sister).0[0], 0);
    }
}
