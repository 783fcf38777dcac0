//! Which part of time is drawn: all of it if that can be read, else what is around
//! the fault.

use super::Picture;
use crate::scene::Stretch;

impl Picture<'_> {
    /// From and to, the second greater. `most` tokens of a line can be read.
    pub(super) fn window(&self, most: usize) -> (u64, u64) {
        let end = self.scene.end.max(1);
        if self.from.is_some() || self.to.is_some() {
            let from = self.from.unwrap_or(0).min(end - 1);
            return (from, self.to.unwrap_or(end).clamp(from + 1, end.max(from + 1)));
        }
        let all = (0, end);
        let Some(fault) = self.told.fault.filter(|_| self.busiest(all) > most) else { return all };
        let near = self.told.nearest.iter().map(|(_, s)| *s);
        let around = hull(&fault, near);
        let first = match self.busiest(around) <= most {
            true => around,
            false => (fault.start, fault.end),
        };
        self.grown(first, most, end)
    }

    /// Tokens of the line that has most of them in this part.
    fn busiest(&self, window: (u64, u64)) -> usize {
        let lines = 0..self.scene.lines.len();
        lines.map(|line| self.visible(line, window).len()).max().unwrap_or(0)
    }

    /// Room on both sides as long as the tokens can be read. A fault that is too
    /// long for that is shown by its start.
    fn grown(&self, part: (u64, u64), most: usize, end: u64) -> (u64, u64) {
        let mut best = part;
        while self.busiest(best) > 2 * most && best.1 - best.0 > 2 {
            best.1 = best.0 + (best.1 - best.0) / 2;
        }
        let mut margin = (best.1 - best.0).div_ceil(8).max(1);
        loop {
            let wider = (best.0.saturating_sub(margin), best.1.saturating_add(margin).min(end));
            if wider == best || self.busiest(wider) > most {
                return (best.0, best.1.max(best.0 + 1));
            }
            best = wider;
            margin = margin.saturating_mul(2);
        }
    }
}

fn hull(fault: &Stretch, others: impl Iterator<Item = Stretch>) -> (u64, u64) {
    others.fold((fault.start, fault.end), |(from, to), s| (from.min(s.start), to.max(s.end)))
}
