//! Tokens in time, and a choice of them.

/// A token in time, with its number in its line.
#[derive(Clone, Copy, Default)]
pub struct Span {
    pub start: u32,
    pub end: u32,
    pub token: u32,
    pub job: u32,
}

/// Start, end and job of the trigger and of up to four names, then a 0 for
/// tests that speak of no token, and the end of the plan.
pub struct Placed([i64; 17]);

impl Placed {
    /// Where the 0 is.
    pub const ZERO: usize = 15;
    /// Where the end of the plan is.
    pub const PLAN_END: usize = 16;

    pub fn start(token: usize) -> usize {
        3 * token
    }

    pub fn end(token: usize) -> usize {
        3 * token + 1
    }

    pub fn job(token: usize) -> usize {
        3 * token + 2
    }

    pub fn new(trigger: Span, plan_end: u32) -> Placed {
        let mut placed = Placed([0; 17]);
        placed.0[Placed::PLAN_END] = i64::from(plan_end);
        placed.put(0, trigger);
        placed
    }

    pub fn put(&mut self, token: usize, span: Span) {
        self.0[Placed::start(token)] = i64::from(span.start);
        self.0[Placed::end(token)] = i64::from(span.end);
        self.0[Placed::job(token)] = i64::from(span.job);
    }

    /// A time, or a job.
    pub fn at(&self, place: usize) -> i64 {
        self.0[place]
    }
}
