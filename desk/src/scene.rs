//! A plan's tokens in time.

use crate::model::{Place, Plan};

/// A token with its times.
#[derive(Clone, Copy, Debug, PartialEq, Eq)]
pub struct Stretch {
    pub timeline: usize,
    pub token: usize,
    pub value: u32,
    pub job: u32,
    pub start: u64,
    pub end: u64,
}

#[derive(Clone, Debug, Default)]
pub struct Scene {
    pub lines: Vec<Vec<Stretch>>,
    /// Where the last line ends.
    pub end: u64,
}

impl Scene {
    pub fn new(plan: &Plan) -> Scene {
        let mut scene = Scene::default();
        for (timeline, tokens) in plan.lines.iter().enumerate() {
            let mut end = 0;
            let mut line = Vec::new();
            for (token, t) in tokens.iter().enumerate() {
                let start = end;
                end += u64::from(t.duration);
                line.push(Stretch { timeline, token, value: t.value, job: t.job, start, end });
            }
            scene.end = scene.end.max(end);
            scene.lines.push(line);
        }
        scene
    }

    pub fn get(&self, timeline: u32, token: u32) -> Option<Stretch> {
        self.lines.get(timeline as usize)?.get(token as usize).copied()
    }

    /// The tokens of a value, in time order.
    pub fn of(&self, place: Place) -> Vec<Stretch> {
        let line = self.lines.get(place.timeline).map_or(&[][..], Vec::as_slice);
        line.iter().filter(|s| s.value as usize == place.value).copied().collect()
    }

    pub fn line_end(&self, timeline: usize) -> u64 {
        self.lines.get(timeline).and_then(|l| l.last()).map_or(0, |s| s.end)
    }
}
