//! Books, sheets and plans before they are words. Counts, offsets and ranges
//! come out right by themselves.

use crate::layout::{Kind, COUNTS, HEADER, MAX_WORDS, N};

#[derive(Clone, Default)]
pub struct AlternativeDraft {
    /// Variable and value.
    pub names: Vec<[u32; 2]>,
    /// The words of atoms, or of constraints.
    pub tests: Vec<Vec<u32>>,
}

#[derive(Clone)]
pub struct RuleDraft {
    pub trigger: [u32; 2],
    pub alternatives: Vec<AlternativeDraft>,
}

pub const NO_TRIGGER: [u32; 2] = [N, 0];

#[derive(Clone)]
pub struct Draft {
    pub kind: Kind,
    /// The values of each variable: least, greatest, successors.
    pub variables: Vec<Vec<[u32; 3]>>,
    pub rules: Vec<RuleDraft>,
    /// Records to add that no range takes in, by table.
    pub spare: [usize; 6],
}

impl Draft {
    pub fn new(kind: Kind, variables: Vec<Vec<[u32; 3]>>) -> Draft {
        Draft { kind, variables, rules: Vec::new(), spare: [0; 6] }
    }

    pub fn rule(&mut self, trigger: [u32; 2], alternatives: Vec<AlternativeDraft>) {
        self.rules.push(RuleDraft { trigger, alternatives });
    }

    /// Whether all counts and the total are within their limits.
    pub fn fits(&self) -> bool {
        let mut counts = self.spare;
        counts[0] += self.variables.len();
        counts[1] += self.variables.iter().map(Vec::len).sum::<usize>();
        counts[2] += self.rules.len();
        for a in self.rules.iter().flat_map(|r| &r.alternatives) {
            counts[3] += 1;
            counts[4] += a.names.len();
            counts[5] += a.tests.len();
        }
        let words: usize = counts.iter().zip(self.kind.sizes()).map(|(c, s)| c * s).sum();
        let most = COUNTS.iter().map(|c| c.1 as usize);
        HEADER + words <= MAX_WORDS && counts.iter().zip(most).all(|(c, most)| *c <= most)
    }

    fn tables(&self) -> [Vec<u32>; 6] {
        let sizes = self.kind.sizes();
        let mut t: [Vec<u32>; 6] = Default::default();
        for values in &self.variables {
            let first = t[1].len() / sizes[1];
            t[0].extend([first as u32, values.len() as u32]);
            t[1].extend(values.iter().flatten());
        }
        for rule in &self.rules {
            let first = t[3].len() / sizes[3];
            t[2].extend(rule.trigger);
            t[2].extend([first as u32, rule.alternatives.len() as u32]);
            for a in &rule.alternatives {
                let (name, test) = (t[4].len() / sizes[4], t[5].len() / sizes[5]);
                let ranges = [name, a.names.len(), test, a.tests.len()];
                t[3].extend(ranges.map(|w| w as u32));
                t[4].extend(a.names.iter().flatten());
                t[5].extend(a.tests.iter().flatten());
            }
        }
        for (table, (size, spare)) in t.iter_mut().zip(sizes.into_iter().zip(self.spare)) {
            table.resize(table.len() + size * spare, 0);
        }
        t
    }

    pub fn words(&self) -> Vec<u32> {
        let tables = self.tables();
        let total = HEADER + tables.iter().map(Vec::len).sum::<usize>();
        let mut out = vec![self.kind.edition(), total as u32];
        let mut at = HEADER;
        for (table, size) in tables.iter().zip(self.kind.sizes()) {
            out.extend([(table.len() / size) as u32, at as u32]);
            at += table.len();
        }
        out.extend(tables.into_iter().flatten());
        out
    }
}

/// An alternative from slices.
pub fn alternative(names: &[[u32; 2]], tests: &[&[u32]]) -> AlternativeDraft {
    AlternativeDraft { names: names.to_vec(), tests: tests.iter().map(|t| t.to_vec()).collect() }
}

/// The tokens of each timeline: value, duration.
pub type Lines = Vec<Vec<[u32; 2]>>;

/// When a line ends.
pub fn end(line: &[[u32; 2]]) -> u32 {
    line.iter().map(|token| token[1]).sum()
}

/// Stretches the last token of each line to where the longest line ends. A line
/// without tokens stays.
pub fn end_together(lines: &mut Lines) {
    let latest = lines.iter().map(|line| end(line)).max().unwrap_or(0);
    for line in lines {
        let missing = latest - end(line);
        if let Some(last) = line.last_mut() {
            last[1] += missing;
        }
    }
}

/// A plan of edition 1.
pub fn plan_words(lines: &Lines) -> Vec<u32> {
    let mut out = plan_head(1, lines);
    out.extend(lines.iter().flatten().flatten());
    out
}

/// A plan of edition 2; a token without a job has 0.
pub fn plan_with_jobs(lines: &Lines, jobs: &[Vec<u32>]) -> Vec<u32> {
    let mut out = plan_head(2, lines);
    for (line, jobs) in lines.iter().zip(jobs) {
        let jobs = jobs.iter().copied().chain(std::iter::repeat(0));
        out.extend(
            line.iter().zip(jobs).flat_map(|([value, duration], job)| [*value, *duration, job]),
        );
    }
    out
}

/// The words before the tokens.
fn plan_head(edition: u32, lines: &Lines) -> Vec<u32> {
    let tokens: usize = lines.iter().map(Vec::len).sum();
    let total = 3 + 2 * lines.len() + (1 + edition as usize) * tokens;
    let mut out = vec![edition, total as u32, lines.len() as u32];
    let mut first = 0;
    for line in lines {
        out.extend([first as u32, line.len() as u32]);
        first += line.len();
    }
    out
}

/// A plan of either edition.
#[derive(Clone)]
pub struct Plan {
    pub lines: Lines,
    /// The jobs of each line, in edition 2.
    pub jobs: Option<Vec<Vec<u32>>>,
}

impl Plan {
    pub fn words(&self) -> Vec<u32> {
        match &self.jobs {
            None => plan_words(&self.lines),
            Some(jobs) => plan_with_jobs(&self.lines, jobs),
        }
    }

    pub fn job(&self, line: usize, token: usize) -> u32 {
        self.jobs.as_ref().and_then(|jobs| jobs[line].get(token)).copied().unwrap_or(0)
    }
}
