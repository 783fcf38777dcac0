//! The layout of book and sheet: header, tables, limits.

/// Number, a, b, c.
pub type Answer = [u32; 4];

/// The mark for no limit and for no trigger.
pub const N: u32 = u32::MAX;
/// The last tick.
pub const LAST: u32 = 1_000_000_000;
pub const MAX_WORDS: usize = 16_384;
pub const HEADER: usize = 14;

/// Fewest and most records, by table.
pub const COUNTS: [(u32, u32); 6] = [(1, 16), (1, 512), (0, 64), (0, 1024), (0, 2048), (0, 2048)];
pub const MAX_VALUES: u32 = 32;
pub const MAX_ALTERNATIVES: u32 = 64;
pub const MAX_NAMES: u32 = 4;
pub const MAX_ATOMS: u32 = 32;
pub const MAX_CONSTRAINTS: u32 = 8;
pub const MAX_TOKENS: u32 = 512;

#[derive(Clone, Copy, PartialEq, Eq)]
pub enum Kind {
    Book,
    Sheet,
}

impl Kind {
    pub fn edition(self) -> u32 {
        match self {
            Kind::Book => 1,
            Kind::Sheet => 2,
        }
    }

    /// Words per record, by table.
    pub fn sizes(self) -> [usize; 6] {
        match self {
            Kind::Book => [2, 3, 4, 4, 2, 6],
            Kind::Sheet => [2, 3, 4, 4, 2, 3],
        }
    }

    /// The most atoms or constraints of one alternative.
    pub fn most_tests(self) -> u32 {
        match self {
            Kind::Book => MAX_ATOMS,
            Kind::Sheet => MAX_CONSTRAINTS,
        }
    }
}

/// The six tables as slices, each with whole records.
pub struct Tables<'a> {
    sizes: [usize; 6],
    words: [&'a [u32]; 6],
}

impl<'a> Tables<'a> {
    pub fn words(&self, table: usize) -> &'a [u32] {
        self.words[table]
    }

    pub fn records(&self, table: usize) -> std::slice::ChunksExact<'a, u32> {
        self.words[table].chunks_exact(self.sizes[table])
    }

    pub fn count(&self, table: usize) -> usize {
        self.words[table].len() / self.sizes[table]
    }
}

/// Checks length and header, which is faults 1 to 3.
pub fn tables(words: &[u32], kind: Kind) -> Result<Tables<'_>, Answer> {
    if words.len() < HEADER || words.len() > MAX_WORDS {
        return Err([1, 0, 0, 0]);
    }
    if words[0] != kind.edition() {
        return Err([2, 0, 0, 0]);
    }
    if words[1] as usize != words.len() {
        return Err([2, 1, 0, 0]);
    }
    let sizes = kind.sizes();
    let mut at = HEADER;
    let mut bounds = [(0, 0); 6];
    for table in 0..6 {
        let word = 2 + 2 * table;
        let (fewest, most) = COUNTS[table];
        if words[word] < fewest || words[word] > most {
            return Err([2, word as u32, 0, 0]);
        }
        if words[word + 1] as usize != at {
            return Err([2, word as u32 + 1, 0, 0]);
        }
        let end = at + words[word] as usize * sizes[table];
        bounds[table] = (at, end);
        at = end;
    }
    // The ends rise, so with the last one right every slice lies inside.
    if at != words.len() {
        return Err([3, 0, 0, 0]);
    }
    Ok(Tables { sizes, words: bounds.map(|(from, to)| &words[from..to]) })
}
