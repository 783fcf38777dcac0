//! Allen's thirteen relations.

/// Names as a text has them, by number.
pub const NAMES: [&str; 13] = [
    "before",
    "meets",
    "overlaps",
    "finished by",
    "contains",
    "starts",
    "equals",
    "started by",
    "during",
    "finishes",
    "overlapped by",
    "met by",
    "after",
];

/// Every relation.
pub const ALL: u32 = 8_191;

/// A relation as the verb of a sentence: "is before", "meets".
pub fn verb(relation: usize) -> String {
    let name = NAMES.get(relation).copied().unwrap_or_default();
    match relation {
        0 | 3 | 7 | 8 | 10 | 11 | 12 => format!("is {name}"),
        _ => name.to_string(),
    }
}

pub fn members(set: u32) -> impl Iterator<Item = usize> {
    (0..NAMES.len()).filter(move |relation| set >> relation & 1 == 1)
}

/// The same relations seen from the other token.
pub fn converse(set: u32) -> u32 {
    members(set).fold(0, |all, relation| all | 1 << (12 - relation))
}

/// What a relation asks of start and end of left (0, 1) and right (2, 3): `Less`
/// than or `Same` as.
#[derive(Clone, Copy)]
pub enum Order {
    Less(usize, usize),
    Same(usize, usize),
}

use Order::{Less, Same};

pub const ORDERS: [&[Order]; 13] = [
    &[Less(1, 2)],
    &[Same(1, 2)],
    &[Less(0, 2), Less(2, 1), Less(1, 3)],
    &[Less(0, 2), Same(1, 3)],
    &[Less(0, 2), Less(3, 1)],
    &[Same(0, 2), Less(1, 3)],
    &[Same(0, 2), Same(1, 3)],
    &[Same(0, 2), Less(3, 1)],
    &[Less(2, 0), Less(1, 3)],
    &[Less(2, 0), Same(1, 3)],
    &[Less(2, 0), Less(0, 3), Less(3, 1)],
    &[Same(3, 0)],
    &[Less(3, 0)],
];
