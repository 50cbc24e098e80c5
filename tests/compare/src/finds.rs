//! Which ways a search for a bit name went (request C-14), told from its name and what it handed back.

use cases::FindCase;
use reader::NOT_FOUND;

/// The ways; one of the first four, and any of the others beside it.
pub const WAYS: [&str; 7] = [
    "found, nothing else compared",
    "found after others were compared",
    "not found, nothing compared",
    "not found, some compared",
    "an empty name",
    "a name of more than 31 bytes",
    "a name that holds a NUL",
];

/// Whether a search in a right list went each of the ways.
pub fn ways(case: &FindCase, found: u32, compared: u64) -> [bool; WAYS.len()] {
    let (hit, name) = (found != NOT_FOUND, &case.name);
    [
        hit && compared == 1,
        hit && compared > 1,
        !hit && compared == 0,
        !hit && compared > 0,
        name.is_empty(),
        name.len() > 31,
        name.contains(&0),
    ]
}
