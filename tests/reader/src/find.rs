//! The search for a bit name (request C-14): an entry's length and last byte are compared ahead of the rest. The list is
//! gone through entry by entry, apart from the table by which the handler and the normaliser look up names.

use super::box_check::is_list;
use super::text::BIT_NAME;

/// Told as the bit of a name that no entry equals.
pub const NOT_FOUND: u32 = u32::MAX;

/// The number (0, or 1 where the list breaks a rule), the bit that has the name, and how many entries were compared
/// further than in length and last byte.
pub fn find(names: &[u8], name: &[u8]) -> (u32, u32, u64) {
    if !is_list(names) {
        return (1, 0, 0);
    }
    let (found, compared) = search(names, name);
    (0, found, compared)
}

/// Goes through the entries up to the one that equals the name.
fn search(names: &[u8], name: &[u8]) -> (u32, u64) {
    let mut compared = 0;
    for (bit, entry) in names.chunks_exact(BIT_NAME).enumerate() {
        let held = held(entry);
        if agree(held, name) {
            compared += 1;
            if held == name {
                return (bit as u32, compared);
            }
        }
    }
    (NOT_FOUND, compared)
}

/// Whether a name has an entry's length and its last byte; with an empty name, or one that begins with a NUL, nothing
/// agrees.
fn agree(held: &[u8], name: &[u8]) -> bool {
    if matches!(name, [] | [0, ..]) {
        return false;
    }
    let lengths_agree = held.len() == name.len();
    let last_bytes_agree = held.last() == name.last();
    lengths_agree && last_bytes_agree
}

/// An entry's bytes before its NULs.
fn held(entry: &[u8]) -> &[u8] {
    let length = entry.iter().position(|byte| *byte == 0).unwrap_or(entry.len());
    &entry[..length]
}
