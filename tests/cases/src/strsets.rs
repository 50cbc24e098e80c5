//! Requests for name lists in every valid form (request C-13): what stands beside the header nest.

use super::rng::Rng;
use super::tree::Attribute;

pub const STRSET_GET: u8 = 1;

pub const STRINGSETS: u16 = 2;
pub const COUNTS_ONLY: u16 = 3;
pub const STRINGSET: u16 = 1;
pub const ID: u16 = 1;

/// The ids offered: private flags, which need a port, and message classes.
pub const FLAGS: u32 = 2;
pub const CLASSES: u32 = 10;

/// A list of sets or none, and COUNTS_ONLY or not.
pub fn beside(rng: &mut Rng, port_named: bool) -> Vec<Attribute> {
    let mut parts = match rng.below(10) {
        0..3 => Vec::new(),
        3 => vec![list(&[])],
        _ => vec![some_list(rng, port_named)],
    };
    if rng.per_mille(250) {
        counts_only(rng, &mut parts);
    }
    parts
}

/// A list of both sets in either order, often with repeated ids.
pub fn of_both(rng: &mut Rng) -> Vec<Attribute> {
    let mut ids = rng.pick(&[[FLAGS, CLASSES], [CLASSES, FLAGS]]).to_vec();
    for _ in 0..rng.pick(&[0, 0, 1, 3]) {
        ids.insert(rng.below(ids.len() + 1), rng.pick(&[FLAGS, CLASSES]));
    }
    let mut parts = vec![list(&ids)];
    if rng.per_mille(50) {
        counts_only(rng, &mut parts);
    }
    parts
}

/// One to five sets that are offered, repeated ones among them.
fn some_list(rng: &mut Rng, port_named: bool) -> Attribute {
    let offered: &[u32] = if port_named { &[FLAGS, CLASSES] } else { &[CLASSES] };
    let count = rng.within(1, 5);
    list(&(0..count).map(|_| rng.pick(offered)).collect::<Vec<_>>())
}

/// STRINGSETS with these ids.
pub fn list(ids: &[u32]) -> Attribute {
    Attribute::nest(STRINGSETS, ids.iter().map(|id| set(*id)).collect())
}

/// A STRINGSET with an id.
pub fn set(id: u32) -> Attribute {
    Attribute::nest(STRINGSET, vec![Attribute::number(ID, id)])
}

/// Puts COUNTS_ONLY somewhere, now and then twice.
fn counts_only(rng: &mut Rng, parts: &mut Vec<Attribute>) {
    for _ in 0..rng.pick(&[1, 1, 1, 1, 2]) {
        parts.insert(rng.below(parts.len() + 1), Attribute::leaf(COUNTS_ONLY, &[]));
    }
}
