//! Damage to what a request for name lists says (request C-13): 24, 10 to 13 in its lists, and things that look wrong
//! and aren't.

use super::rng::Rng;
use super::strsets::{self, CLASSES, COUNTS_ONLY, FLAGS, ID, STRINGSETS};
use super::tree::{inside_last, last, Attribute, Body, NESTED};

/// One damage to COUNTS_ONLY, to the lists, to the list that counts, or to the sets in it.
pub fn damage(rng: &mut Rng, attributes: &mut Vec<Attribute>) {
    match rng.below(10) {
        0 => attributes.insert(rng.below(attributes.len() + 1), bad_counts_only(rng)),
        1 => attributes.insert(rng.below(attributes.len() + 1), another_list(rng)),
        2 => beside_the_sets(rng, attributes),
        _ => sets(rng, attributes),
    }
}

/// COUNTS_ONLY with a payload or a type bit.
fn bad_counts_only(rng: &mut Rng) -> Attribute {
    match rng.below(4) {
        0 => Attribute::leaf(COUNTS_ONLY, &[1]),
        1 => Attribute::number(COUNTS_ONLY, 0),
        2 => Attribute::nest(COUNTS_ONLY, Vec::new()),
        _ => Attribute::leaf(COUNTS_ONLY | 0x4000, &[]),
    }
}

/// One more STRINGSETS: empty, of ids that are offered or not, broken.
fn another_list(rng: &mut Rng) -> Attribute {
    match rng.below(5) {
        0 => strsets::list(&[]),
        1 => strsets::list(&[CLASSES]),
        2 => strsets::list(&[FLAGS, CLASSES]),
        3 => strsets::list(&[CLASSES, other_id(rng)]),
        _ => Attribute { body: Body::Nest(Vec::new(), vec![0; 3]), ..strsets::list(&[]) },
    }
}

/// Something in the list that is no STRINGSET, behind the sets or among them.
fn beside_the_sets(rng: &mut Rng, attributes: &mut Vec<Attribute>) {
    let new = match rng.below(5) {
        0 => Attribute::nest(rng.pick(&[0, 2, 3]), Vec::new()),
        1 => Attribute::number(2, FLAGS),
        2 => Attribute::number(ID, CLASSES),
        3 => Attribute { kind: 0xC001, ..strsets::set(CLASSES) },
        _ => return stray_in_list(rng, attributes),
    };
    let sets = sets_of(attributes);
    sets.insert(rng.within(sets.len() / 2, sets.len()), new);
}

/// One to three bytes behind the sets.
fn stray_in_list(rng: &mut Rng, attributes: &mut [Attribute]) {
    let length = rng.within(1, 3);
    if let Some(Attribute { body: Body::Nest(_, stray), .. }) = last(attributes, STRINGSETS) {
        *stray = vec![0; length];
    }
}

/// The sets of the list that counts, which is added where none stands.
fn sets_of(attributes: &mut Vec<Attribute>) -> &mut Vec<Attribute> {
    if inside_last(attributes, STRINGSETS).is_none() {
        attributes.push(strsets::list(&[]));
    }
    inside_last(attributes, STRINGSETS).expect("a list was added")
}

/// One or two sets that say something wrong, in the place of others or among them.
fn sets(rng: &mut Rng, attributes: &mut Vec<Attribute>) {
    let sets = sets_of(attributes);
    for _ in 0..rng.within(1, 2) {
        let place = rng.below(sets.len() + 1);
        if place == sets.len() || rng.per_mille(300) {
            sets.insert(place, strsets::set(CLASSES));
        }
        damage_set(rng, &mut sets[place]);
    }
}

/// A set with another id, with none, with two, or with something behind a good one.
fn damage_set(rng: &mut Rng, set: &mut Attribute) {
    let Body::Nest(parts, stray) = &mut set.body else {
        return;
    };
    match rng.below(13) {
        0..4 => *parts = vec![Attribute::number(ID, other_id(rng))],
        4 | 5 => *parts = vec![Attribute::number(ID, FLAGS)],
        6 => parts.clear(),
        7 | 8 => {
            let id = rng.pick(&[FLAGS, CLASSES, CLASSES, 77]);
            parts.insert(rng.below(parts.len() + 1), Attribute::number(ID, id));
        }
        9 => *stray = vec![0; rng.within(1, 3)],
        10 => parts.push(unlisted(rng)),
        _ => parts.push(bad_id(rng)),
    }
}

/// An id that isn't offered, often a neighbour, or one that is in its low bits.
fn other_id(rng: &mut Rng) -> u32 {
    rng.pick(&[0, 1, 3, 9, 11, 11, 20, 77, 258, 266, 0x1_0002, 0x1_000A, 0x0200_0000, 0x8000_000A, u32::MAX])
}

/// COUNT, STRINGS or another attribute that a request's STRINGSET hasn't got.
fn unlisted(rng: &mut Rng) -> Attribute {
    match rng.below(4) {
        0 => Attribute::number(2, 5),
        1 => Attribute::nest(3, Vec::new()),
        2 => Attribute::leaf(0, &[]),
        _ => Attribute::leaf(4, &[]),
    }
}

/// An id of another length, or with a type bit.
fn bad_id(rng: &mut Rng) -> Attribute {
    let length = rng.pick(&[0, 1, 3, 5, 8]);
    match rng.below(4) {
        0 => Attribute { kind: ID | NESTED, ..Attribute::number(ID, CLASSES) },
        1 => Attribute { kind: ID | 0x4000, ..Attribute::number(ID, CLASSES) },
        _ => Attribute::leaf(ID, &vec![2; length]),
    }
}
