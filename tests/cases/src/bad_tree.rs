//! Damage to the tree of attributes: 10, 11, 12, 13, and things that look wrong and aren't.

use super::rng::Rng;
use super::tree::{Attribute, Body, Padding, NESTED};

type Damage = fn(&mut Rng, &mut Vec<Attribute>);

const DAMAGES: [Damage; 13] = [
    nested_bit,
    network_order_bit,
    unknown_kind,
    unknown_attribute,
    short_length,
    long_length,
    length_nearby,
    stray_bytes,
    payload_resized,
    removed,
    repeated,
    swapped,
    padding,
];

/// One damage somewhere in the tree.
pub fn damage(rng: &mut Rng, attributes: &mut Vec<Attribute>) {
    rng.pick(&DAMAGES)(rng, attributes);
}

/// Some list of attributes: the top one, or one inside a nest, level by level.
fn some_list<'a>(rng: &mut Rng, attributes: &'a mut Vec<Attribute>) -> &'a mut Vec<Attribute> {
    let nests: Vec<usize> = (0..attributes.len()).filter(|at| attributes[*at].inside().is_some()).collect();
    if nests.is_empty() || rng.per_mille(250) {
        return attributes;
    }
    let chosen = rng.pick(&nests);
    match &mut attributes[chosen].body {
        Body::Nest(inside, _) => some_list(rng, inside),
        Body::Leaf(_) => unreachable!("only nests were chosen"),
    }
}

/// Some attribute, if there is one.
fn some<'a>(rng: &mut Rng, attributes: &'a mut Vec<Attribute>) -> Option<&'a mut Attribute> {
    let list = some_list(rng, attributes);
    if list.is_empty() {
        return None;
    }
    let chosen = rng.below(list.len());
    Some(&mut list[chosen])
}

fn nested_bit(rng: &mut Rng, attributes: &mut Vec<Attribute>) {
    if let Some(attribute) = some(rng, attributes) {
        attribute.kind ^= NESTED;
    }
}

fn network_order_bit(rng: &mut Rng, attributes: &mut Vec<Attribute>) {
    if let Some(attribute) = some(rng, attributes) {
        attribute.kind ^= 0x4000;
    }
}

/// A type that is listed nowhere, or elsewhere.
fn some_kind(rng: &mut Rng) -> u16 {
    let kind = match rng.below(4) {
        0 => 0,
        1 => rng.below(0x4000) as u16,
        _ => rng.within(1, 7) as u16,
    };
    kind | rng.pick(&[0, 0, NESTED, NESTED, 0x4000, 0xC000])
}

fn unknown_kind(rng: &mut Rng, attributes: &mut Vec<Attribute>) {
    let kind = some_kind(rng);
    if let Some(attribute) = some(rng, attributes) {
        attribute.kind = kind;
    }
}

fn unknown_attribute(rng: &mut Rng, attributes: &mut Vec<Attribute>) {
    let length = rng.pick(&[0, 0, 1, 4, 4, 7, 16]);
    let new = Attribute::leaf(some_kind(rng), &rng.bytes(length));
    let list = some_list(rng, attributes);
    list.insert(rng.below(list.len() + 1), new);
}

fn short_length(rng: &mut Rng, attributes: &mut Vec<Attribute>) {
    let stated = rng.below(4) as u16;
    if let Some(attribute) = some(rng, attributes) {
        attribute.stated = Some(stated);
    }
}

fn long_length(rng: &mut Rng, attributes: &mut Vec<Attribute>) {
    let stated = rng.pick(&[0xFFFF, 0x8000, 0x7FFC, 1000, 200]);
    if let Some(attribute) = some(rng, attributes) {
        attribute.stated = Some(stated);
    }
}

/// A length that is a little off: the neighbours are read at the wrong place, or the nest ends elsewhere.
fn length_nearby(rng: &mut Rng, attributes: &mut Vec<Attribute>) {
    let off = rng.pick(&[-8i16, -4, -3, -2, -1, 1, 2, 3, 4, 8]);
    if let Some(attribute) = some(rng, attributes) {
        let mut bytes = Vec::new();
        super::tree::write_all(std::slice::from_ref(attribute), &mut bytes);
        let true_length = u16::from_le_bytes([bytes[0], bytes[1]]);
        attribute.stated = Some(true_length.wrapping_add_signed(off));
    }
}

/// 1 to 3 bytes, or a few more, after the attributes of a nest.
fn stray_bytes(rng: &mut Rng, attributes: &mut Vec<Attribute>) {
    let length = rng.pick(&[1, 2, 3, 3, 4, 5]);
    let bytes = if rng.coin() { vec![0; length] } else { rng.bytes(length) };
    for _ in 0..4 {
        if let Some(Attribute { body: Body::Nest(_, stray), .. }) = some(rng, attributes) {
            *stray = bytes;
            return;
        }
    }
}

/// A leaf's payload made longer, shorter, empty, or other than its NULs want it.
fn payload_resized(rng: &mut Rng, attributes: &mut Vec<Attribute>) {
    let how = rng.below(7);
    let length = rng.pick(&[0, 1, 3, 5, 8, 15, 16, 17, 31, 32, 33, 34]);
    let Some(payload) = some(rng, attributes).and_then(Attribute::payload) else {
        return;
    };
    match how {
        0 => payload.push(0),
        1 => payload.push(b'x'),
        2 => drop(payload.pop()),
        3 => payload.clear(),
        // a name of one NUL, often too long for its place
        4 => {
            payload.retain(|byte| *byte != 0);
            payload.resize(length, b'y');
            payload.push(0);
        }
        5 => payload.resize(length, b'z'),
        _ => {
            let place = rng.below(payload.len() + 1);
            payload.insert(place, 0);
        }
    }
}

fn removed(rng: &mut Rng, attributes: &mut Vec<Attribute>) {
    let list = some_list(rng, attributes);
    if !list.is_empty() {
        list.remove(rng.below(list.len()));
    }
}

/// An attribute twice: the same again, or with other contents, before or after.
fn repeated(rng: &mut Rng, attributes: &mut Vec<Attribute>) {
    let list = some_list(rng, attributes);
    if list.is_empty() {
        return;
    }
    let mut copy = vec![list[rng.below(list.len())].clone()];
    if rng.coin() {
        damage(rng, &mut copy);
    }
    if let Some(payload) = copy.first_mut().and_then(Attribute::payload) {
        match rng.below(3) {
            0 => payload.iter_mut().for_each(|byte| *byte = 0),
            1 if !payload.is_empty() => payload[0] ^= 1,
            _ => {}
        }
    }
    let place = rng.below(list.len() + 1);
    list.splice(place..place, copy);
}

fn swapped(rng: &mut Rng, attributes: &mut Vec<Attribute>) {
    let list = some_list(rng, attributes);
    if list.len() > 1 {
        let (one, other) = (rng.below(list.len()), rng.below(list.len()));
        list.swap(one, other);
    }
}

/// Padding that isn't zero, or isn't there.
fn padding(rng: &mut Rng, attributes: &mut Vec<Attribute>) {
    let padding = match rng.coin() {
        true => Padding::Absent,
        false => Padding::Filled(rng.next() as u8),
    };
    let list = some_list(rng, attributes);
    match list.last_mut() {
        Some(last) if rng.coin() => last.padding = padding,
        _ => list.iter_mut().for_each(|attribute| attribute.padding = padding),
    }
}
