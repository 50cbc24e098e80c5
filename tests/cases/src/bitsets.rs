//! Valid bitsets in every form (document 01, "Bitsets"; request C-12).

use super::rng::Rng;
use super::tree::Attribute;

pub const NOMASK: u16 = 1;
pub const SIZE: u16 = 2;
pub const BITS: u16 = 3;
pub const VALUE: u16 = 4;
pub const MASK: u16 = 5;

pub const BIT: u16 = 1;
pub const BIT_INDEX: u16 = 1;
pub const BIT_NAME: u16 = 2;
pub const BIT_VALUE: u16 = 3;

/// The contents of a bitset for a list of names.
pub fn contents(rng: &mut Rng, list: &[Vec<u8>]) -> Vec<Attribute> {
    let mut parts = if rng.coin() { compact(rng, list.len()) } else { bit_list(rng, list) };
    if rng.per_mille(150) {
        let place = rng.below(parts.len());
        parts.rotate_left(place);
    }
    parts
}

/// SIZE of a valid compact bitset: about N, at the edges of words, small, and now and then large.
fn size(rng: &mut Rng, bits: usize) -> usize {
    match rng.below(400) {
        0 => rng.within(600, 130_000),
        1..120 => bits,
        120..160 => bits + 1,
        160..200 => bits - 1,
        200..260 => rng.pick(&[0, 0, 1, 3, 31, 32, 33, 63, 64, 65]),
        260..330 => rng.below(bits + 1),
        _ => rng.below(2 * bits + 70),
    }
}

/// A bitmap that holds SIZE bits, perhaps more words, perhaps odd bytes.
fn bitmap(rng: &mut Rng, size: usize) -> Vec<u8> {
    let words = size.div_ceil(32) + if rng.per_mille(200) { rng.within(1, 3) } else { 0 };
    let mut bytes: Vec<u8> = (0..words).flat_map(|_| rng.word().to_le_bytes()).collect();
    if rng.per_mille(100) {
        let odd = rng.within(1, 3);
        bytes.extend(rng.bytes(odd));
    }
    bytes
}

/// Clears the bits from N to SIZE.
fn clear_past(bitmap: &mut [u8], bits: usize, size: usize) {
    for bit in bits..size {
        bitmap[bit / 8] &= !(1 << (bit % 8));
    }
}

fn compact(rng: &mut Rng, bits: usize) -> Vec<Attribute> {
    let size = size(rng, bits);
    let (mut value, mut mask) = (bitmap(rng, size), bitmap(rng, size));
    let number = Attribute::number(SIZE, size as u32);
    if rng.coin() {
        clear_past(&mut value, bits, size);
        return vec![Attribute::leaf(NOMASK, &[]), number, Attribute::leaf(VALUE, &value)];
    }
    clear_past(&mut mask, bits, size);
    vec![number, Attribute::leaf(VALUE, &value), Attribute::leaf(MASK, &mask)]
}

fn bit_list(rng: &mut Rng, list: &[Vec<u8>]) -> Vec<Attribute> {
    let count = match rng.below(300) {
        0 => rng.within(100, 600),
        1..10 => rng.within(10, 60),
        _ => rng.below(7),
    };
    let entries = (0..count).map(|_| bit(rng, list)).collect();
    let mut parts = vec![Attribute::nest(BITS, entries)];
    if rng.per_mille(400) {
        parts.insert(0, Attribute::leaf(NOMASK, &[]));
    }
    if rng.per_mille(400) {
        let size = rng.pick(&[0, 1, list.len() as u32, 513, u32::MAX]);
        parts.insert(rng.below(parts.len() + 1), Attribute::number(SIZE, size));
    }
    parts
}

/// A valid BIT: by index, by name where the bit has one, by both.
pub fn bit(rng: &mut Rng, list: &[Vec<u8>]) -> Attribute {
    let number = if rng.per_mille(300) { rng.below(list.len().min(3)) } else { rng.below(list.len()) };
    let index = Attribute::number(BIT_INDEX, number as u32);
    let name = Attribute::name(BIT_NAME, &list[number]);
    let mut parts = match rng.below(4) {
        _ if list[number].is_empty() => vec![index],
        0 | 1 => vec![name],
        2 if rng.per_mille(300) => vec![name, index],
        2 => vec![index, name],
        _ => vec![index],
    };
    if rng.coin() {
        parts.insert(rng.below(parts.len() + 1), Attribute::leaf(BIT_VALUE, &[]));
    }
    Attribute::nest(BIT, parts)
}
