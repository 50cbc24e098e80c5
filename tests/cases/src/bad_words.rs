//! Damage to what well-formed attributes say: 14 to 24.

use super::bad_strsets;
use super::bitsets::{BITS, BIT_INDEX, BIT_NAME, MASK, NOMASK, SIZE, VALUE};
use super::boxes::Model;
use super::names;
use super::requests::{list_of, Request, BITSET, HEADER, PORT_FLAGS, PORT_INDEX, PORT_NAME};
use super::rng::Rng;
use super::strsets::STRSET_GET;
use super::tree::{inside_last, last, Attribute};
use super::wanted;

/// One damage to the port header, or to the bitset or name lists of a request.
pub fn damage(rng: &mut Rng, request: &mut Request, model: &Model) {
    let list = &model.lists[list_of(request.command())];
    if rng.per_mille(400) {
        if let Some(header) = inside_last(&mut request.attributes, HEADER) {
            damage_header(rng, header, model);
        }
    } else if request.command() == STRSET_GET {
        bad_strsets::damage(rng, &mut request.attributes);
    } else if let Some(bitset) = inside_last(&mut request.attributes, BITSET) {
        damage_bitset(rng, bitset, list);
    }
}

/// Writes the payload of a type's last attribute, or adds the attribute.
fn put(rng: &mut Rng, parts: &mut Vec<Attribute>, new: Attribute) {
    match last(parts, new.plain_kind()) {
        Some(old) => *old = new,
        None => parts.insert(rng.below(parts.len() + 1), new),
    }
}

fn damage_header(rng: &mut Rng, header: &mut Vec<Attribute>, model: &Model) {
    match rng.below(5) {
        0 => {
            let flags = rng.pick(&[4, 5, 7, 8, 0x100, 0x8000_0000, 0xFFFF_FFFC, u32::MAX]);
            put(rng, header, Attribute::number(PORT_FLAGS, flags));
        }
        1 => {
            let index = other_index(rng, model);
            put(rng, header, Attribute::number(PORT_INDEX, index));
        }
        2 | 3 => {
            let name = other_name(rng, model);
            put(rng, header, Attribute::name(PORT_NAME, &name));
        }
        _ => header.retain(|part| part.plain_kind() == PORT_FLAGS),
    }
}

/// An index of no port, or of another one.
fn other_index(rng: &mut Rng, model: &Model) -> u32 {
    let index = model.ports[rng.below(model.ports.len())].index;
    match rng.below(4) {
        0 => rng.pick(&[0, u32::MAX, 0x8000_0000, 0x7FFF_FFFF]),
        1 => index | 0x8000_0000,
        2 => index.wrapping_add(1),
        _ => index,
    }
}

/// A name of no port, or of another one; near misses and the empty name too.
fn other_name(rng: &mut Rng, model: &Model) -> Vec<u8> {
    let known: Vec<Vec<u8>> = model.ports.iter().map(|port| port.name.clone()).collect();
    match rng.below(4) {
        0 => Vec::new(),
        1 => known[rng.below(known.len())].clone(),
        _ => names::any(rng, &known, 15),
    }
}

/// One damage to a bitset's contents.
pub fn damage_bitset(rng: &mut Rng, bitset: &mut Vec<Attribute>, list: &[Vec<u8>]) {
    let is_list = last(bitset, BITS).is_some();
    match (rng.below(6), is_list) {
        (0, _) => mixed(rng, bitset),
        (1, _) => extreme_size(rng, bitset, list.len()),
        (2, false) => short_bitmap(rng, bitset),
        (_, false) => bit_past_n(rng, bitset, list.len()),
        (_, true) => damage_list(rng, bitset, list),
    }
}

/// Forms mixed: an attribute of the other form, or NOMASK added or taken out; now and then something lacks too.
fn mixed(rng: &mut Rng, bitset: &mut Vec<Attribute>) {
    if rng.per_mille(150) {
        let lacking = rng.pick(&[SIZE, SIZE, VALUE, MASK]);
        bitset.retain(|part| part.plain_kind() != lacking);
    }
    match rng.below(5) {
        0 => put(rng, bitset, Attribute::leaf(NOMASK, &[])),
        1 => put(rng, bitset, Attribute::nest(BITS, Vec::new())),
        2 => bitset.retain(|part| part.plain_kind() != NOMASK),
        other => {
            let words = rng.below(3);
            let kind = if other == 3 { VALUE } else { MASK };
            let bytes: Vec<u8> = (0..words).flat_map(|_| rng.word().to_le_bytes()).collect();
            put(rng, bitset, Attribute::leaf(kind, &bytes));
        }
    }
}

/// SIZE at the far edges: where 31 more no longer fits in 32 bits, and where bitmaps don't reach.
fn extreme_size(rng: &mut Rng, bitset: &mut Vec<Attribute>, bits: usize) {
    let sizes = [u32::MAX, 0xFFFF_FFE1, 0xFFFF_FFE0, 0x8000_0000, 0x7FFF_FFFF, 0x1_0000, bits as u32 + 32, 0, 1, 33];
    let size = rng.pick(&sizes);
    put(rng, bitset, Attribute::number(SIZE, size));
}

fn short_bitmap(rng: &mut Rng, bitset: &mut [Attribute]) {
    let kind = rng.pick(&[VALUE, MASK]);
    let cut = rng.pick(&[1, 2, 3, 4, 4, 5, 8]);
    if let Some(payload) = last(bitset, kind).and_then(Attribute::payload) {
        payload.truncate(payload.len().saturating_sub(cut));
    }
}

/// A bitmap with a bit somewhere from N on, and a SIZE that may reach it.
fn bit_past_n(rng: &mut Rng, bitset: &mut Vec<Attribute>, bits: usize) {
    let bit = bits + rng.pick(&[0, 0, 1, 7, 31, 32, 33, 64]);
    let size = bit + rng.pick(&[0, 1, 1, 2, 32]);
    let kind = rng.pick(&[VALUE, MASK]);
    for part in bitset.iter_mut() {
        let plain_kind = part.plain_kind();
        if let (VALUE | MASK, Some(payload)) = (plain_kind, part.payload()) {
            payload.resize(payload.len().max(4 * size.div_ceil(32)).max(bit / 8 + 1), 0);
            clear_from(payload, bits);
            if plain_kind == kind {
                payload[bit / 8] |= 1 << (bit % 8);
            }
        }
    }
    put(rng, bitset, Attribute::number(SIZE, size as u32));
}

fn clear_from(payload: &mut [u8], bits: usize) {
    for bit in bits..8 * payload.len() {
        payload[bit / 8] &= !(1 << (bit % 8));
    }
}

/// One BIT that says something wrong.
fn damage_list(rng: &mut Rng, bitset: &mut [Attribute], list: &[Vec<u8>]) {
    let Some(entries) = inside_last(bitset, BITS) else {
        return;
    };
    if entries.is_empty() {
        entries.push(super::bitsets::bit(rng, list));
    }
    let chosen = rng.below(entries.len());
    let Some(parts) = entries[chosen].inside() else {
        return;
    };
    match rng.below(9) {
        0 => {
            let index = index_past_n(rng, list.len());
            put(rng, parts, Attribute::number(BIT_INDEX, index));
        }
        1 => parts.retain(|part| !matches!(part.plain_kind(), BIT_INDEX | BIT_NAME)),
        2 | 3 => {
            parts.retain(|part| part.plain_kind() != BIT_INDEX);
            let name = if rng.per_mille(300) { Vec::new() } else { wanted::unknown(rng, list) };
            put(rng, parts, Attribute::name(BIT_NAME, &name));
        }
        _ => index_beside_name(rng, parts, list),
    }
}

fn index_past_n(rng: &mut Rng, bits: usize) -> u32 {
    let index = bits as u32 + rng.pick(&[0, 0, 1, 24, 31, 32]);
    rng.pick(&[index, index, 512, 0x8000_0000, u32::MAX])
}

/// INDEX, now and then past N, beside NAME: mostly of another bit, else unknown or empty.
fn index_beside_name(rng: &mut Rng, parts: &mut Vec<Attribute>, list: &[Vec<u8>]) {
    let named: Vec<&Vec<u8>> = list.iter().filter(|name| !name.is_empty()).collect();
    let name = match rng.below(5) {
        0 => Vec::new(),
        1..4 if !named.is_empty() => rng.pick(&named).clone(),
        _ => wanted::unknown(rng, list),
    };
    let index = if rng.per_mille(330) { index_past_n(rng, list.len()) } else { rng.below(list.len()) as u32 };
    put(rng, parts, Attribute::number(BIT_INDEX, index));
    put(rng, parts, Attribute::name(BIT_NAME, &name));
}
