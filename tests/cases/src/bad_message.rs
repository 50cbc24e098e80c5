//! Damage to a message's two headers and its length: 4 to 9, skipped.

use super::requests::{Request, ACK, DUMP};
use super::rng::Rng;

/// One damage to the message.
pub fn damage(rng: &mut Rng, request: &mut Request) {
    match rng.below(7) {
        0 => request.kind = kind(rng, request.kind),
        1 => request.flags = rng.pick(&[0, ACK, DUMP, DUMP | ACK, 0xFFFE]),
        2 => request.flags |= DUMP,
        3 => command(rng, request),
        4 => request.stated = Some(stated(rng, request)),
        5 => cut(rng, request),
        _ => request.stray = stray(rng),
    }
}

/// A type that isn't the family: a neighbour, one of netlink's own, any.
fn kind(rng: &mut Rng, family: u16) -> u16 {
    match rng.below(4) {
        0 => family.wrapping_add(1),
        1 => family ^ 0x100,
        2 => rng.pick(&[0, 1, 2, 3, 15, 16, 17]),
        _ => rng.next() as u16,
    }
}

/// A command that isn't listed, or another that is.
fn command(rng: &mut Rng, request: &mut Request) {
    let number = match rng.below(3) {
        0 => rng.pick(&[0, 2, 6, 9, 10, 12, 15, 255]),
        1 => rng.next() as u8,
        _ => rng.pick(&[1, 7, 8, 13, 14]),
    };
    if let Some(first) = request.generic.first_mut() {
        *first = number;
    }
}

/// A length that isn't the true one.
fn stated(rng: &mut Rng, request: &Request) -> u32 {
    let length = request.write().len() as u32;
    match rng.below(5) {
        0 => rng.below(16) as u32,
        1 => rng.within(16, 20) as u32,
        2 => rng.pick(&[u32::MAX, 0x8000_0000, 0x1_0000, 0xFFFF_FFFD, 32_768]),
        3 => length + rng.within(1, 5) as u32,
        _ => length.saturating_sub(rng.within(1, 9) as u32),
    }
}

/// A message that ends in or right after its generic header.
fn cut(rng: &mut Rng, request: &mut Request) {
    request.attributes.clear();
    request.generic.truncate(rng.within(0, 4));
}

/// Bytes after the last attribute.
fn stray(rng: &mut Rng) -> Vec<u8> {
    let length = rng.within(1, 5);
    rng.bytes(length)
}
