//! Messages put into a datagram, and damage to it: 3, 4, end.

use super::boxes::Model;
use super::requests::Request;
use super::rng::Rng;

/// Longest datagram that is read.
const LONGEST: usize = 32_768;

/// A datagram and a position in it.
pub struct Datagram {
    pub bytes: Vec<u8>,
    pub position: u64,
}

/// A datagram with this message at the position, often with others before and after it.
pub fn around(rng: &mut Rng, message: &[u8], model: &Model) -> Datagram {
    let mut bytes = before(rng, model);
    let position = bytes.len() as u64;
    bytes.extend(message);
    match rng.below(6) {
        0 => bytes.resize(bytes.len().next_multiple_of(4), 0),
        1 => {
            let length = rng.within(1, 40);
            bytes.extend(rng.bytes(length));
        }
        2 => {
            bytes.resize(bytes.len().next_multiple_of(4), rng.next() as u8);
            bytes.extend(Request::new(rng, model).write());
        }
        _ => {}
    }
    Datagram { bytes, position }
}

/// What stands before the message: nothing, another message with its padding, or bytes that put it at any place.
fn before(rng: &mut Rng, model: &Model) -> Vec<u8> {
    match rng.below(8) {
        0 => {
            let mut bytes = Request::new(rng, model).write();
            bytes.resize(bytes.len().next_multiple_of(4), 0);
            bytes
        }
        1 | 2 => {
            let length = rng.within(1, 21);
            rng.bytes(length)
        }
        _ => Vec::new(),
    }
}

/// One damage to the datagram or the position.
pub fn damage(rng: &mut Rng, datagram: &mut Datagram) {
    let length = datagram.bytes.len();
    match rng.below(8) {
        0 => datagram.bytes.truncate(rng.below(length + 1)),
        1 => datagram.bytes.truncate(length.saturating_sub(rng.within(1, 4))),
        2 => datagram.position = length as u64,
        3 => datagram.position = past(rng, length),
        4 => datagram.position = length.saturating_sub(rng.within(1, 20)) as u64,
        5 => noise(rng, &mut datagram.bytes),
        6 => datagram.position = datagram.position.saturating_sub(rng.within(1, 5) as u64),
        _ if rng.per_mille(200) => long(rng, datagram),
        _ => noise(rng, &mut datagram.bytes),
    }
}

/// A position past the end, in the low or only in the high bits.
fn past(rng: &mut Rng, length: usize) -> u64 {
    let length = length as u64;
    rng.pick(&[length + 1, length + 4, length + 100, 1 << 32, length + (1 << 32), u64::MAX, 1 << 63])
}

/// Some bytes changed, in a bit or whole.
fn noise(rng: &mut Rng, bytes: &mut [u8]) {
    if bytes.is_empty() {
        return;
    }
    for _ in 0..rng.within(1, 3) {
        let place = rng.below(bytes.len());
        bytes[place] = if rng.coin() { bytes[place] ^ 1 << rng.below(8) } else { rng.next() as u8 };
    }
}

/// A datagram of about the longest length, or more; now and then the position is its end.
fn long(rng: &mut Rng, datagram: &mut Datagram) {
    let length = rng.pick(&[LONGEST - 1, LONGEST, LONGEST, LONGEST + 1, LONGEST + 1, LONGEST + 4, LONGEST + 100]);
    datagram.bytes.resize(length, 0);
    if rng.per_mille(200) {
        datagram.position = length as u64;
    }
}
