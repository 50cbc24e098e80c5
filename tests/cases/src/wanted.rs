//! Names to look for in a list (request C-14): names of the list, names that nearly are one, and names that no list has.

use super::names;
use super::rng::Rng;

/// Any name to look for.
pub fn name(rng: &mut Rng, list: &[Vec<u8>]) -> Vec<u8> {
    let Some(like) = listed(rng, list) else {
        return unlike(rng, list);
    };
    match rng.below(100) {
        0..32 => like,
        32..52 => near(rng, like),
        52..58 => other_end(rng, like),
        58..68 => other_length(rng, like),
        68..76 => long(rng, &like),
        76..90 => with_nul(rng, like),
        _ => unlike(rng, list),
    }
}

/// A name for a BIT that the list may lack: often one that agrees with a name of it in length and last byte.
pub fn unknown(rng: &mut Rng, list: &[Vec<u8>]) -> Vec<u8> {
    match listed(rng, list) {
        Some(like) if rng.coin() => near(rng, like),
        _ => names::any(rng, list, 31),
    }
}

/// A name of the list, the first and the last of them more often than the others.
fn listed(rng: &mut Rng, list: &[Vec<u8>]) -> Option<Vec<u8>> {
    let named: Vec<&Vec<u8>> = list.iter().filter(|name| !name.is_empty()).collect();
    match rng.below(4) {
        _ if named.is_empty() => None,
        0 => Some(named[0].clone()),
        1 => Some(named[named.len() - 1].clone()),
        _ => Some(rng.pick(&named).clone()),
    }
}

/// The same length and last byte, and a byte before it changed, or two changed over.
fn near(rng: &mut Rng, mut name: Vec<u8>) -> Vec<u8> {
    if name.len() > 1 {
        let [place, other] = [(); 2].map(|()| rng.below(name.len() - 1));
        match rng.coin() {
            true => name[place] = rng.within(1, 255) as u8,
            false => name.swap(place, other),
        }
    }
    name
}

/// Another last byte.
fn other_end(rng: &mut Rng, mut name: Vec<u8>) -> Vec<u8> {
    name.pop();
    name.push(rng.within(1, 255) as u8);
    name
}

/// One byte more or one fewer, mostly with the same last byte.
fn other_length(rng: &mut Rng, mut name: Vec<u8>) -> Vec<u8> {
    match rng.below(5) {
        0 => name.extend(name.last().copied()),
        1 => name.insert(0, b'n'),
        2 => name.push(b'n'),
        3 => drop(name.pop()),
        _ => drop(name.remove(0)),
    }
    name
}

/// 31 bytes or more, with the same last byte: lengths at the limit, and some that are the name's in their low bits.
fn long(rng: &mut Rng, name: &[u8]) -> Vec<u8> {
    let length = match name.len() {
        31 => rng.pick(&[32, 32, 33, 64, 31 + 32, 31 + 256]),
        short => rng.pick(&[31, 31, 32, 32, 33, 63, 64, 100, short + 32, short + 256]),
    };
    let mut long: Vec<u8> = name.iter().copied().cycle().take(length - 1).collect();
    long.extend(name.last());
    long
}

/// A NUL at the start, at the end, in between or behind, perhaps with more bytes; or the whole entry with its NULs.
fn with_nul(rng: &mut Rng, mut name: Vec<u8>) -> Vec<u8> {
    let end = name.len() - 1;
    match rng.below(8) {
        0 => name[0] = 0,
        1 => name[end] = 0,
        2 => name.push(0),
        3 => name.resize(32, 0),
        4 => name.fill(0),
        5 => name.extend([0, name[end]]),
        _ if end > 1 => name[rng.within(1, end - 1)] = 0,
        _ => name.insert(1, 0),
    }
    name
}

/// An empty name, or one that is made without looking at the list.
fn unlike(rng: &mut Rng, list: &[Vec<u8>]) -> Vec<u8> {
    match rng.per_mille(400) {
        true => Vec::new(),
        false => names::any(rng, list, 31),
    }
}
