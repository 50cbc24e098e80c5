//! Names that are distinct, and often nearly alike.

use super::rng::Rng;
use std::collections::HashSet;

/// A run of lower-case letters.
pub fn letters(rng: &mut Rng, length: usize) -> Vec<u8> {
    (0..length).map(|_| b'a' + rng.below(26) as u8).collect()
}

/// A name like an earlier one: longer, shorter, or with another byte somewhere.
fn near(rng: &mut Rng, name: &[u8], longest: usize) -> Vec<u8> {
    let mut near = name.to_vec();
    match rng.below(3) {
        0 if near.len() < longest => near.push(b'0' + rng.below(10) as u8),
        1 if near.len() > 1 => near.truncate(name.len() - 1),
        _ => {
            let place = rng.below(near.len());
            near[place] = rng.within(1, 255) as u8;
        }
    }
    near
}

/// A name of 1 to `longest` bytes that aren't NUL.
pub fn any(rng: &mut Rng, earlier: &[Vec<u8>], longest: usize) -> Vec<u8> {
    match rng.below(8) {
        0 | 1 => letters_within(rng, 1, 4),
        2 | 3 => format!("flag-{}", rng.below(1000)).into_bytes(),
        4 => [b"same-beginning".as_slice(), &letters(rng, 20)].concat()[..longest].to_vec(),
        5 => (0..rng.within(1, longest)).map(|_| rng.within(1, 255) as u8).collect(),
        6 => match earlier.get(rng.below(earlier.len().max(1))) {
            Some(like) if !like.is_empty() => near(rng, like, longest),
            _ => letters_within(rng, 1, longest),
        },
        _ => letters_within(rng, 3, longest),
    }
}

fn letters_within(rng: &mut Rng, low: usize, high: usize) -> Vec<u8> {
    let length = rng.within(low, high);
    letters(rng, length)
}

/// So many names, all different; an entry is empty in so many of a thousand places.
pub fn distinct(rng: &mut Rng, count: usize, longest: usize, empty: usize) -> Vec<Vec<u8>> {
    distinct_by(rng, count, empty, |rng, earlier| any(rng, earlier, longest))
}

/// The same of names that are made one by one from those before them.
pub fn distinct_by(
    rng: &mut Rng,
    count: usize,
    empty: usize,
    make: impl Fn(&mut Rng, &[Vec<u8>]) -> Vec<u8>,
) -> Vec<Vec<u8>> {
    let mut taken = HashSet::new();
    let mut names: Vec<Vec<u8>> = Vec::with_capacity(count);
    while names.len() < count {
        let name = if rng.per_mille(empty) { Vec::new() } else { make(rng, &names) };
        if name.is_empty() || taken.insert(name.clone()) {
            names.push(name);
        }
    }
    names
}
