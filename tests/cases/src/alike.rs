//! Lists of which many names have one length and one last byte (request C-14).

use super::names::{distinct_by, letters};
use super::rng::Rng;

/// How the names of one list are alike.
#[derive(Clone, Copy)]
enum Way {
    /// Numbered from 0 on: those of one length have ten last bytes.
    Numbered,
    /// Numbered in the middle: all agree.
    NumberedInside,
    /// Letters of one length and one last byte.
    OneEnd,
    /// The same, of one letter but for two places.
    TwoPlaces,
    /// Two letters, one to ten of them.
    TwoLetters,
}

const WAYS: [Way; 5] = [Way::Numbered, Way::NumberedInside, Way::OneEnd, Way::TwoPlaces, Way::TwoLetters];

/// A list of so many names, all different; an entry is empty in so many of a thousand places.
pub fn list(rng: &mut Rng, count: usize, empty: usize) -> Vec<Vec<u8>> {
    let way = rng.pick(&WAYS);
    let last = rng.pick(b"0aelsz\x01\x80\xff");
    let length = if rng.per_mille(150) { 31 } else { rng.within(4, 20) };
    distinct_by(rng, count, empty, |rng, earlier| match way {
        Way::Numbered => format!("flag-{}", earlier.len()).into_bytes(),
        Way::NumberedInside => format!("port-{:03}-on", earlier.len()).into_bytes(),
        Way::OneEnd => [letters(rng, length - 1), vec![last]].concat(),
        Way::TwoPlaces => [two_places(rng, length - 1), vec![last]].concat(),
        Way::TwoLetters => (0..rng.within(1, 10)).map(|_| rng.pick(b"ab")).collect(),
    })
}

/// One letter so often, with another byte at up to two places.
fn two_places(rng: &mut Rng, length: usize) -> Vec<u8> {
    let mut bytes = vec![b'n'; length];
    for _ in 0..2 {
        bytes[rng.below(length)] = rng.within(1, 255) as u8;
    }
    bytes
}
