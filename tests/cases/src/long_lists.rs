//! Name lists whose reply is about as long as one may be (request C-13).

use super::boxes::Port;
use super::rng::Rng;

/// The longest reply, its ACK counted, and the ACK.
const LONGEST: usize = 32_768;
const ACK: usize = 36;
/// Most entries of a list, and most whole fours of letters in a name.
const MOST: usize = 512;
const MOST_FOURS: usize = 7;

/// Two lists: the reply about both for this port is as long as one may be with or without its ACK, or up to 16 bytes
/// shorter or longer, mostly none or 4.
pub fn lists(rng: &mut Rng, port: &Port) -> [Vec<Vec<u8>>; 2] {
    let wanted = rng.pick(&[LONGEST, LONGEST - ACK]) + 16 - rng.pick(&[0, 8, 12, 12, 12, 16, 16, 16, 20, 32]);
    // Two headers, the port's nest, STRINGSETS, two STRINGSETs with ID, COUNT and STRINGS.
    let strings = wanted - 20 - name_bytes(port.name.len() / 4) - 4 - 2 * 24;
    let first = if rng.coin() { MOST } else { rng.within(200, MOST) };
    let fewest = strings.div_ceil(name_bytes(MOST_FOURS));
    let second = rng.within(fewest.saturating_sub(first).max(1), MOST);
    let fours = fours(rng, first + second, (strings - name_bytes(0) * (first + second)) / 4);
    let (one, other) = fours.split_at(first);
    let [one, other] =
        [one, other].map(|fours| fours.iter().enumerate().map(|(bit, fours)| name(rng, bit, *fours)).collect());
    if rng.coin() {
        [one, other]
    } else {
        [other, one]
    }
}

/// Bytes of a nest with a number and a name of so many whole fours of letters.
fn name_bytes(fours: usize) -> usize {
    20 + 4 * fours
}

/// So many numbers from 0 to 7 with this sum.
fn fours(rng: &mut Rng, count: usize, sum: usize) -> Vec<usize> {
    let mut fours: Vec<usize> = (0..count).map(|_| rng.below(MOST_FOURS + 1)).collect();
    let (mut now, mut at) = (fours.iter().sum::<usize>(), rng.below(count));
    while now != sum {
        if now < sum && fours[at] < MOST_FOURS {
            fours[at] += 1;
            now += 1;
        } else if now > sum && fours[at] > 0 {
            fours[at] -= 1;
            now -= 1;
        }
        at = (at + 1) % count;
    }
    fours
}

/// A name that begins with its bit in three letters, so that no other equals it; a short one may be empty.
fn name(rng: &mut Rng, bit: usize, fours: usize) -> Vec<u8> {
    if fours == 0 && rng.coin() {
        return Vec::new();
    }
    let mut name = [bit / 26 / 26, bit / 26 % 26, bit % 26].map(|letter| b'a' + letter as u8).to_vec();
    let length = (4 * fours + rng.below(4)).max(3);
    name.resize_with(length, || rng.within(1, 255) as u8);
    name
}
