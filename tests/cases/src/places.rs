//! Places in a dump (request C-11): those that a roll has, one for each port and one for DONE, and those above.

use super::rng::Rng;

/// A place for a dump: mostly one that the roll has, the first and the last two more often than the others.
pub fn of_dump(rng: &mut Rng, ports: usize) -> u64 {
    match rng.below(100) {
        0..4 => above(rng, ports),
        4..25 => 0,
        25..50 => ports as u64,
        50..65 => ports as u64 - 1,
        _ => rng.below(ports + 1) as u64,
    }
}

/// A place for any other message: mostly 0, now and then one that a dump has left behind.
pub fn of_other(rng: &mut Rng, ports: usize) -> u64 {
    match rng.below(1000) {
        0..25 => above(rng, ports),
        25..90 => rng.within(1, ports) as u64,
        90..110 => ports as u64,
        _ => 0,
    }
}

/// A place that the roll hasn't got, often one that it has in its low bits.
fn above(rng: &mut Rng, ports: usize) -> u64 {
    let known = rng.below(ports + 1) as u64;
    let ports = ports as u64;
    match rng.below(4) {
        0 | 1 => ports + 1,
        2 => known + rng.pick(&[1 << 8, 1 << 16, 1 << 32, 1 << 63]),
        _ => rng.pick(&[ports + 2, ports + 64, 255, 0xFFFF_FFFF, u64::MAX, u64::MAX - 1]),
    }
}
