//! Boxes for their check: one damage in any part of them, at any place of that part.

use super::bad_box;
use super::boxes::{BoxBytes, Model};
use super::rng::Rng;

/// One damage to the box; everything else stays as it is.
pub fn damage(rng: &mut Rng, given: &mut BoxBytes, model: &Model) {
    match rng.below(10) {
        0 => given.family = bad_box::family(rng, given.family),
        1 => given.admin = bad_box::admin(rng),
        2..5 => roll(rng, given, model),
        5..8 => bad_box::list_of_box(rng, given, model),
        8 => settings_length(rng, &mut given.settings),
        _ => settings_bits(rng, given, model),
    }
}

/// A record that is of unknown kind or cut short, has a bad index or name, repeats one before it, or is the 65th.
fn roll(rng: &mut Rng, given: &mut BoxBytes, model: &Model) {
    let records = given.roll.len() / 21;
    match rng.below(12) {
        0..3 if records > 0 => bad_box::records(rng, &mut given.roll),
        3..7 if records > 0 => bad_box::port_fields(rng, &mut given.roll),
        7..10 if records > 1 => repeated_field(rng, &mut given.roll),
        10 => bad_box::too_many_ports(rng, given, model),
        _ => bad_box::repeated_port(rng, given, model),
    }
}

/// The index or the name of one record put into another.
fn repeated_field(rng: &mut Rng, roll: &mut [u8]) {
    let [from, to] = [(); 2].map(|()| 21 * rng.below(roll.len() / 21));
    let (start, length) = rng.pick(&[(1, 4), (5, 16)]);
    roll.copy_within(from + start..from + start + length, to + start);
}

/// Settings that end too early or too late, by a little or by much.
fn settings_length(rng: &mut Rng, settings: &mut Vec<u8>) {
    match rng.below(3) {
        0 => settings.truncate(rng.below(settings.len() + 1)),
        1 => {
            let more = rng.within(1, 100);
            settings.extend(rng.bytes(more));
        }
        _ => bad_box::settings_length(rng, settings),
    }
}

/// Bits at or past N in some sets.
fn settings_bits(rng: &mut Rng, given: &mut BoxBytes, model: &Model) {
    for _ in 0..rng.within(1, 3) {
        bad_box::settings_bit(rng, given, model);
    }
}
