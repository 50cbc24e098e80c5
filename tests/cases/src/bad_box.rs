//! Boxes that break one rule (document 01, "The box a call is given"): 1.

use super::boxes::{list_bytes, record, set, BoxBytes, Model, Port};
use super::rng::Rng;

/// One damage to the box; everything else stays as it is.
pub fn damage(rng: &mut Rng, given: &mut BoxBytes, model: &Model) {
    let has_port = given.roll.len() >= 21;
    match rng.below(12) {
        0 => given.family = family(rng, given.family),
        1 => given.admin = admin(rng),
        2 if has_port => records(rng, &mut given.roll),
        3 if has_port => port_fields(rng, &mut given.roll),
        4 => repeated_port(rng, given, model),
        5 => too_many_ports(rng, given, model),
        6 => settings_length(rng, &mut given.settings),
        7 | 8 => settings_bit(rng, given, model),
        _ => list_of_box(rng, given, model),
    }
}

/// A family out of range, often one that is right in its lower 16 bits.
pub fn family(rng: &mut Rng, family: u32) -> u32 {
    match rng.below(3) {
        0 => rng.pick(&[0, 1, 2, 15]),
        1 => family + 0x1_0000,
        _ => family | rng.pick(&[0x1_0000, 0x8000_0000, 0x00FF_0000]),
    }
}

/// Neither yes nor no.
pub fn admin(rng: &mut Rng) -> u32 {
    rng.pick(&[2, 3, 255, 256, 257, 0x1_0000, u32::MAX])
}

/// Records of an unknown kind, cut short, or none.
pub fn records(rng: &mut Rng, roll: &mut Vec<u8>) {
    match rng.below(4) {
        0 => {
            let chosen = rng.below(roll.len() / 21);
            roll[21 * chosen] = rng.pick(&[0, 2, 3, 255]);
        }
        1 => roll.truncate(roll.len() - rng.within(1, 20)),
        2 => {
            let extra = rng.within(1, 20);
            roll.extend([vec![1], rng.bytes(extra - 1)].concat());
        }
        _ => roll.clear(),
    }
}

/// An index or a name that a port can't have.
pub fn port_fields(rng: &mut Rng, roll: &mut [u8]) {
    let start = 21 * rng.below(roll.len() / 21);
    let (index, name) = roll[start + 1..start + 21].split_at_mut(4);
    match rng.below(5) {
        0 => index.fill(0),
        1 => index.copy_from_slice(&rng.pick(&[0x8000_0000, 0x8000_0001, u32::MAX]).to_le_bytes()),
        2 => name.fill(0),
        3 => name.iter_mut().for_each(|byte| *byte = (*byte).max(b'n')),
        _ => {
            name[rng.within(0, 7)] = 0;
            name[rng.within(8, 15)] = b'n';
        }
    }
}

/// Two ports with one index or one name; a second port is added where there is only one.
pub fn repeated_port(rng: &mut Rng, given: &mut BoxBytes, model: &Model) {
    let first = &model.ports[rng.below(model.ports.len())];
    let mut double = Port { index: first.index, name: first.name.clone() };
    if rng.coin() {
        double.index = (1..).find(|index| model.ports.iter().all(|port| port.index != *index)).unwrap_or(1);
    } else {
        double.name = b"another".to_vec();
    }
    add_port(rng, given, model, &double);
}

/// Puts a port's record and settings after the others.
fn add_port(rng: &mut Rng, given: &mut BoxBytes, model: &Model, port: &Port) {
    given.roll.extend(record(port));
    for list in &model.lists {
        given.settings.extend(set(rng, list.len()).into_iter().flat_map(u32::to_le_bytes));
    }
}

/// 65 ports or more, with all their settings.
pub fn too_many_ports(rng: &mut Rng, given: &mut BoxBytes, model: &Model) {
    let count = rng.pick(&[65, 65, 66, 128]);
    for extra in model.ports.len()..count {
        let port = Port { index: 0x0200_0000 + extra as u32, name: format!("extra-{extra}").into_bytes() };
        add_port(rng, given, model, &port);
    }
}

pub fn settings_length(rng: &mut Rng, settings: &mut Vec<u8>) {
    let by = rng.pick(&[1, 2, 3, 4, 4, 8]);
    match rng.coin() {
        true => settings.extend(vec![0; by]),
        false => settings.truncate(settings.len().saturating_sub(by)),
    }
}

/// A bit at or past N in some set of some port, where a word has room for one.
pub fn settings_bit(rng: &mut Rng, given: &mut BoxBytes, model: &Model) {
    let words = model.lists.each_ref().map(|list| list.len().div_ceil(32));
    let port = rng.below(model.ports.len());
    let set = rng.below(2);
    let bits = model.lists[set].len();
    let start = 32 * (port * (words[0] + words[1]) + set * words[0]);
    if !bits.is_multiple_of(32) {
        let bit = start + rng.pick(&[bits, bits.next_multiple_of(32) - 1]);
        if let Some(byte) = given.settings.get_mut(bit / 8) {
            *byte |= 1 << (bit % 8);
        }
    }
}

/// A list of the box broken; settings follow where its number of bits changes.
pub fn list_of_box(rng: &mut Rng, given: &mut BoxBytes, model: &Model) {
    let chosen = rng.below(2);
    if rng.per_mille(100) {
        let bits = rng.pick(&[513, 513, 514, 1024]);
        let mut names = model.lists[chosen].clone();
        names.resize(bits, Vec::new());
        given.lists[chosen] = list_bytes(&names);
        let other = given.lists[1 - chosen].len() / 32;
        let words = model.ports.len() * (bits.div_ceil(32) + other.div_ceil(32));
        given.settings = vec![0; 4 * words];
    } else {
        list(rng, &mut given.lists[chosen]);
    }
}

/// One damage to a list of names that keeps its number of entries, or takes all of them, or part of one.
pub fn list(rng: &mut Rng, bytes: &mut Vec<u8>) {
    let entries = bytes.len() / 32;
    if entries == 0 {
        return;
    }
    let chosen = 32 * rng.below(entries);
    match rng.below(7) {
        0 => bytes.truncate(bytes.len() - rng.within(1, 31)),
        1 => bytes.extend(vec![0; rng.within(1, 31)]),
        2 if rng.coin() => bytes.clear(),
        3 => bytes[chosen..chosen + 32].iter_mut().for_each(|byte| *byte = (*byte).max(b'n')),
        4 => bytes[chosen + 31] = b'n',
        5 => {
            bytes[chosen + rng.within(0, 14)] = 0;
            bytes[chosen + rng.within(16, 31)] = 1;
        }
        _ => repeated_name(rng, bytes, chosen),
    }
}

/// One name at two places, if the list has two.
fn repeated_name(rng: &mut Rng, bytes: &mut [u8], chosen: usize) {
    if bytes[chosen] == 0 {
        bytes[chosen..chosen + 4].copy_from_slice(b"once");
    }
    let other = 32 * rng.below(bytes.len() / 32);
    bytes.copy_within(chosen..chosen + 32, other);
}
