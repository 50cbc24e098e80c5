//! Which part of a box breaks a rule, and where: the words of `ethnl_check_box`. The rules themselves are those of
//! document 01, "The box a call is given"; they are read here once more, apart from the handler's check.

use std::collections::HashSet;

/// A port's record: kind, index (4 bytes), name (16 bytes).
const RECORD: usize = 21;
const MOST_PORTS: usize = 64;
/// An entry of a list of bit names.
const ENTRY: usize = 32;
const MOST_ENTRIES: usize = 512;

/// The parts of a box, by their numbers.
const FAMILY: u32 = 1;
const ADMIN: u32 = 2;
const ROLL: u32 = 3;
const DEBUG_NAMES: u32 = 4;
const FLAG_NAMES: u32 = 5;
const SETTINGS: u32 = 6;

/// The number of the first part at fault, 0 if none is, and the offset of the fault in that part.
pub fn check_box(
    family: u32,
    admin: u32,
    roll: &[u8],
    debug_names: &[u8],
    flag_names: &[u8],
    settings: &[u8],
) -> (u32, u64) {
    match first_fault(family, admin, roll, [debug_names, flag_names], settings) {
        Ok(()) => (0, 0),
        Err((part, offset)) => (part, offset as u64),
    }
}

fn first_fault(
    family: u32,
    admin: u32,
    roll: &[u8],
    [debug_names, flag_names]: [&[u8]; 2],
    settings: &[u8],
) -> Result<(), (u32, usize)> {
    if !(16..=65_535).contains(&family) {
        return Err((FAMILY, 0));
    }
    if admin != 0 && admin != 1 {
        return Err((ADMIN, 0));
    }
    let ports = whole(roll, RECORD, right_records(roll)).map_err(|end| (ROLL, end))?;
    let debug_bits = whole(debug_names, ENTRY, right_entries(debug_names)).map_err(|end| (DEBUG_NAMES, end))?;
    let flag_bits = whole(flag_names, ENTRY, right_entries(flag_names)).map_err(|end| (FLAG_NAMES, end))?;
    right_settings(settings, ports, [debug_bits, flag_bits]).map_err(|end| (SETTINGS, end))
}

/// The number of items, if they are all there is and at least one; else where the longest right beginning ends.
fn whole(bytes: &[u8], item: usize, right: usize) -> Result<usize, usize> {
    let end = item * right;
    if right > 0 && end == bytes.len() {
        Ok(right)
    } else {
        Err(end)
    }
}

/// How many records stand before the first at fault, the end or the 65th.
fn right_records(roll: &[u8]) -> usize {
    let (mut indexes, mut names) = (HashSet::new(), HashSet::new());
    let whole = roll.chunks_exact(RECORD).take(MOST_PORTS);
    let right = whole.take_while(|record| {
        let (index, name) = record[1..].split_at(4);
        let is_port = record[0] == 1 && is_index(index) && name[0] != 0 && is_name(name);
        is_port && indexes.insert(index) && names.insert(name)
    });
    right.count()
}

/// How many entries stand before the first at fault, the end or the 513th.
fn right_entries(list: &[u8]) -> usize {
    let mut names = HashSet::new();
    let whole = list.chunks_exact(ENTRY).take(MOST_ENTRIES);
    let right = whole.take_while(|entry| is_name(entry) && (entry[0] == 0 || names.insert(*entry)));
    right.count()
}

/// Whether a list of bit names keeps the rules.
pub fn is_list(list: &[u8]) -> bool {
    whole(list, ENTRY, right_entries(list)).is_ok()
}

/// From 1 to 2,147,483,647.
fn is_index(bytes: &[u8]) -> bool {
    (1..=0x7FFF_FFFF).contains(&number(bytes))
}

/// Bytes that aren't NUL, then NULs only, at least one.
fn is_name(bytes: &[u8]) -> bool {
    let length = bytes.iter().take_while(|byte| **byte != 0).count();
    length < bytes.len() && bytes[length..].iter().all(|byte| *byte == 0)
}

/// A word from its little-endian bytes.
fn number(bytes: &[u8]) -> u32 {
    bytes.iter().rev().fold(0, |number, byte| number << 8 | u32::from(*byte))
}

/// Judges the settings of so many ports with sets of so many bits; tells the length or the word at fault.
fn right_settings(settings: &[u8], ports: usize, bits: [usize; 2]) -> Result<(), usize> {
    let may_hold: Vec<u32> = bits.into_iter().flat_map(words).collect();
    let length = 4 * ports * may_hold.len();
    if settings.len() != length {
        return Err(settings.len().min(length));
    }
    let mut all = settings.chunks(4).zip(may_hold.iter().cycle());
    match all.position(|(word, may_hold)| number(word) & !may_hold != 0) {
        Some(word) => Err(4 * word),
        None => Ok(()),
    }
}

/// The words of a set of N bits, each with every bit that it may hold.
fn words(bits: usize) -> impl Iterator<Item = u32> {
    (0..bits.div_ceil(32)).map(move |word| match bits - 32 * word {
        left @ 1..32 => (1 << left) - 1,
        _ => u32::MAX,
    })
}
