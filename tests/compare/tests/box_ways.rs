//! The cases reach every way in which a part of a box can be at fault, as the fault that is told.

use cases::{Case, CheckBoxCase};
use std::cmp::Ordering;
use std::collections::BTreeMap;
use std::ops::Range;

const SEED: u64 = 1;
const CASES: u64 = 200_000;
const LEAST: u32 = 100;

/// What is wrong with the record at an offset, all records before it being right.
fn of_roll(roll: &[u8], offset: usize) -> &'static str {
    let (before, rest) = roll.split_at(offset);
    let repeats = |field: Range<usize>| before.chunks(21).any(|port| port[field.clone()] == rest[field.clone()]);
    match rest {
        [] => "no port",
        _ if offset == 64 * 21 => "the 65th port",
        [kind, ..] if *kind != 1 => "a record of unknown kind",
        _ if rest.len() < 21 => "a record cut short",
        [_, 0, 0, 0, 0, ..] | [_, _, _, _, 0x80..=0xFF, ..] => "a bad index",
        _ if repeats(1..5) => "an index again",
        _ if repeats(5..21) => "a port's name again",
        _ => "a bad name",
    }
}

/// What is wrong with the entry at an offset, all entries before it being right.
fn of_list(list: &[u8], offset: usize) -> &'static str {
    let (before, rest) = list.split_at(offset);
    match rest {
        [] => "no entry",
        _ if offset == 512 * 32 => "the 513th entry",
        _ if rest.len() < 32 => "an entry cut short",
        _ if before.chunks(32).any(|entry| entry == &rest[..32]) => "a bit's name again",
        _ => "not a name",
    }
}

/// What is wrong with settings at an offset, roll and lists being right.
fn of_settings(case: &CheckBoxCase, offset: usize) -> &'static str {
    let [debug, flags] = [&case.debug_names, &case.flag_names].map(|list| 4 * list.len().div_ceil(32 * 32));
    match case.settings.len().cmp(&(case.roll.len() / 21 * (debug + flags))) {
        Ordering::Less => "shorter",
        Ordering::Greater => "longer",
        Ordering::Equal if offset % (debug + flags) < debug => "a bit past a debug set",
        Ordering::Equal => "a bit past a port's flags",
    }
}

const WAYS: [(u32, &[&str]); 7] = [
    (0, &["right"]),
    (1, &["family"]),
    (2, &["admin"]),
    (
        3,
        &[
            "no port",
            "the 65th port",
            "a record of unknown kind",
            "a record cut short",
            "a bad index",
            "a bad name",
            "an index again",
            "a port's name again",
        ],
    ),
    (4, &["no entry", "the 513th entry", "an entry cut short", "not a name", "a bit's name again"]),
    (5, &["no entry", "the 513th entry", "an entry cut short", "not a name", "a bit's name again"]),
    (6, &["shorter", "longer", "a bit past a debug set", "a bit past a port's flags"]),
];

#[test]
fn every_way_is_told_100_times_in_200_000_cases() {
    let mut reached = BTreeMap::new();
    for number in 0..CASES {
        let Case::CheckBox(case) = cases::case(SEED, number) else { continue };
        let CheckBoxCase { family, admin, roll, debug_names, flag_names, settings } = &case;
        let (part, offset) = reader::check_box(*family, *admin, roll, debug_names, flag_names, settings);
        let way = match part {
            3 => of_roll(roll, offset as usize),
            4 => of_list(debug_names, offset as usize),
            5 => of_list(flag_names, offset as usize),
            6 => of_settings(&case, offset as usize),
            _ => ["right", "family", "admin"][part as usize],
        };
        *reached.entry((part, way)).or_insert(0) += 1;
    }
    let all = WAYS.iter().flat_map(|(part, ways)| ways.iter().map(|way| (*part, *way)));
    let rare: Vec<_> = all.filter(|way| reached.get(way).copied().unwrap_or(0) < LEAST).collect();
    assert!(rare.is_empty(), "too rare: {rare:?} of {reached:?}");
}
