//! What the check of a box tells, said a second time by the handler alone: a beginning is right if the handler takes up
//! a box that has it as its roll, list or settings.

use cases::{Case, CheckBoxCase};

const SEED: u64 = 3;

/// Whether the handler does not refuse a box by 1.
fn taken_up(family: u32, admin: u32, roll: &[u8], lists: [&[u8]; 2], settings: &[u8]) -> bool {
    let [debug_names, flag_names] = lists;
    let (mut settings, mut page) = (settings.to_vec(), vec![0; 32_768]);
    reader::handle(family, admin, roll, debug_names, flag_names, &mut settings, &[], 0, 0, &mut page).refusal != 1
}

const PORT: &[u8; 21] = b"\x01\x03\0\0\0sw0\0\0\0\0\0\0\0\0\0\0\0\0\0";
const NAME: &[u8; 32] = &[0; 32];

fn is_roll(roll: &[u8]) -> bool {
    taken_up(25, 1, roll, [NAME, NAME], &vec![0; 8 * (roll.len() / 21)])
}

fn is_list(list: &[u8]) -> bool {
    taken_up(25, 1, PORT, [NAME, list], &vec![0; 4 + set_length(list)])
}

/// The bytes of one set with the bits of a list.
fn set_length(list: &[u8]) -> usize {
    4 * (list.len() / 32).div_ceil(32)
}

/// Where the longest right beginning ends; 0 where none is right.
fn longest(bytes: &[u8], is_right: impl Fn(&[u8]) -> bool) -> usize {
    (1..=bytes.len()).rev().find(|end| is_right(&bytes[..*end])).unwrap_or(0)
}

/// Where the longest beginning of whole words ends that is right with zeros behind it.
fn longest_words(case: &CheckBoxCase) -> usize {
    let CheckBoxCase { roll, debug_names, flag_names, settings, .. } = case;
    let is_right = |end: &usize| {
        let mut filled = settings[..*end].to_vec();
        filled.resize(settings.len(), 0);
        taken_up(25, 1, roll, [debug_names, flag_names], &filled)
    };
    (0..=settings.len()).rev().filter(|end| end % 4 == 0).find(is_right).unwrap_or(0)
}

fn settings_told(case: &CheckBoxCase) -> usize {
    let sets = set_length(&case.debug_names) + set_length(&case.flag_names);
    let length = case.roll.len() / 21 * sets;
    match case.settings.len() == length {
        true => longest_words(case),
        false => case.settings.len().min(length),
    }
}

/// The first part at fault and its offset, by the handler.
fn told(case: &CheckBoxCase) -> (u32, usize) {
    let CheckBoxCase { family, admin, roll, debug_names, flag_names, settings } = case;
    let lists = [debug_names, flag_names];
    let settings_fit = || taken_up(25, 1, roll, lists.map(Vec::as_slice), settings);
    match () {
        _ if !taken_up(*family, 1, PORT, [NAME, NAME], &[0; 8]) => (1, 0),
        _ if !taken_up(25, *admin, PORT, [NAME, NAME], &[0; 8]) => (2, 0),
        _ if !is_roll(roll) => (3, longest(roll, is_roll)),
        _ if !is_list(debug_names) => (4, longest(debug_names, is_list)),
        _ if !is_list(flag_names) => (5, longest(flag_names, is_list)),
        _ if !settings_fit() => (6, settings_told(case)),
        _ => (0, 0),
    }
}

#[test]
fn part_and_offset_are_those_of_the_longest_right_beginning() {
    let mut reached = [0; 7];
    for number in 0..40_000 {
        let Case::CheckBox(case) = cases::case(SEED, number) else { continue };
        let (part, offset) = told(&case);
        let CheckBoxCase { family, admin, roll, debug_names, flag_names, settings } = &case;
        let answer = reader::check_box(*family, *admin, roll, debug_names, flag_names, settings);
        assert_eq!(answer, (part, offset as u64), "{}", Case::CheckBox(case));
        reached[part as usize] += 1;
    }
    assert!(reached.iter().all(|count| *count >= 100), "{reached:?}");
}
