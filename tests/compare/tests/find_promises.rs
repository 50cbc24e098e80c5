//! What request C-14 promises of every search for a bit name, said another way than the reader does it, and that the
//! normaliser, which answers as before, takes a name for the same bit.

use cases::{Case, FindCase};
use compare::{Implementation, Reader};
use reader::NOT_FOUND;

const SEED: u64 = 2;
const CASES: u64 = 100_000;

/// What each search in a right list came to.
fn searched() -> impl Iterator<Item = (FindCase, u32, u64)> {
    (0..CASES).filter_map(|number| match cases::case(SEED, number) {
        Case::Find(case) => match Reader.find(&case) {
            (0, found, compared) => Some((case, found, compared)),
            _ => None,
        },
        _ => None,
    })
}

/// A name as an entry has it, where one can.
fn as_entry(name: &[u8]) -> Option<[u8; 32]> {
    let mut entry = [0; 32];
    if name.is_empty() || name.len() > 31 || name.contains(&0) {
        return None;
    }
    entry[..name.len()].copy_from_slice(name);
    Some(entry)
}

/// Whether an entry ends where a name does, with the same byte: that byte is the entry's last that isn't NUL.
fn ends_alike(entry: &[u8], name: &[u8]) -> bool {
    let last = entry.iter().rposition(|byte| *byte != 0);
    last.is_some_and(|last| last + 1 == name.len() && entry[last] == name[last])
}

#[test]
fn the_bit_is_the_one_whose_entry_equals_the_name() {
    let mut hits = 0;
    for (case, found, _) in searched() {
        let equal = as_entry(&case.name).and_then(|name| case.names.chunks(32).position(|entry| entry == name));
        assert_eq!(found, equal.map_or(NOT_FOUND, |bit| bit as u32), "{case}");
        hits += u32::from(equal.is_some());
    }
    assert!(hits > 1_000);
}

#[test]
fn the_count_is_of_the_entries_up_to_the_hit_that_agree() {
    let (mut some, mut many) = (0, 0);
    for (case, found, compared) in searched() {
        let looked_at = case.names.chunks(32).take((found as usize).saturating_add(1));
        let agreeing = looked_at.filter(|entry| ends_alike(entry, &case.name)).count() as u64;
        assert_eq!(compared, if case.name.starts_with(&[0]) { 0 } else { agreeing }, "{case}");
        some += u32::from(compared > 0);
        many += u32::from(compared > 9);
    }
    assert!(some > 1_000 && many > 100);
}

#[test]
fn a_hit_is_counted_and_no_entry_twice() {
    for (case, found, compared) in searched() {
        let entries = case.names.len() as u64 / 32;
        match found {
            NOT_FOUND => assert!(compared <= entries, "{case}"),
            _ => assert!(u64::from(found) < entries && (1..=u64::from(found) + 1).contains(&compared), "{case}"),
        }
    }
}

/// The contents of a bit list whose one BIT has this name.
fn bit_called(name: &[u8]) -> Vec<u8> {
    let length = name.len() as u16 + 5;
    let mut contents: Vec<u8> = [length + 8, 0x8003, length + 4, 0x8001, length, 2].map(u16::to_le_bytes).concat();
    contents.extend(name);
    contents.push(0);
    contents
}

/// The bits that a normal form masks.
fn masked(form: &[u8]) -> Vec<u32> {
    let mask = &form[form.len() - (form.len() - 16) / 2..];
    (0..8 * mask.len() as u32).filter(|bit| mask[*bit as usize / 8] >> (bit % 8) & 1 == 1).collect()
}

#[test]
fn the_normaliser_takes_the_name_for_the_same_bit() {
    let mut told = [0; 2];
    for (case, found, _) in searched() {
        if case.name.len() > 31 || case.name.contains(&0) {
            continue;
        }
        let mut page = [0; 144];
        let (number, written) = reader::normalise(&bit_called(&case.name), &case.names, &mut page);
        match found {
            NOT_FOUND => assert_eq!(number, 21, "{case}"),
            bit => assert_eq!((number, masked(&page[..written as usize])), (0, vec![bit]), "{case}"),
        }
        told[usize::from(number == 0)] += 1;
    }
    assert!(told.into_iter().all(|count| count > 1_000), "{told:?}");
}

#[test]
fn a_list_is_refused_exactly_where_the_normaliser_refuses_it() {
    let mut told = [0; 2];
    for number in 0..CASES {
        let Case::Find(case) = cases::case(SEED, number) else { continue };
        let (number, found, compared) = Reader.find(&case);
        let (refusal, _) = reader::normalise(&[], &case.names, &mut [0; 144]);
        assert_eq!(number == 1, refusal == 1, "{case}");
        assert!(number <= 1 && (number == 0 || (found, compared) == (0, 0)), "{case}");
        told[number as usize] += 1;
    }
    assert!(told.into_iter().all(|count| count > 500), "{told:?}");
}
