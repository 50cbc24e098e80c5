//! Readings 20 to 25, 22 as request C-12 turns it: bitsets, the normaliser, answers.

mod common;
use common::*;

/// Refusal number and OFFS from the start of the bitset's contents, of a SET; 0 where it is done.
fn judged(parts: &[Vec<u8>]) -> (u32, u32) {
    let (number, error) = Setup::document().set(parts);
    match number {
        0 => (0, 0),
        _ => (number, details(&error)[0].1 - 36),
    }
}

/// The flags after a SET on {0, 33}, which must be done.
fn made(parts: &[Vec<u8>]) -> Vec<u32> {
    let mut setup = Setup::document();
    assert_eq!(setup.set(parts).0, 0);
    setup.words()[2..].to_vec()
}

fn nomask() -> Vec<u8> {
    attribute(NOMASK, &[])
}

#[test]
fn mixed_forms_go_before_missing_ones() {
    let (value, mask, bits) = (words(VALUE, &[]), words(MASK, &[]), nest(BITS, &[]));
    assert_eq!(judged(&[mask.clone(), bits.clone(), value.clone()]), (18, 8));
    assert_eq!(judged(&[bits, nomask(), mask.clone()]), (18, 8));
    assert_eq!(judged(&[nomask(), mask.clone()]), (18, 4));
    assert_eq!(judged(&[mask, nomask(), value]), (18, 0));
}

#[test]
fn size_value_and_mask_are_missed_in_that_order() {
    let miss = |parts: &[Vec<u8>]| {
        let (number, error) = Setup::document().set(parts);
        (number, details(&error))
    };
    let (size, value, mask) = (number(SIZE, 33), words(VALUE, &[0]), words(MASK, &[0]));
    assert_eq!(miss(&[]), (13, vec![(5, 2), (6, 32)]));
    assert_eq!(miss(&[value.clone(), mask.clone()]), (13, vec![(5, 2), (6, 32)]));
    assert_eq!(miss(&[size.clone(), mask]), (13, vec![(5, 4), (6, 32)]));
    assert_eq!(miss(&[size.clone(), value]), (13, vec![(5, 5), (6, 32)]));
    assert_eq!(miss(&[size, nomask()]), (13, vec![(5, 4), (6, 32)]));
}

#[test]
fn bitmaps_too_short_go_value_first_and_before_20() {
    let size = number(SIZE, 64);
    let (short, bad) = (words(VALUE, &[0]), words(MASK, &[0, 256]));
    assert_eq!(judged(&[size.clone(), short.clone(), words(MASK, &[0])]), (19, 8));
    assert_eq!(judged(&[size.clone(), short, bad.clone()]), (19, 8));
    assert_eq!(judged(&[size.clone(), words(VALUE, &[0, 0]), words(MASK, &[0])]), (19, 20));
    assert_eq!(judged(&[size, words(VALUE, &[0, 0]), bad]), (20, 20));
}

#[test]
fn odd_bytes_after_the_words_are_ignored() {
    let size = number(SIZE, 33);
    let value = attribute(VALUE, &[2, 0, 0, 0, 1, 0, 0, 0, 0xFF, 0xFF]);
    assert_eq!(made(&[nomask(), size.clone(), value]), [2, 1]);
    assert_eq!(judged(&[nomask(), size, attribute(VALUE, &[0; 7])]), (19, 12));
}

#[test]
fn size_is_never_added_to_in_32_bits() {
    for size in [u32::MAX, 0xFFFF_FFE1, 0xFFFF_FFE0, 0x8000_0000] {
        assert_eq!(judged(&[number(SIZE, size), words(VALUE, &[]), words(MASK, &[])]), (19, 8));
    }
}

#[test]
fn value_bits_from_n_to_size_refuse_under_nomask_only() {
    let value = words(VALUE, &[0, 256]);
    assert_eq!(judged(&[nomask(), number(SIZE, 41), value.clone()]), (20, 12));
    assert_eq!(judged(&[nomask(), number(SIZE, 40), value.clone()]), (0, 0));
    assert_eq!(judged(&[number(SIZE, 41), value, words(MASK, &[0, 0])]), (0, 0));
}

#[test]
fn bits_is_walked_whole_before_a_bit_is_opened() {
    let (bad_index, not_a_bit) = (bit_at(40, true), attribute(1, &[]));
    assert_eq!(judged(&[nest(BITS, &[bad_index.clone(), not_a_bit])]), (12, 20));
    assert_eq!(judged(&[nest(BITS, &[bad_index, bit(&[attribute(9, &[])])])]), (20, 8));
}

#[test]
fn no_setting_moves_before_the_whole_list_is_judged() {
    let mut setup = Setup::document();
    let (number, error) = setup.set(&[nest(BITS, &[bit_at(3, true), bit_at(0, false), bit(&[attribute(3, &[])])])]);
    assert_eq!((number, details(&error)), (22, vec![(2, 36 + 4 + 16 + 12)]));
    assert_eq!(setup.words(), [0, 0, 1, 2]);
}

#[test]
fn size_of_a_list_is_judged_but_ignored() {
    assert_eq!(made(&[number(SIZE, 1), nest(BITS, &[bit_at(5, true)])]), [0x21, 2]);
    assert_eq!(judged(&[attribute(SIZE, &[]), nest(BITS, &[])]), (12, 0));
}

#[test]
fn name_beside_an_index_is_judged_as_one_alone_and_means_the_same_bit() {
    let both = |index: u32, name: &[u8]| bit(&[number(1, index), attribute(2, name), attribute(3, &[])]);
    assert_eq!(made(&[nest(BITS, &[both(3, b"lldp\0")])]), [9, 2]);
    assert_eq!(judged(&[nest(BITS, &[both(5, b"lldp\0")])]), (23, 4));
    assert_eq!(judged(&[nest(BITS, &[both(5, b"unknown\0")])]), (21, 16));
    assert_eq!(judged(&[nest(BITS, &[both(40, b"lldp\0")])]), (20, 8));
    assert_eq!(judged(&[nest(BITS, &[both(5, b"lldp")])]), (12, 16));
}

#[test]
fn name_is_the_entry_that_equals_it() {
    for unknown in [&b"\0"[..], b"lld\0", b"lldp2\0", b"Lldp\0", b"ldp\0"] {
        assert_eq!(judged(&[nest(BITS, &[bit_called(unknown, true)])]), (21, 8), "{unknown:?}");
    }
    assert_eq!(made(&[nest(BITS, &[bit_called(b"lldp\0", true)])]), [9, 2]);
    assert_eq!(judged(&[nest(BITS, &[bit_called(&[b'x'; 33], true)])]), (12, 8));
}

#[test]
fn last_index_name_and_value_of_a_bit_count() {
    let repeated = bit(&[number(1, 99), number(1, 5), attribute(3, &[]), attribute(3, &[])]);
    assert_eq!(made(&[nest(BITS, &[repeated])]), [0x21, 2]);
    assert_eq!(judged(&[nest(BITS, &[bit(&[number(1, 5), number(1, 99)])])]), (20, 16));
}

#[test]
fn last_bits_nest_is_the_only_one_opened() {
    let wrong = nest(BITS, &[bit(&[])]);
    assert_eq!(made(&[wrong.clone(), nest(BITS, &[bit_at(5, true)])]), [0x21, 2]);
    assert_eq!(judged(&[nest(BITS, &[bit_at(5, true)]), wrong]), (22, 24));
}

#[test]
fn nomask_list_sets_listed_bits_and_clears_the_others() {
    assert_eq!(made(&[nomask(), nest(BITS, &[bit_at(5, false), bit_at(33, true)])]), [0x20, 2]);
}

fn normal(contents: &[u8], list: &[u8], page: usize) -> (u32, Vec<u8>) {
    let mut page = vec![0xA5; page];
    let (number, written) = reader::normalise(contents, list, &mut page);
    assert!(page[written as usize..].iter().all(|byte| *byte == 0xA5));
    (number, page[..written as usize].to_vec())
}

#[test]
fn normaliser_refuses_list_then_page_then_contents() {
    let (right, wrong) = (names(1, &[]), vec![0; 31]);
    let long = vec![0; 32_769];
    assert_eq!(normal(&long, &wrong, 143).0, 1);
    assert_eq!(normal(&long, &right, 143).0, 2);
    assert_eq!(normal(&long, &right, 144).0, 3);
    assert_eq!(normal(&long[1..], &right, 144).0, 10);
    assert_eq!(normal(&[], &right, 144).0, 13);
}

#[test]
fn normaliser_accepts_contents_of_32768_bytes() {
    let filler = vec![nomask(); 8_192 - 3].concat();
    let contents = [filler, number(SIZE, 0), words(VALUE, &[])].concat();
    assert_eq!(contents.len(), 32_768);
    let form = [number(SIZE, 1), words(VALUE, &[0]), words(MASK, &[1])].concat();
    assert_eq!(normal(&contents, &names(1, &[]), 144), (0, form));
}

#[test]
fn normal_form_of_512_bits_fills_144_bytes() {
    let (number, form) = normal(&[nomask(), nest(BITS, &[])].concat(), &names(512, &[]), 144);
    assert_eq!((number, form.len()), (0, 144));
    assert!(form[80..].iter().all(|byte| *byte == 0xFF));
}

#[test]
fn set_that_changes_nothing_is_done() {
    let mut setup = Setup::document();
    let list = nest(2, &[nest(BITS, &[bit_at(0, true)])]);
    let answer = setup.call(&message(PRIVFLAGS_SET, REQUEST, &[by_index(3), list]));
    assert_eq!((answer.kind, answer.written), (reader::DONE, 0));
    assert_eq!(setup.words(), [0, 0, 1, 2]);
}
