//! The sheet P1 to P12 (document 01, "Sheet of marked bitsets"): effect by a SET, normal form by the normaliser.

mod common;
use common::*;

/// What a bitset makes of {0, 33}, and the words of its normal VALUE and MASK.
fn accepted(parts: &[Vec<u8>], effect: [u32; 2], value: [u32; 2], mask: [u32; 2]) {
    let mut setup = Setup::document();
    assert_eq!(setup.set(parts), (0, Vec::new()));
    assert_eq!(setup.words(), [0, 0, effect[0], effect[1]]);
    let form = [number(SIZE, 40), words(VALUE, &value), words(MASK, &mask)].concat();
    assert_eq!(normal(&parts.concat()), (0, form.clone()));
    assert_eq!(normal(&form), (0, form.clone()), "a normal form is its own");
    let mut again = Setup::document();
    assert_eq!(again.set(&[form]), (0, Vec::new()));
    assert_eq!(again.words(), setup.words());
}

/// A bitset is refused by both with this number; the handler points at the attribute at this offset of the contents.
fn refused(parts: &[Vec<u8>], number: u32, offset: usize) {
    let mut setup = Setup::document();
    let (refusal, error) = setup.set(parts);
    assert_eq!((refusal, details(&error)), (number, vec![(2, 36 + offset as u32)]));
    assert_eq!(setup.words(), [0, 0, 1, 2]);
    assert_eq!(normal(&parts.concat()), (number, Vec::new()));
}

fn normal(contents: &[u8]) -> (u32, Vec<u8>) {
    let mut page = vec![0xA5; 200];
    let list = names(40, &[(3, b"lldp")]);
    let (number, written) = reader::normalise(contents, &list, &mut page);
    assert!(page[written as usize..].iter().all(|byte| *byte == 0xA5));
    (number, page[..written as usize].to_vec())
}

fn nomask() -> Vec<u8> {
    attribute(NOMASK, &[])
}

const ALL: [u32; 2] = [u32::MAX, 0xFF];

#[test]
fn p1_masked_bits_take_their_values() {
    accepted(&[number(SIZE, 40), words(VALUE, &[8, 0]), words(MASK, &[8, 2])], [9, 0], [8, 0], [8, 2]);
}

#[test]
fn p2_nomask_sets_the_whole_set() {
    accepted(&[nomask(), number(SIZE, 3), words(VALUE, &[2])], [2, 0], [2, 0], ALL);
}

#[test]
fn p3_nomask_of_no_bits_empties_the_set() {
    accepted(&[nomask(), number(SIZE, 0), words(VALUE, &[])], [0, 0], [0, 0], ALL);
}

#[test]
fn p4_mask_of_no_bits_changes_nothing() {
    accepted(&[number(SIZE, 0), words(VALUE, &[]), words(MASK, &[])], [1, 2], [0, 0], [0, 0]);
}

#[test]
fn p5_masked_bit_past_n_is_refused_at_mask() {
    refused(&[number(SIZE, 64), words(VALUE, &[0, 0]), words(MASK, &[0, 256])], 20, 20);
}

#[test]
fn p6_value_bit_past_n_outside_mask_means_nothing() {
    accepted(&[number(SIZE, 64), words(VALUE, &[0, 256]), words(MASK, &[0, 0])], [1, 2], [0, 0], [0, 0]);
}

#[test]
fn p7_bitmap_of_one_word_is_too_short_for_33_bits() {
    refused(&[nomask(), number(SIZE, 33), words(VALUE, &[0])], 19, 12);
}

#[test]
fn p8_bitmap_of_one_word_is_too_short_for_the_largest_size() {
    refused(&[nomask(), number(SIZE, u32::MAX), words(VALUE, &[0])], 19, 12);
}

#[test]
fn p9_later_entry_for_a_bit_wins() {
    accepted(&[nest(BITS, &[bit_at(3, true), bit_called(b"lldp\0", false)])], [1, 2], [0, 0], [8, 0]);
}

#[test]
fn p10_nomask_with_an_empty_list_empties_the_set() {
    accepted(&[nomask(), nest(BITS, &[])], [0, 0], [0, 0], ALL);
}

#[test]
fn p11_last_bit_is_set_and_the_one_past_it_refused() {
    accepted(&[nest(BITS, &[bit_at(39, true)])], [1, 0x82], [0, 0x80], [0, 0x80]);
    refused(&[nest(BITS, &[bit_at(40, true)])], 20, 8);
}

#[test]
fn p12_bits_from_size_on_are_ignored() {
    accepted(&[number(SIZE, 3), words(VALUE, &[u32::MAX]), words(MASK, &[u32::MAX])], [7, 2], [7, 0], [7, 0]);
}
