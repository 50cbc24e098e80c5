//! Readings 10 to 19: attributes in their parents, and the header of a request.

mod common;
use common::*;

fn get(parts: &[Vec<u8>]) -> Vec<u8> {
    message(DEBUG_GET, REQUEST, parts)
}

fn header(parts: &[Vec<u8>]) -> Vec<u8> {
    get(&[nest(1, parts)])
}

/// Refusal number and the error message's attributes.
fn told(request: &[u8]) -> (u32, Vec<(u16, u32)>) {
    let (number, error) = Setup::document().refusal(request);
    let details = if error.is_empty() || number == 0 { Vec::new() } else { details(&error) };
    (number, details)
}

/// Refusal number and OFFS.
fn offset(request: &[u8]) -> (u32, u32) {
    match told(request) {
        (number, details) if details.len() == 1 && details[0].0 == 2 => (number, details[0].1),
        other => panic!("no OFFS alone: {other:?}"),
    }
}

#[test]
fn each_attribute_is_judged_before_the_next_is_looked_at() {
    let (unknown, wrong) = (nest(3, &[]), attribute(1, &[]));
    assert_eq!(offset(&get(&[wrong.clone(), unknown.clone()])), (12, 20));
    assert_eq!(offset(&get(&[unknown.clone(), wrong.clone()])), (11, 20));
    assert_eq!(offset(&get(&[by_index(3), wrong, vec![1, 2, 3]])), (12, 32));
    assert_eq!(offset(&get(&[vec![3, 0, 1, 0x80], unknown])), (10, 20));
}

#[test]
fn unlisted_type_goes_before_wrong_bits() {
    for kind in [0, 3, 0x3FFF, 0x4000, 0xC000, 0x4003] {
        assert_eq!(offset(&get(&[attribute(kind, &[])])), (11, 20), "{kind:#x}");
    }
    for kind in [1, 0x4001, 0xC001] {
        assert_eq!(offset(&get(&[attribute(kind, &[])])), (12, 20), "{kind:#x}");
    }
}

#[test]
fn offsets_count_from_the_message_wherever_it_begins() {
    let request = header(&[number(1, 3), number(1, 3), vec![7]]);
    assert_eq!(offset(&request), (10, 40));
    let mut setup = Setup::document();
    let answer = setup.call_at(&[vec![0; 50], request].concat(), 50);
    assert_eq!((answer.refusal, details(&setup.page[..44])), (10, vec![(2, 40)]));
}

#[test]
fn one_to_three_bytes_or_a_bad_length_are_told_where_they_begin() {
    for stray in 1..4 {
        assert_eq!(offset(&get(&[by_index(3), vec![0; stray]])), (10, 32));
    }
    for length in [0, 1, 3, 5, 0xFFFF] {
        let cut = [(length as u16).to_le_bytes().to_vec(), vec![1, 0x80]].concat();
        assert_eq!(offset(&get(&[by_index(3), cut])), (10, 32));
    }
}

#[test]
fn last_padding_may_be_absent_and_none_is_looked_at() {
    for (padding, number) in [(0, 16), (1, 16), (2, 10), (3, 10)] {
        let name = [unpadded(2, b"sw\0"), vec![0xFF; padding]].concat();
        assert_eq!(told(&get(&[unpadded(0x8001, &name)])).0, number, "{padding}");
    }
    let dirty = [unpadded(2, b"s\0"), vec![0xFF, 0xFF], number(1, 3)].concat();
    assert_eq!(told(&header(&[dirty])).0, 17);
}

#[test]
fn last_of_equal_attributes_counts_and_the_others_are_checked() {
    assert_eq!(told(&header(&[number(1, 4), number(1, 3)])).0, 0);
    assert_eq!(offset(&header(&[number(1, 3), number(1, 4)])), (16, 32));
    assert_eq!(offset(&header(&[attribute(1, &[3]), number(1, 3)])), (12, 24));
    let unopened = nest(1, &[attribute(9, &[])]);
    assert_eq!(told(&get(&[unopened.clone(), by_index(3)])).0, 0);
    assert_eq!(offset(&get(&[by_index(3), unopened])), (11, 36));
}

#[test]
fn bitset_is_not_listed_in_a_get() {
    assert_eq!(offset(&get(&[by_index(3), nest(2, &[])])), (11, 32));
}

#[test]
fn empty_nests_are_legal() {
    assert_eq!(offset(&get(&[nest(1, &[])])), (14, 20));
    let set = |parts: &[Vec<u8>]| message(DEBUG_SET, REQUEST, &[by_index(3), nest(2, parts)]);
    assert_eq!(told(&set(&[])), (13, vec![(5, 2), (6, 32)]));
    assert_eq!(told(&set(&[nest(BITS, &[])])).0, 0);
    assert_eq!(offset(&set(&[nest(BITS, &[bit(&[])])])), (22, 40));
}

#[test]
fn both_dump_bits_refuse_a_set_before_admin_and_one_alone_is_ignored() {
    let mut setup = Setup::document();
    setup.admin = 0;
    assert_eq!(setup.call(&message(DEBUG_SET, REQUEST | 0x300, &[])).refusal, 8);
    assert_eq!(setup.call(&message(PRIVFLAGS_SET, REQUEST | 0x300, &[])).refusal, 8);
    assert_eq!(setup.call(&message(9, REQUEST | 0x300, &[])).refusal, 7);
    assert_eq!(setup.call(&message(DEBUG_SET, REQUEST | 0x100, &[])).refusal, 9);
    assert_eq!(setup.call(&message(DEBUG_GET, REQUEST | 0x200, &[by_index(3)])).refusal, 0);
}

#[test]
fn version_reserved_and_unknown_flags_are_ignored() {
    let mut request = message(DEBUG_GET, 0xFCFB, &[by_index(3)]);
    request[17..20].fill(0xFF);
    let mut setup = Setup::document();
    assert_eq!(setup.call(&request).refusal, 0);
    assert_eq!(setup.page[6..8], [0, 0]);
    assert_eq!(setup.page[16..20], [7, 1, 0, 0]);
}

#[test]
fn payloads_have_their_lengths() {
    for length in [0, 1, 3, 5, 8] {
        assert_eq!(offset(&header(&[attribute(1, &vec![0; length])])), (12, 24));
        assert_eq!(offset(&header(&[number(1, 3), attribute(3, &vec![0; length])])), (12, 32));
    }
    let names: [(&[u8], u32); 7] = [
        (b"", 12),
        (b"\0", 16),
        (b"sw0", 12),
        (b"sw0\0\0", 12),
        (b"s\0w\0", 12),
        (b"fifteen-letters\0", 16),
        (b"sixteen-letters!\0", 12),
    ];
    for (name, number) in names {
        assert_eq!(offset(&header(&[attribute(2, name)])), (number, 24), "{name:?}");
    }
}

#[test]
fn missing_header_then_missing_bitset_go_before_the_header_is_opened() {
    let wrong = nest(1, &[attribute(9, &[])]);
    assert_eq!(told(&message(DEBUG_SET, REQUEST, &[])), (13, vec![(5, 1)]));
    assert_eq!(told(&message(DEBUG_SET, REQUEST, &[nest(2, &[])])), (13, vec![(5, 1)]));
    assert_eq!(told(&message(DEBUG_SET, REQUEST, std::slice::from_ref(&wrong))), (13, vec![(5, 2)]));
    assert_eq!(offset(&message(DEBUG_SET, REQUEST, &[wrong, nest(2, &[])])), (11, 24));
    assert_eq!(told(&get(&[])), (13, vec![(5, 1)]));
}

#[test]
fn header_flags_are_a_bit_map() {
    for flags in 0..4 {
        assert_eq!(told(&header(&[number(1, 3), number(3, flags)])).0, 0);
    }
    for flags in [4, 5, 0x8000_0000, u32::MAX] {
        assert_eq!(offset(&header(&[number(1, 3), number(3, flags)])), (15, 32));
    }
    assert_eq!(offset(&header(&[number(3, 4)])), (14, 20));
    assert_eq!(offset(&header(&[number(3, 4), number(1, 9)])), (15, 24));
}

#[test]
fn port_is_found_by_index_if_given_else_by_name() {
    let name = |name: &[u8]| attribute(2, name);
    assert_eq!(told(&header(&[name(b"sw0\0")])).0, 0);
    assert_eq!(told(&header(&[name(b"sw0\0"), number(1, 3)])).0, 0);
    for index in [0, 4, 0x8000_0003, u32::MAX] {
        assert_eq!(offset(&header(&[name(b"sw0\0"), number(1, index)])), (16, 32));
    }
    for other in [&b"sw1\0"[..], b"sw\0", b"sw00\0", b"\0"] {
        assert_eq!(offset(&header(&[name(other)])), (16, 24));
        assert_eq!(offset(&header(&[number(1, 3), name(other)])), (17, 20));
    }
}

#[test]
fn set_changes_only_the_named_set_of_the_named_port() {
    let mut setup = Setup::document();
    setup.roll = [port(9, b"a"), port(3, b"sw0"), port(1, b"b")].concat();
    setup.debug_names = names(70, &[]);
    setup.set_words(&[0; 15]);
    let list = nest(2, &[nest(BITS, &[bit_at(39, true)])]);
    assert_eq!(setup.call(&message(PRIVFLAGS_SET, REQUEST, &[by_index(3), list.clone()])).refusal, 0);
    assert_eq!(setup.call(&message(DEBUG_SET, REQUEST, &[by_index(1), list])).refusal, 0);
    let mut expected = [0; 15];
    expected[5 + 3 + 1] = 0x80;
    expected[10 + 1] = 0x80;
    assert_eq!(setup.words(), expected);
}
