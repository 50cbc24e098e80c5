//! Refusals of STRSET_GET (request C-13): each with its detail, and what goes before what.

mod common;
use common::strset::*;
use common::*;

/// Refusal number and the error message's attributes; 0 where the request is done.
fn told(request: &[u8]) -> (u32, Vec<(u16, u32)>) {
    let (refusal, error) = answered(&mut lists(), request);
    (refusal, if refusal == 0 { Vec::new() } else { details(&error) })
}

/// Refusal number and OFFS.
fn offset(request: &[u8]) -> (u32, u32) {
    match told(request) {
        (refusal, details) if details.len() == 1 && details[0].0 == 2 => (refusal, details[0].1),
        other => panic!("no OFFS alone: {other:?}"),
    }
}

/// The same of a request about port 3 with these STRINGSETs, the first of which stands at 36.
fn listed(sets: &[Vec<u8>]) -> (u32, u32) {
    offset(&request(&[by_index(3), list(sets)]))
}

/// A request whose header nest has these parts, the first of which stands at 24.
fn header(parts: &[Vec<u8>]) -> Vec<u8> {
    request(&[nest(1, parts)])
}

/// One that would be refused when its STRINGSETS is opened.
fn broken_list() -> Vec<u8> {
    list(&[vec![1, 2, 3]])
}

#[test]
fn both_dump_bits_are_8_with_36_bytes_before_everything_else() {
    let expected = "24 00 00 00 02 00 00 01 07 00 00 00 09 00 00 00 A1 FF FF FF \
        18 00 00 00 19 00 01 03 07 00 00 00 09 00 00 00";
    let dump = |flags, attributes: &[Vec<u8>]| message(STRSET_GET, REQUEST | 0x300 | flags, attributes);
    assert_eq!(answered(&mut lists(), &dump(0, &[no_port()])), (8, hex(expected)));
    let with_port = "24 00 00 00 02 00 00 01 07 00 00 00 09 00 00 00 A1 FF FF FF \
        20 00 00 00 19 00 05 03 07 00 00 00 09 00 00 00";
    assert_eq!(answered(&mut lists(), &dump(ACK, &[by_index(3)])), (8, hex(with_port)));
    let unknown_flags = nest(1, &[number(3, 4)]);
    for attributes in [vec![vec![0; 3]], vec![], vec![unknown_flags], vec![no_port(), ids(&[FLAGS])]] {
        assert_eq!(told(&dump(0, &attributes)), (8, vec![]));
    }
}

#[test]
fn family_and_length_go_before_8_and_admin_is_not_asked_for() {
    let mut setup = lists();
    setup.admin = 0;
    let refusal = |setup: &mut Setup, request: &[u8]| answered(setup, request).0;
    assert_eq!(refusal(&mut setup, &message_of(26, REQUEST | 0x300, &[STRSET_GET, 1, 0, 0])), 5);
    assert_eq!(refusal(&mut setup, &message_of(25, REQUEST | 0x300, &[STRSET_GET, 1, 0])), 6);
    assert_eq!(refusal(&mut setup, &message_of(25, REQUEST | 0x300, &[STRSET_GET, 1, 0, 0])), 8);
    assert_eq!(refusal(&mut setup, &message_of(25, REQUEST, &[STRSET_GET, 1, 0, 0])), 13);
}

#[test]
fn place_is_passed_over_and_0_is_handed_back() {
    let named = request(&[unpadded(0x8001, &unpadded(2, b"eth1\0"))]);
    let dump = message(STRSET_GET, REQUEST | 0x300, &[no_port()]);
    for place in 0..3 {
        let answer = lists().call_at_place(&[named.clone(), vec![0; 3], dump.clone()].concat(), 0, place);
        assert_eq!((answer.kind, answer.next, answer.next_place, answer.written), (reader::DONE, 36, 0, 136));
        let answer = lists().call_at_place(&dump, 0, place);
        assert_eq!((answer.refusal, answer.next, answer.next_place, answer.written), (8, 24, 0, 36));
    }
    assert_eq!(lists().call_at_place(&named, 0, 3).refusal, 1);
}

#[test]
fn top_level_is_walked_whole_attribute_by_attribute() {
    assert_eq!(offset(&request(&[by_index(3), vec![0]])), (10, 32));
    assert_eq!(offset(&request(&[by_index(3), counts_only(), vec![3, 0, 1, 0x80]])), (10, 36));
    assert_eq!(offset(&request(&[vec![9, 0, 2, 0x80, 0, 0, 0, 0]])), (10, 20));
    for kind in [0, 4, 5, 0x8004, 0x4004, 0x3FFF] {
        assert_eq!(offset(&request(&[by_index(3), attribute(kind, &[])])), (11, 32), "{kind:#x}");
    }
    for kind in [1, 2, 0x8003, 0x4003, 0xC001, 0xC002, 0xC003] {
        assert_eq!(offset(&request(&[by_index(3), attribute(kind, &[])])), (12, 32), "{kind:#x}");
    }
    for payload in [&[0][..], &[1, 0, 0, 0]] {
        assert_eq!(offset(&request(&[attribute(3, payload), by_index(3), counts_only()])), (12, 20));
    }
    assert_eq!(offset(&request(&[attribute(4, &[]), vec![0]])), (11, 20));
    assert_eq!(offset(&request(&[attribute(2, &[]), attribute(4, &[])])), (12, 20));
}

#[test]
fn missing_header_is_13_with_its_type_alone() {
    let expected = "2C 00 00 00 02 00 00 03 07 00 00 00 09 00 00 00 EA FF FF FF \
        14 00 00 00 19 00 01 00 07 00 00 00 09 00 00 00 08 00 05 00 01 00 00 00";
    assert_eq!(answered(&mut lists(), &request(&[])), (13, hex(expected)));
    assert_eq!(told(&request(&[counts_only()])), (13, vec![(5, 1)]));
    assert_eq!(told(&request(&[ids(&[CLASSES])])), (13, vec![(5, 1)]));
    assert_eq!(told(&request(&[broken_list()])), (13, vec![(5, 1)]));
    assert_eq!(told(&request(&[ids(&[77])])), (13, vec![(5, 1)]));
    assert_eq!(offset(&request(&[ids(&[CLASSES]), vec![0, 0]])), (10, 36));
}

#[test]
fn header_is_walked_whole_before_it_is_judged() {
    assert_eq!(offset(&header(&[number(3, 4), vec![0]])), (10, 32));
    assert_eq!(offset(&header(&[number(1, 9), attribute(4, &[])])), (11, 32));
    assert_eq!(offset(&header(&[number(1, 9), attribute(2, b"sw0")])), (12, 32));
    assert_eq!(offset(&header(&[attribute(3, &[]), number(3, 4)])), (12, 24));
    assert_eq!(offset(&request(&[nest(1, &[vec![0; 2]]), broken_list()])), (10, 24));
}

#[test]
fn header_without_a_port_is_not_14() {
    assert_eq!(told(&header(&[])).0, 0);
    assert_eq!(told(&header(&[number(3, 0)])).0, 0);
    assert_eq!(told(&request(&[by_index(9), no_port()])).0, 0);
}

#[test]
fn unknown_header_flags_are_15_with_or_without_a_port() {
    let expected = "2C 00 00 00 02 00 00 03 07 00 00 00 09 00 00 00 A1 FF FF FF \
        20 00 00 00 19 00 01 00 07 00 00 00 09 00 00 00 08 00 02 00 18 00 00 00";
    assert_eq!(answered(&mut lists(), &header(&[number(3, 4)])), (15, hex(expected)));
    for flags in [4, 7, 0x100, 0x8000_0000, u32::MAX] {
        assert_eq!(offset(&header(&[number(3, flags)])), (15, 24));
        assert_eq!(offset(&header(&[number(1, 3), number(3, flags)])), (15, 32));
        assert_eq!(offset(&header(&[number(3, 1), number(3, flags)])), (15, 32));
        assert_eq!(offset(&header(&[number(1, 9), number(3, flags)])), (15, 32));
        assert_eq!(offset(&header(&[attribute(2, b"\0"), number(3, flags)])), (15, 32));
        assert_eq!(offset(&request(&[nest(1, &[number(3, flags)]), broken_list()])), (15, 24));
        assert_eq!(offset(&request(&[nest(1, &[number(3, flags)]), ids(&[FLAGS])])), (15, 24));
    }
}

#[test]
fn unknown_port_is_16_at_what_names_it() {
    let expected = "2C 00 00 00 02 00 00 03 07 00 00 00 09 00 00 00 ED FF FF FF \
        20 00 00 00 19 00 01 00 07 00 00 00 09 00 00 00 08 00 02 00 18 00 00 00";
    assert_eq!(answered(&mut lists(), &request(&[by_index(4)])), (16, hex(expected)));
    for index in [0, 2, 0x8000_0003, u32::MAX] {
        assert_eq!(offset(&header(&[number(1, index)])), (16, 24));
        assert_eq!(offset(&header(&[attribute(2, b"sw0\0"), number(1, index)])), (16, 32));
    }
    for name in [&b"\0"[..], b"sw\0", b"sw00\0", b"eth0\0"] {
        assert_eq!(offset(&header(&[number(3, 3), attribute(2, name)])), (16, 32));
    }
    assert_eq!(offset(&request(&[by_index(4), ids(&[CLASSES])])), (16, 24));
    assert_eq!(offset(&request(&[by_index(4), broken_list()])), (16, 24));
}

#[test]
fn name_of_another_port_is_17_before_the_list_is_opened() {
    for name in [&b"eth1\0"[..], b"\0", b"unknown\0"] {
        let both = nest(1, &[number(1, 3), attribute(2, name)]);
        assert_eq!(offset(&request(std::slice::from_ref(&both))), (17, 20));
        for list in [broken_list(), ids(&[77]), ids(&[FLAGS]), list(&[nest(1, &[])])] {
            assert_eq!(offset(&request(&[both.clone(), list])), (17, 20));
        }
    }
}

#[test]
fn stringsets_is_walked_whole_before_any_stringset_is_opened() {
    assert_eq!(listed(&[set(77), vec![0]]), (10, 48));
    assert_eq!(listed(&[set(FLAGS), vec![5, 0, 1, 0x80]]), (10, 48));
    for kind in [0x8000, 0x8002, 2, 3, 0x3FFF] {
        assert_eq!(listed(&[set(77), attribute(kind, &[])]), (11, 48), "{kind:#x}");
    }
    for kind in [1, 0xC001, 0x4001] {
        assert_eq!(listed(&[nest(1, &[]), attribute(kind, &[])]), (12, 40), "{kind:#x}");
    }
    assert_eq!(listed(&[nest(1, &[vec![0]]), number(1, FLAGS)]), (12, 44));
}

#[test]
fn id_alone_is_listed_in_a_stringset() {
    let inside = |parts: &[Vec<u8>]| listed(&[nest(1, parts)]);
    assert_eq!(inside(&[number(1, FLAGS), vec![0; 3]]), (10, 48));
    assert_eq!(inside(&[number(1, FLAGS), number(2, 3)]), (11, 48));
    assert_eq!(inside(&[number(1, FLAGS), nest(3, &[])]), (11, 48));
    assert_eq!(inside(&[attribute(0, &[]), number(1, FLAGS)]), (11, 40));
    for length in [0, 1, 3, 5, 8] {
        assert_eq!(inside(&[attribute(1, &vec![0; length]), number(1, FLAGS)]), (12, 40));
    }
    assert_eq!(inside(&[nest(1, &[vec![2, 0, 0, 0]])]), (12, 40));
    assert_eq!(inside(&[attribute(0x4001, &[0, 0, 0, 2])]), (12, 40));
    assert_eq!(inside(&[number(1, 77), vec![0]]), (10, 48));
}

#[test]
fn missing_id_is_13_with_the_stringset_that_lacks_it() {
    let asked = request(&[by_index(3), list(&[set(CLASSES), nest(1, &[])])]);
    let sent = "34 00 00 00 19 00 01 00 07 00 00 00 09 00 00 00 01 01 00 00 0C 00 01 80 08 00 01 00 03 00 00 00 \
        14 00 02 80 0C 00 01 80 08 00 01 00 0A 00 00 00 04 00 01 80";
    assert_eq!(asked, hex(sent));
    let expected = "34 00 00 00 02 00 00 03 07 00 00 00 09 00 00 00 EA FF FF FF \
        34 00 00 00 19 00 01 00 07 00 00 00 09 00 00 00 08 00 05 00 01 00 00 00 08 00 06 00 30 00 00 00";
    assert_eq!(answered(&mut lists(), &asked), (13, hex(expected)));
    assert_eq!(told(&request(&[no_port(), list(&[nest(1, &[])])])), (13, vec![(5, 1), (6, 28)]));
    assert_eq!(told(&request(&[list(&[nest(1, &[])]), no_port()])), (13, vec![(5, 1), (6, 24)]));
}

#[test]
fn id_that_is_not_offered_is_24_with_errno_95_and_the_offset_of_the_id() {
    let asked = message(STRSET_GET, REQUEST | ACK, &[by_index(3), ids(&[FLAGS, 11])]);
    let sent = "3C 00 00 00 19 00 05 00 07 00 00 00 09 00 00 00 01 01 00 00 0C 00 01 80 08 00 01 00 03 00 00 00 \
        1C 00 02 80 0C 00 01 80 08 00 01 00 02 00 00 00 0C 00 01 80 08 00 01 00 0B 00 00 00";
    assert_eq!(asked, hex(sent));
    let expected = "2C 00 00 00 02 00 00 03 07 00 00 00 09 00 00 00 A1 FF FF FF \
        3C 00 00 00 19 00 05 00 07 00 00 00 09 00 00 00 08 00 02 00 34 00 00 00";
    assert_eq!(answered(&mut lists(), &asked), (24, hex(expected)));
}

#[test]
fn every_other_id_is_24() {
    let far = [256 + 2, 256 + 10, 0x1_0002, 0x1_000A, 0x0200_0000, 0x0A00_0000, 0x8000_0002, 0x8000_000A, u32::MAX];
    for id in (0..300).chain(far).filter(|id| *id != FLAGS && *id != CLASSES) {
        assert_eq!(listed(&[set(id)]), (24, 40), "{id}");
        assert_eq!(offset(&request(&[no_port(), ids(&[id])])), (24, 32), "{id}");
        assert_eq!(offset(&request(&[no_port(), ids(&[CLASSES, id, CLASSES])])), (24, 44), "{id}");
        assert_eq!(offset(&request(&[counts_only(), by_index(3), ids(&[id])])), (24, 44), "{id}");
    }
}

#[test]
fn private_flags_without_a_port_are_24() {
    let expected = "2C 00 00 00 02 00 00 03 07 00 00 00 09 00 00 00 A1 FF FF FF \
        28 00 00 00 19 00 01 00 07 00 00 00 09 00 00 00 08 00 02 00 20 00 00 00";
    assert_eq!(answered(&mut lists(), &request(&[no_port(), ids(&[FLAGS])])), (24, hex(expected)));
    assert_eq!(offset(&request(&[no_port(), ids(&[CLASSES, FLAGS])])), (24, 44));
    assert_eq!(offset(&request(&[no_port(), counts_only(), ids(&[FLAGS])])), (24, 36));
    assert_eq!(offset(&request(&[by_index(3), no_port(), ids(&[FLAGS])])), (24, 44));
}

#[test]
fn last_id_of_a_stringset_alone_is_judged_by_24() {
    let several = |ids: &[u32]| list(&[nest(1, &ids.iter().map(|id| number(1, *id)).collect::<Vec<_>>())]);
    assert_eq!(told(&request(&[by_index(3), several(&[77, FLAGS])])).0, 0);
    assert_eq!(told(&request(&[no_port(), several(&[FLAGS, 77, CLASSES])])).0, 0);
    assert_eq!(offset(&request(&[by_index(3), several(&[FLAGS, 77])])), (24, 48));
    assert_eq!(offset(&request(&[by_index(3), several(&[76, 77])])), (24, 48));
    assert_eq!(offset(&request(&[no_port(), several(&[CLASSES, FLAGS])])), (24, 40));
}

#[test]
fn each_stringset_is_judged_before_the_next_is_walked() {
    let cut = nest(1, &[vec![0]]);
    let unlisted = nest(1, &[number(2, 3)]);
    let wrong = nest(1, &[attribute(1, &[2])]);
    let missing = nest(1, &[]);
    let without_id = (13, vec![(5, 1), (6, 36)]);
    for fault in [&cut, &unlisted, &wrong, &missing, &set(78)] {
        assert_eq!(listed(&[set(77), fault.clone()]), (24, 40));
        assert_eq!(listed(&[set(FLAGS), set(77), fault.clone(), set(CLASSES)]), (24, 52));
        assert_eq!(offset(&request(&[no_port(), list(&[set(FLAGS), fault.clone()])])), (24, 32));
        assert_eq!(told(&request(&[by_index(3), list(&[missing.clone(), fault.clone()])])), without_id);
    }
    assert_eq!(listed(&[cut, set(77)]), (10, 40));
    assert_eq!(listed(&[unlisted, set(77)]), (11, 40));
    assert_eq!(listed(&[set(FLAGS), wrong, missing]), (12, 52));
    assert_eq!(listed(&[set(FLAGS), set(FLAGS), set(77)]), (24, 64));
}

#[test]
fn only_the_last_stringsets_is_opened_and_each_is_checked() {
    assert_eq!(told(&request(&[no_port(), broken_list(), ids(&[CLASSES])])).0, 0);
    assert_eq!(offset(&request(&[no_port(), ids(&[CLASSES]), broken_list()])), (10, 44));
    assert_eq!(offset(&request(&[no_port(), ids(&[CLASSES]), ids(&[77])])), (24, 48));
    assert_eq!(offset(&request(&[no_port(), attribute(2, &[]), ids(&[CLASSES])])), (12, 24));
}
