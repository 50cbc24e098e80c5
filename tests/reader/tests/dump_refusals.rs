//! Refusals of dumps (request C-11): 8 of a SET at its old place and of a dump in the place of 14, and what goes before
//! and behind them, at every place.

mod common;
use common::dumps::*;
use common::*;

/// The refusal number and OFFS of a dump of two ports, the same at every place.
fn offset(request: &[u8]) -> (u32, Option<u32>) {
    let told = [0, 1, 2].map(|place| refused(&mut two(), request, place));
    assert!(told[0] == told[1] && told[1] == told[2]);
    let (number, error) = &told[0];
    match details(error)[..] {
        [] => (*number, None),
        [(2, offset)] => (*number, Some(offset)),
        _ => panic!("not one OFFS: {error:x?}"),
    }
}

#[test]
fn dump_that_names_a_port_is_8_with_36_bytes() {
    let request = dump(DEBUG_GET, ACK, &[number(1, 3)]);
    let expected = "24 00 00 00 02 00 00 01 07 00 00 00 09 00 00 00 A1 FF FF FF \
        20 00 00 00 19 00 05 03 07 00 00 00 09 00 00 00";
    for place in 0..3 {
        assert_eq!(refused(&mut two(), &request, place), (8, hex(expected)));
    }
}

#[test]
fn any_index_or_name_names_a_port() {
    let name = |name: &[u8]| attribute(2, name);
    for index in [0, 1, 3, 4, 0x8000_0003, u32::MAX] {
        assert_eq!(offset(&dump(PRIVFLAGS_GET, 0, &[number(1, index)])), (8, None));
        assert_eq!(offset(&dump(PRIVFLAGS_GET, 0, &[number(3, 1), number(1, index)])), (8, None));
    }
    for other in [&b"sw0\0"[..], b"eth1\0", b"unknown\0", b"\0"] {
        assert_eq!(offset(&dump(DEBUG_GET, 0, &[name(other)])), (8, None));
        assert_eq!(offset(&dump(DEBUG_GET, 0, &[name(other), number(1, 3), number(3, 0)])), (8, None));
        assert_eq!(offset(&dump(DEBUG_GET, 0, &[number(1, 9), name(other)])), (8, None));
    }
}

#[test]
fn refused_dump_moves_by_its_padded_step() {
    let request = message(DEBUG_GET, REQUEST | DUMP, &[unpadded(0x8001, &unpadded(2, b"a\0"))]);
    assert_eq!(request.len(), 30);
    for after in 0..4 {
        let (answer, _) = shown(&mut two(), &[request.clone(), vec![0; after]].concat(), 0, 1);
        assert_eq!((answer.refusal, answer.next, answer.next_place), (8, (30 + after as u64).min(32), 0));
    }
}

#[test]
fn set_with_both_bits_is_8_after_7_and_before_9() {
    let expected = "24 00 00 00 02 00 00 01 07 00 00 00 09 00 00 00 A1 FF FF FF \
        17 00 00 00 19 00 01 03 07 00 00 00 09 00 00 00";
    let mut setup = two();
    for admin in [0, 1] {
        setup.admin = admin;
        for command in [DEBUG_SET, PRIVFLAGS_SET] {
            let broken = message(command, REQUEST | DUMP, &[vec![0; 3]]);
            assert_eq!(refused(&mut setup, &broken, 0), (8, hex(expected)));
            let list = nest(2, &[nest(BITS, &[bit_at(4, true)])]);
            assert_eq!(refused(&mut setup, &message(command, REQUEST | DUMP, &[by_index(3), list.clone()]), 1).0, 8);
            assert_eq!(refused(&mut setup, &message(command, REQUEST | DUMP, &[nest(1, &[]), list]), 2).0, 8);
        }
        assert_eq!(refused(&mut setup, &message(9, REQUEST | DUMP, &[nest(1, &[])]), 0).0, 7);
        assert_eq!(refused(&mut setup, &message_of(25, REQUEST | DUMP, &[8, 1, 0]), 0).0, 6);
        assert_eq!(refused(&mut setup, &message_of(26, REQUEST | DUMP, &[8, 1, 0, 0]), 0).0, 5);
    }
}

#[test]
fn dump_is_judged_as_a_get_up_to_its_header_at_every_place() {
    let get = |attributes: &[Vec<u8>]| message(DEBUG_GET, REQUEST | DUMP, attributes);
    assert_eq!(offset(&message_of(26, REQUEST | DUMP, &[7, 1, 0, 0])), (5, None));
    assert_eq!(offset(&message_of(25, REQUEST | DUMP, &[7])), (6, None));
    assert_eq!(offset(&message(2, REQUEST | DUMP, &[nest(1, &[])])), (7, None));
    assert_eq!(offset(&message(1, REQUEST | DUMP, &[nest(1, &[])])), (8, None));
    assert_eq!(offset(&get(&[by_index(3), vec![0]])), (10, Some(32)));
    assert_eq!(offset(&get(&[by_index(3), nest(2, &[])])), (11, Some(32)));
    assert_eq!(offset(&get(&[attribute(1, &[]), nest(1, &[])])), (12, Some(20)));
    assert_eq!(offset(&dump(DEBUG_GET, 0, &[vec![0; 2]])), (10, Some(24)));
}

#[test]
fn dump_without_a_header_nest_is_13_with_its_type_alone() {
    let expected = "2C 00 00 00 02 00 00 03 07 00 00 00 09 00 00 00 EA FF FF FF \
        14 00 00 00 19 00 01 03 07 00 00 00 09 00 00 00 08 00 05 00 01 00 00 00";
    for place in 0..3 {
        let request = message(PRIVFLAGS_GET, REQUEST | DUMP, &[]);
        assert_eq!(refused(&mut two(), &request, place), (13, hex(expected)));
    }
}

#[test]
fn header_is_walked_whole_before_8_and_8_goes_before_15() {
    let header = |parts: &[Vec<u8>]| dump(PRIVFLAGS_GET, 0, parts);
    assert_eq!(offset(&header(&[number(1, 3), vec![0]])), (10, Some(32)));
    assert_eq!(offset(&header(&[number(1, 3), attribute(4, &[])])), (11, Some(32)));
    assert_eq!(offset(&header(&[number(1, 3), attribute(2, b"sw0")])), (12, Some(32)));
    assert_eq!(offset(&header(&[number(3, 4), attribute(3, &[])])), (12, Some(32)));
    for flags in [4, 5, 0x8000_0000, u32::MAX] {
        assert_eq!(offset(&header(&[number(3, flags), number(1, 3)])), (8, None));
        assert_eq!(offset(&header(&[attribute(2, b"\0"), number(3, flags)])), (8, None));
        assert_eq!(offset(&header(&[number(3, flags)])), (15, Some(24)));
        assert_eq!(offset(&header(&[number(3, 1), number(3, flags)])), (15, Some(32)));
    }
}

#[test]
fn only_the_last_header_nest_and_flags_count() {
    let named = nest(1, &[number(1, 3)]);
    let last_names_none = message(PRIVFLAGS_GET, REQUEST | DUMP, &[named.clone(), nest(1, &[number(3, 1)])]);
    assert_eq!(shown(&mut two(), &last_names_none, 0, 0), (done(0, 1, 68), hex(FIRST)));
    assert_eq!(offset(&message(PRIVFLAGS_GET, REQUEST | DUMP, &[nest(1, &[]), named])), (8, None));
    let flags = dump(PRIVFLAGS_GET, 0, &[number(3, 7), number(3, 1)]);
    assert_eq!(shown(&mut two(), &flags, 0, 1), (done(0, 2, 72), hex(SECOND)));
}
