//! Error messages computed by hand: 36, 44 and 52 bytes (document 01, "What a call says back").

mod common;
use common::*;

#[test]
fn refusal_without_detail_has_36_bytes() {
    let (number, error) = Setup::document().refusal(&message_of(26, REQUEST, &[7, 1, 0, 0]));
    let expected = "24 00 00 00 02 00 00 01 07 00 00 00 09 00 00 00 FE FF FF FF \
        14 00 00 00 1A 00 01 00 07 00 00 00 09 00 00 00";
    assert_eq!((number, error), (5, hex(expected)));
}

#[test]
fn refusal_at_an_attribute_has_44_bytes() {
    let request = message(DEBUG_GET, REQUEST | ACK, &[nest(1, &[number(1, 4)])]);
    let expected = "2C 00 00 00 02 00 00 03 07 00 00 00 09 00 00 00 ED FF FF FF \
        20 00 00 00 19 00 05 00 07 00 00 00 09 00 00 00 08 00 02 00 18 00 00 00";
    assert_eq!(Setup::document().refusal(&request), (16, hex(expected)));
}

#[test]
fn miss_at_the_top_level_has_44_bytes_and_no_nest() {
    let request = message(PRIVFLAGS_SET, REQUEST, &[by_index(3)]);
    let expected = "2C 00 00 00 02 00 00 03 07 00 00 00 09 00 00 00 EA FF FF FF \
        20 00 00 00 19 00 01 00 07 00 00 00 09 00 00 00 08 00 05 00 02 00 00 00";
    assert_eq!(Setup::document().refusal(&request), (13, hex(expected)));
}

#[test]
fn miss_inside_the_bitset_has_52_bytes() {
    let request = message(PRIVFLAGS_SET, REQUEST, &[by_index(3), nest(2, &[number(SIZE, 0), words(VALUE, &[])])]);
    let expected = "34 00 00 00 02 00 00 03 07 00 00 00 09 00 00 00 EA FF FF FF \
        30 00 00 00 19 00 01 00 07 00 00 00 09 00 00 00 08 00 05 00 05 00 00 00 08 00 06 00 20 00 00 00";
    assert_eq!(Setup::document().refusal(&request), (13, hex(expected)));
}

#[test]
fn ack_of_a_set_has_36_bytes() {
    let request = message(PRIVFLAGS_SET, REQUEST | ACK, &[by_index(3), nest(2, &[nest(BITS, &[])])]);
    let mut setup = Setup::document();
    let answer = setup.call(&request);
    let expected = "24 00 00 00 02 00 00 01 07 00 00 00 09 00 00 00 00 00 00 00 \
        28 00 00 00 19 00 05 00 07 00 00 00 09 00 00 00";
    assert_eq!((answer.kind, answer.written), (reader::DONE, 36));
    assert_eq!(setup.page[..36], hex(expected));
}

#[test]
fn every_refusal_has_its_errno() {
    let mut setup = Setup::document();
    let set = |parts: &[Vec<u8>]| message(PRIVFLAGS_SET, REQUEST, &[by_index(3), nest(2, parts)]);
    let header = |parts: &[Vec<u8>]| message(DEBUG_GET, REQUEST, &[nest(1, parts)]);
    let cases = [
        (5, -2, message_of(26, REQUEST, &[7, 1, 0, 0])),
        (6, -22, message_of(25, REQUEST, &[7, 1])),
        (7, -95, message(9, REQUEST, &[])),
        (8, -95, message(DEBUG_GET, REQUEST | 0x300, &[by_index(3)])),
        (10, -22, message(DEBUG_GET, REQUEST, &[by_index(3), vec![0]])),
        (11, -22, message(DEBUG_GET, REQUEST, &[nest(3, &[])])),
        (12, -22, message(DEBUG_GET, REQUEST, &[attribute(1, &[])])),
        (13, -22, message(DEBUG_GET, REQUEST, &[])),
        (14, -22, header(&[])),
        (15, -95, header(&[number(1, 3), number(3, 4)])),
        (16, -19, header(&[number(1, 4)])),
        (17, -19, header(&[number(1, 3), attribute(2, b"sw1\0")])),
        (18, -22, set(&[nest(BITS, &[]), words(VALUE, &[])])),
        (19, -22, set(&[number(SIZE, 1), words(VALUE, &[]), words(MASK, &[0])])),
        (20, -95, set(&[nest(BITS, &[bit_at(40, true)])])),
        (21, -95, set(&[nest(BITS, &[bit_called(b"lld\0", true)])])),
        (22, -22, set(&[nest(BITS, &[bit(&[])])])),
        (23, -22, set(&[nest(BITS, &[bit(&[number(1, 5), attribute(2, b"lldp\0")])])])),
    ];
    for (number, expected, request) in cases {
        let (refusal, error) = setup.refusal(&request);
        assert_eq!((refusal, errno(&error)), (number, expected));
    }
    setup.admin = 0;
    let (refusal, error) = setup.refusal(&set(&[]));
    assert_eq!((refusal, errno(&error)), (9, -1));
}
