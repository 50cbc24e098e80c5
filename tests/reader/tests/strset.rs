//! Name lists over the wire (request C-13), reply by reply, byte for byte.

mod common;
use common::strset::*;
use common::*;

/// The reply about the private flags of port 3, and about the message classes without a port.
fn flags_of_sw0() -> Vec<u8> {
    bytes(&["84 00 00 00", HEADERS, SW0, "5C 00 02 80", FLAG_SET])
}

fn classes() -> Vec<u8> {
    bytes(&["60 00 00 00", HEADERS, "4C 00 02 80", CLASS_SET])
}

#[test]
fn port_by_index_without_a_list_gives_its_private_flags() {
    let asked = request(&[by_index(3)]);
    let sent = "20 00 00 00 19 00 01 00 07 00 00 00 09 00 00 00 01 01 00 00 0C 00 01 80 08 00 01 00 03 00 00 00";
    assert_eq!(asked, hex(sent));
    let expected = "84 00 00 00 19 00 00 00 07 00 00 00 09 00 00 00 01 01 00 00 \
        14 00 01 80 08 00 01 00 03 00 00 00 08 00 02 00 73 77 30 00 \
        5C 00 02 80 58 00 01 80 08 00 01 00 02 00 00 00 08 00 02 00 03 00 00 00 44 00 03 80 \
        18 00 01 80 08 00 01 00 00 00 00 00 09 00 02 00 6C 6C 64 70 00 00 00 00 \
        14 00 01 80 08 00 01 00 01 00 00 00 05 00 02 00 00 00 00 00 \
        14 00 01 80 08 00 01 00 02 00 00 00 08 00 02 00 65 65 65 00";
    assert_eq!(replied(&asked), hex(expected));
    assert_eq!(flags_of_sw0(), hex(expected));
}

#[test]
fn no_port_and_no_list_give_message_classes_without_a_header_nest() {
    let asked = request(&[no_port()]);
    let sent = "18 00 00 00 19 00 01 00 07 00 00 00 09 00 00 00 01 01 00 00 04 00 01 80";
    assert_eq!(asked, hex(sent));
    let expected = "60 00 00 00 19 00 00 00 07 00 00 00 09 00 00 00 01 01 00 00 \
        4C 00 02 80 48 00 01 80 08 00 01 00 0A 00 00 00 08 00 02 00 02 00 00 00 34 00 03 80 \
        18 00 01 80 08 00 01 00 00 00 00 00 0A 00 02 00 70 72 6F 62 65 00 00 00 \
        18 00 01 80 08 00 01 00 01 00 00 00 09 00 02 00 6C 69 6E 6B 00 00 00 00";
    assert_eq!(replied(&asked), hex(expected));
    assert_eq!(classes(), hex(expected));
}

#[test]
fn port_by_name_or_by_both_gives_the_same_reply() {
    let name = attribute(2, b"sw0\0");
    assert_eq!(replied(&request(&[nest(1, std::slice::from_ref(&name))])), flags_of_sw0());
    assert_eq!(replied(&request(&[nest(1, &[name.clone(), number(1, 3)])])), flags_of_sw0());
    assert_eq!(replied(&request(&[nest(1, &[number(1, 3), name])])), flags_of_sw0());
}

#[test]
fn header_nest_is_that_of_the_named_port() {
    let expected = bytes(&["88 00 00 00", HEADERS, ETH1, "5C 00 02 80", FLAG_SET]);
    assert_eq!(replied(&request(&[nest(1, &[attribute(2, b"eth1\0")])])), expected);
    assert_eq!(replied(&request(&[by_index(1), ids(&[FLAGS])])), expected);
}

#[test]
fn empty_list_is_as_no_list() {
    assert_eq!(replied(&request(&[by_index(3), list(&[])])), flags_of_sw0());
    assert_eq!(replied(&request(&[no_port(), list(&[])])), classes());
    assert_eq!(replied(&request(&[list(&[]), nest(1, &[number(3, 2)])])), classes());
}

#[test]
fn listed_ids_alone_are_answered() {
    assert_eq!(replied(&request(&[by_index(3), ids(&[FLAGS])])), flags_of_sw0());
    assert_eq!(replied(&request(&[no_port(), ids(&[CLASSES])])), classes());
    let with_port = bytes(&["74 00 00 00", HEADERS, SW0, "4C 00 02 80", CLASS_SET]);
    assert_eq!(replied(&request(&[by_index(3), ids(&[CLASSES])])), with_port);
}

#[test]
fn sets_go_out_in_the_order_of_their_ids() {
    let flags_first = bytes(&["CC 00 00 00", HEADERS, SW0, "A4 00 02 80", FLAG_SET, CLASS_SET]);
    let classes_first = bytes(&["CC 00 00 00", HEADERS, SW0, "A4 00 02 80", CLASS_SET, FLAG_SET]);
    let asked = request(&[by_index(3), ids(&[FLAGS, CLASSES])]);
    let sent = "3C 00 00 00 19 00 01 00 07 00 00 00 09 00 00 00 01 01 00 00 0C 00 01 80 08 00 01 00 03 00 00 00 \
        1C 00 02 80 0C 00 01 80 08 00 01 00 02 00 00 00 0C 00 01 80 08 00 01 00 0A 00 00 00";
    assert_eq!(asked, hex(sent));
    assert_eq!(replied(&asked), flags_first);
    assert_eq!(replied(&request(&[by_index(3), ids(&[CLASSES, FLAGS])])), classes_first);
    assert_eq!(replied(&request(&[ids(&[CLASSES, FLAGS]), by_index(3)])), classes_first);
}

#[test]
fn repeated_id_is_answered_once_where_it_first_stands() {
    let flags_first = bytes(&["CC 00 00 00", HEADERS, SW0, "A4 00 02 80", FLAG_SET, CLASS_SET]);
    let classes_first = bytes(&["CC 00 00 00", HEADERS, SW0, "A4 00 02 80", CLASS_SET, FLAG_SET]);
    let with_port = |listed: &[u32]| replied(&request(&[by_index(3), ids(listed)]));
    assert_eq!(with_port(&[2, 2]), flags_of_sw0());
    assert_eq!(with_port(&[2, 10, 2]), flags_first);
    assert_eq!(with_port(&[2, 2, 10]), flags_first);
    assert_eq!(with_port(&[2, 10, 10]), flags_first);
    assert_eq!(with_port(&[10, 2, 10]), classes_first);
    assert_eq!(with_port(&[10, 10, 2, 2]), classes_first);
    assert_eq!(with_port(&[10, 2, 2, 10, 2]), classes_first);
    assert_eq!(replied(&request(&[no_port(), ids(&[10; 200])])), classes());
}

#[test]
fn last_id_of_a_stringset_counts() {
    let twice = |first, last| list(&[nest(1, &[number(1, first), number(1, last)])]);
    assert_eq!(replied(&request(&[by_index(3), twice(CLASSES, FLAGS)])), flags_of_sw0());
    assert_eq!(replied(&request(&[no_port(), twice(FLAGS, CLASSES)])), classes());
    assert_eq!(replied(&request(&[no_port(), twice(77, CLASSES)])), classes());
}

#[test]
fn last_stringsets_counts_and_alone_is_opened() {
    let broken = nest(2, &[vec![1, 2, 3]]);
    let unknown = ids(&[77]);
    for before in [broken, unknown, ids(&[FLAGS]), list(&[nest(1, &[])])] {
        assert_eq!(replied(&request(&[no_port(), before.clone(), ids(&[CLASSES])])), classes());
        assert_eq!(replied(&request(&[before.clone(), by_index(3), ids(&[FLAGS])])), flags_of_sw0());
        assert_eq!(replied(&request(&[by_index(3), before, list(&[])])), flags_of_sw0());
    }
}

#[test]
fn counts_only_drops_the_strings_and_is_not_echoed() {
    let expected = bytes(&["40 00 00 00", HEADERS, SW0, "18 00 02 80", FLAG_COUNT]);
    let asked = request(&[by_index(3), counts_only()]);
    let sent = "24 00 00 00 19 00 01 00 07 00 00 00 09 00 00 00 01 01 00 00 0C 00 01 80 08 00 01 00 03 00 00 00 \
        04 00 03 00";
    assert_eq!(asked, hex(sent));
    assert_eq!(replied(&asked), expected);
    assert_eq!(replied(&request(&[counts_only(), by_index(3), list(&[]), counts_only()])), expected);
    let without = bytes(&["2C 00 00 00", HEADERS, "18 00 02 80", CLASS_COUNT]);
    assert_eq!(replied(&request(&[no_port(), counts_only()])), without);
    assert_eq!(replied(&request(&[counts_only(), no_port(), ids(&[CLASSES])])), without);
}

#[test]
fn counts_only_of_both_sets_keeps_their_order() {
    let both = |listed: &[u32]| replied(&request(&[by_index(1), counts_only(), ids(listed)]));
    let flags_first = bytes(&["58 00 00 00", HEADERS, ETH1, "2C 00 02 80", FLAG_COUNT, CLASS_COUNT]);
    let classes_first = bytes(&["58 00 00 00", HEADERS, ETH1, "2C 00 02 80", CLASS_COUNT, FLAG_COUNT]);
    assert_eq!(both(&[2, 10]), flags_first);
    assert_eq!(both(&[2, 10, 2]), flags_first);
    assert_eq!(both(&[10, 2]), classes_first);
    assert_eq!(both(&[10, 2, 10, 10]), classes_first);
}

#[test]
fn header_flags_change_nothing() {
    for flags in 0..4 {
        assert_eq!(replied(&request(&[nest(1, &[number(1, 3), number(3, flags)])])), flags_of_sw0());
        assert_eq!(replied(&request(&[nest(1, &[number(3, flags)])])), classes());
    }
    assert_eq!(replied(&request(&[nest(1, &[number(3, 4), number(3, 1)])])), classes());
}

#[test]
fn list_of_one_entry_without_a_name_goes_out_as_one_nul() {
    let mut setup = lists();
    setup.debug_names = names(1, &[]);
    setup.set_words(&[0; 4]);
    let expected = "44 00 00 00 19 00 00 00 07 00 00 00 09 00 00 00 01 01 00 00 \
        30 00 02 80 2C 00 01 80 08 00 01 00 0A 00 00 00 08 00 02 00 01 00 00 00 \
        18 00 03 80 14 00 01 80 08 00 01 00 00 00 00 00 05 00 02 00 00 00 00 00";
    assert_eq!(answered(&mut setup, &request(&[no_port()])), (0, hex(expected)));
}

#[test]
fn longest_name_goes_out_with_its_nul_and_any_byte_in_it() {
    let mut setup = lists();
    setup.flag_names = names(1, &[(0, &[0xFF; 31])]);
    setup.set_words(&[0; 4]);
    let head = "74 00 00 00 19 00 00 00 07 00 00 00 09 00 00 00 01 01 00 00 \
        14 00 01 80 08 00 01 00 03 00 00 00 08 00 02 00 73 77 30 00 \
        4C 00 02 80 48 00 01 80 08 00 01 00 02 00 00 00 08 00 02 00 01 00 00 00 \
        34 00 03 80 30 00 01 80 08 00 01 00 00 00 00 00 24 00 02 00";
    let expected = [hex(head), vec![0xFF; 31], vec![0]].concat();
    assert_eq!(answered(&mut setup, &request(&[by_index(3)])), (0, expected));
}

#[test]
fn port_name_of_fifteen_letters_is_whole_in_the_header_nest() {
    let mut setup = lists();
    setup.roll = port(0x7FFF_FFFF, b"fifteen-letters");
    setup.set_words(&[0, 0]);
    let expected = "4C 00 00 00 19 00 00 00 07 00 00 00 09 00 00 00 01 01 00 00 \
        20 00 01 80 08 00 01 00 FF FF FF 7F 14 00 02 00 66 69 66 74 65 65 6E 2D 6C 65 74 74 65 72 73 00 \
        18 00 02 80 14 00 01 80 08 00 01 00 02 00 00 00 08 00 02 00 03 00 00 00";
    let asked = request(&[nest(1, &[attribute(2, b"fifteen-letters\0")]), counts_only()]);
    assert_eq!(answered(&mut setup, &asked), (0, hex(expected)));
}

#[test]
fn ack_follows_the_reply() {
    let asked = message(STRSET_GET, REQUEST | ACK, &[by_index(3)]);
    let ack = "24 00 00 00 02 00 00 01 07 00 00 00 09 00 00 00 00 00 00 00 \
        20 00 00 00 19 00 05 00 07 00 00 00 09 00 00 00";
    assert_eq!(replied(&asked), [flags_of_sw0(), hex(ack)].concat());
    let counts = message(STRSET_GET, REQUEST | ACK, &[no_port(), counts_only()]);
    let expected = "2C 00 00 00 19 00 00 00 07 00 00 00 09 00 00 00 01 01 00 00 \
        18 00 02 80 14 00 01 80 08 00 01 00 0A 00 00 00 08 00 02 00 02 00 00 00 \
        24 00 00 00 02 00 00 01 07 00 00 00 09 00 00 00 00 00 00 00 1C 00 00 00 19 00 05 00 07 00 00 00 09 00 00 00";
    assert_eq!(replied(&counts), hex(expected));
}

#[test]
fn sender_need_not_be_admin() {
    let mut setup = lists();
    setup.admin = 0;
    assert_eq!(answered(&mut setup, &request(&[by_index(3)])), (0, flags_of_sw0()));
    assert_eq!(answered(&mut setup, &request(&[no_port(), ids(&[CLASSES])])), (0, classes()));
}

#[test]
fn message_flags_version_and_reserved_change_nothing() {
    for flags in [0x100, 0x200, 2, 8, 0xFCFA] {
        assert_eq!(replied(&message(STRSET_GET, REQUEST | flags, &[by_index(3)])), flags_of_sw0(), "{flags:#x}");
    }
    let mut asked = request(&[no_port()]);
    asked[17..20].fill(0xFF);
    assert_eq!(replied(&asked), classes());
}

#[test]
fn family_sequence_and_port_id_are_echoed_whole() {
    let mut setup = lists();
    setup.family = 0xFEDC;
    let mut asked = message(STRSET_GET, REQUEST | ACK, &[no_port(), counts_only()]);
    asked[4..6].copy_from_slice(&[0xDC, 0xFE]);
    asked[8..16].copy_from_slice(&hex("F8 F7 F6 F5 E4 E3 E2 E1"));
    let expected = "2C 00 00 00 DC FE 00 00 F8 F7 F6 F5 E4 E3 E2 E1 01 01 00 00 \
        18 00 02 80 14 00 01 80 08 00 01 00 0A 00 00 00 08 00 02 00 02 00 00 00 \
        24 00 00 00 02 00 00 01 F8 F7 F6 F5 E4 E3 E2 E1 00 00 00 00 1C 00 00 00 DC FE 05 00 F8 F7 F6 F5 E4 E3 E2 E1";
    assert_eq!(answered(&mut setup, &asked), (0, hex(expected)));
}

#[test]
fn last_padding_may_be_absent_and_none_is_looked_at() {
    let named = unpadded(0x8001, &unpadded(2, b"eth1\0"));
    let expected = bytes(&["88 00 00 00", HEADERS, ETH1, "5C 00 02 80", FLAG_SET]);
    assert_eq!(replied(&request(&[list(&[]), named.clone()])), expected);
    let dirty = [named, vec![0xFF; 3], ids(&[FLAGS])];
    assert_eq!(replied(&request(&dirty)), expected);
}

/// A STRINGSET of a reply, put together once more.
fn rebuilt(id: u32, entries: &[Vec<u8>]) -> Vec<u8> {
    let string = |(bit, name): (usize, &Vec<u8>)| {
        nest(1, &[number(1, bit as u32), attribute(2, &[name.as_slice(), b"\0"].concat())])
    };
    let strings = entries.iter().enumerate().map(string).collect::<Vec<_>>();
    nest(1, &[number(1, id), number(2, entries.len() as u32), nest(3, &strings)])
}

#[test]
fn lists_of_every_length_and_names_of_every_length() {
    for bits in [1, 2, 31, 32, 33, 64, 200, 511, 512] {
        let called = |bit: usize| format!("{bit:031}").into_bytes()[31 - bit % 32..].to_vec();
        let entries = (0..bits).map(|bit| if bit < 32 { called(bit) } else { Vec::new() }).collect::<Vec<_>>();
        let mut setup = lists();
        setup.debug_names = entries.iter().flat_map(|name| names(1, &[(0, name)])).collect();
        setup.set_words(&vec![0; 2 * (bits.div_ceil(32) + 1)]);
        let nests = [hex(SW0), nest(2, &[rebuilt(CLASSES, &entries), hex(FLAG_SET)])].concat();
        let length = (20 + nests.len() as u32).to_le_bytes().to_vec();
        let (refusal, reply) = answered(&mut setup, &request(&[by_index(3), ids(&[CLASSES, FLAGS])]));
        assert_eq!((refusal, reply), (0, [length, hex(HEADERS), nests].concat()), "{bits}");
    }
}
