//! All ports at once (request C-11): a GET with both DUMP bits that names no port, one message a call.

mod common;
use common::dumps::*;
use common::*;
use reader::DONE;

/// All messages of a dump from its first place on, each at the place and position that the one before handed back.
fn whole(setup: &mut Setup, request: &[u8]) -> Vec<Vec<u8>> {
    let (mut position, mut place) = (0, 0);
    let mut messages = Vec::new();
    while position < request.len() as u64 {
        assert!(messages.len() < 65, "more messages than 64 ports and DONE");
        let (answer, bytes) = shown(setup, request, position, place);
        assert_eq!((answer.kind, answer.refusal), (DONE, 0));
        messages.push(bytes);
        (position, place) = (answer.next, answer.next_place);
    }
    assert_eq!((position, place), (request.len() as u64, 0));
    messages
}

#[test]
fn compact_dump_of_two_ports_byte_for_byte() {
    let request = compact();
    let bytes = "20 00 00 00 19 00 01 03 07 00 00 00 09 00 00 00 0D 01 00 00 0C 00 01 80 08 00 03 00 01 00 00 00";
    assert_eq!(request, hex(bytes));
    let mut setup = two();
    assert_eq!(shown(&mut setup, &request, 0, 0), (done(0, 1, 68), hex(FIRST)));
    assert_eq!(shown(&mut setup, &request, 0, 1), (done(0, 2, 72), hex(SECOND)));
    assert_eq!(shown(&mut setup, &request, 0, 2), (done(32, 0, 20), hex(DONE_MESSAGE)));
}

#[test]
fn verbose_dump_byte_for_byte() {
    let request = dump(PRIVFLAGS_GET, 0, &[]);
    let reply = "64 00 00 00 19 00 02 00 07 00 00 00 09 00 00 00 0E 01 00 00 18 00 01 80 08 00 01 00 01 00 00 00 \
        09 00 02 00 65 74 68 31 00 00 00 00 38 00 02 80 04 00 01 00 08 00 02 00 28 00 00 00 \
        28 00 03 80 18 00 01 80 08 00 01 00 03 00 00 00 09 00 02 00 6C 6C 64 70 00 00 00 00 \
        0C 00 01 80 08 00 01 00 27 00 00 00";
    let mut setup = two();
    assert_eq!(shown(&mut setup, &request, 0, 1), (done(0, 2, 100), hex(reply)));
    assert_eq!(shown(&mut setup, &request, 0, 2), (done(24, 0, 20), hex(DONE_MESSAGE)));
}

#[test]
fn debug_dump_shows_the_debug_sets_under_command_7() {
    let replies = whole(&mut two(), &dump(DEBUG_GET, 0, &[number(3, 1)]));
    assert_eq!(replies.len(), 3);
    assert_eq!(replies[0][4..20], hex("19 00 02 00 07 00 00 00 09 00 00 00 07 01 00 00"));
    assert_eq!(replies[0][60..], [0; 8]);
    assert_eq!(replies[1][64..], hex("10 00 00 00 00 00 00 00"));
}

#[test]
fn sequence_and_port_id_are_echoed_whole() {
    let mut request = compact();
    let ids = hex("F8 F7 F6 F5 E4 E3 E2 E1");
    request[8..16].copy_from_slice(&ids);
    for message in whole(&mut two(), &request) {
        assert_eq!(message[8..16], ids);
    }
}

#[test]
fn one_port_gives_its_reply_and_done() {
    assert_eq!(whole(&mut Setup::document(), &compact()), [hex(FIRST), hex(DONE_MESSAGE)]);
}

#[test]
fn sixty_four_ports_give_65_messages_in_roll_order() {
    let messages = whole(&mut sixty_four(), &dump(DEBUG_GET, ACK, &[number(3, 1)]));
    assert_eq!(messages.len(), 65);
    for (place, reply) in messages[..64].iter().enumerate() {
        let name = format!("port-{place}\0");
        let header = nest(1, &[number(1, 100 - place as u32), attribute(2, name.as_bytes())]);
        assert!(reply[20..].starts_with(&header), "{place}");
        assert!(reply.ends_with(&(place as u64).to_le_bytes()), "{place}");
    }
    assert_eq!(messages[64], hex(DONE_MESSAGE));
}

/// What a GET of a port by its index writes.
fn got(setup: &mut Setup, command: u8, index: u32, header_flags: u32) -> Vec<u8> {
    let parts = [number(1, index), number(3, header_flags)];
    shown(setup, &message(command, REQUEST, &[nest(1, &parts)]), 0, 0).1
}

#[test]
fn replies_are_those_of_a_get_but_for_the_multi_flag() {
    for command in [DEBUG_GET, PRIVFLAGS_GET] {
        for header_flags in 0..4 {
            let mut setup = two();
            let mut expected = [3, 1].map(|index| got(&mut setup, command, index, header_flags));
            expected.iter_mut().for_each(|reply| reply[6..8].copy_from_slice(&[2, 0]));
            let messages = whole(&mut setup, &dump(command, 0, &[number(3, header_flags)]));
            assert_eq!(messages, [&expected[..], &[hex(DONE_MESSAGE)]].concat());
        }
    }
}

#[test]
fn ack_and_unknown_flags_add_nothing() {
    for command in [DEBUG_GET, PRIVFLAGS_GET] {
        let plain = whole(&mut two(), &dump(command, 0, &[]));
        for flags in [ACK, 2, 8, 0xFCFE] {
            assert_eq!(whole(&mut two(), &dump(command, flags, &[])), plain, "{flags:#x}");
        }
    }
}

#[test]
fn sender_need_not_be_admin() {
    let mut setup = two();
    setup.admin = 0;
    assert_eq!(whole(&mut setup, &compact()), [hex(FIRST), hex(SECOND), hex(DONE_MESSAGE)]);
}

#[test]
fn one_dump_bit_alone_is_no_dump() {
    for bit in [0x100, 0x200] {
        let request = message(PRIVFLAGS_GET, REQUEST | bit, &[nest(1, &[number(1, 3), number(3, 1)])]);
        let (answer, reply) = shown(&mut two(), &request, 0, 1);
        assert_eq!((answer, &reply[6..8]), (done(40, 0, 68), &[0, 0][..]));
        assert_eq!(refused(&mut two(), &message(DEBUG_GET, REQUEST | bit, &[nest(1, &[])]), 0).0, 14);
    }
}

#[test]
fn dump_in_the_middle_of_a_datagram_keeps_its_position_until_done() {
    let get = message(PRIVFLAGS_GET, REQUEST, &[by_index(3)]);
    for start in [32, 7] {
        let datagram = [vec![0xEE; start as usize], compact(), get.clone()].concat();
        let mut setup = two();
        assert_eq!(shown(&mut setup, &datagram, start, 0), (done(start, 1, 68), hex(FIRST)));
        assert_eq!(shown(&mut setup, &datagram, start, 1), (done(start, 2, 72), hex(SECOND)));
        assert_eq!(shown(&mut setup, &datagram, start, 2), (done(start + 32, 0, 20), hex(DONE_MESSAGE)));
        assert_eq!(shown(&mut setup, &datagram, start + 32, 0).0, done(start + 64, 0, 84));
    }
}

#[test]
fn longest_reply_of_a_dump_has_24_648_bytes() {
    let mut setup = Setup::document();
    setup.roll = port(3, b"fifteen-letters");
    setup.flag_names = (0..512).flat_map(|bit| names(1, &[(0, format!("{bit:031}").as_bytes())])).collect();
    setup.set_words(&[vec![0; 2], vec![u32::MAX; 16]].concat());
    assert_eq!(shown(&mut setup, &dump(PRIVFLAGS_GET, ACK, &[]), 0, 0).0, done(0, 1, 24_648));
}

#[test]
fn program_goes_through_all_places() {
    let get = message(PRIVFLAGS_GET, REQUEST, &[by_index(3)]);
    let named = dump(PRIVFLAGS_GET, ACK, &[attribute(2, b"sw0\0")]);
    let reply = reader::run(&get);
    let error = reader::run(&named);
    assert_eq!((reply.len(), error.len()), (84, 36));
    let dumped = [hex(FIRST), hex(DONE_MESSAGE)].concat();
    assert_eq!(reader::run(&compact()), dumped);
    let all = reader::run(&[get.clone(), compact(), named, compact(), get].concat());
    assert_eq!(all, [reply.clone(), dumped.clone(), error, dumped, reply].concat());
}
