//! Replies byte for byte (document 01, "Replies").

mod common;
use common::*;

const WHOLE: &str = "44 00 00 00 19 00 00 00 07 00 00 00 09 00 00 00 0E 01 00 00 14 00 01 80 08 00 01 00 03 00 00 00 \
    08 00 02 00 73 77 30 00 1C 00 02 80 04 00 01 00 08 00 02 00 28 00 00 00 0C 00 04 00 01 00 00 00 02 00 00 00";

const ACKNOWLEDGED: &str = "24 00 00 00 02 00 00 01 07 00 00 00 09 00 00 00 00 00 00 00";

fn get(command: u8, flags: u16, header_flags: u32) -> Vec<u8> {
    message(command, flags, &[nest(1, &[number(1, 3), number(3, header_flags)])])
}

fn replied(setup: &mut Setup, request: &[u8]) -> Vec<u8> {
    let answer = setup.call(request);
    assert_eq!((answer.kind, answer.refusal, answer.next), (reader::DONE, 0, request.len() as u64));
    assert!(setup.page[answer.written as usize..].iter().all(|byte| *byte == 0xA5));
    setup.page[..answer.written as usize].to_vec()
}

#[test]
fn compact_reply_is_the_one_of_the_document() {
    let mut setup = Setup::document();
    assert_eq!(replied(&mut setup, &get(PRIVFLAGS_GET, REQUEST, 1)), hex(WHOLE));
    assert_eq!(setup.words(), [0, 0, 1, 2]);
}

#[test]
fn program_gives_the_reply_of_the_document() {
    assert_eq!(reader::run(&get(PRIVFLAGS_GET, REQUEST, 1)), hex(WHOLE));
}

#[test]
fn omit_reply_flag_changes_nothing() {
    assert_eq!(replied(&mut Setup::document(), &get(PRIVFLAGS_GET, REQUEST, 3)), hex(WHOLE));
}

#[test]
fn ack_follows_the_reply() {
    let request = get(PRIVFLAGS_GET, REQUEST | ACK, 1);
    let expected = [hex(WHOLE), hex(ACKNOWLEDGED), request[..16].to_vec()].concat();
    assert_eq!(replied(&mut Setup::document(), &request), expected);
}

#[test]
fn reply_flags_are_zero_whatever_the_request_had() {
    let request = get(PRIVFLAGS_GET, REQUEST | 0x0108, 1);
    assert_eq!(replied(&mut Setup::document(), &request), hex(WHOLE));
}

#[test]
fn verbose_reply_lists_set_bits_with_the_names_they_have() {
    let mut setup = Setup::document();
    setup.set_words(&[0, 0, 9, 2]);
    let head = "6C 00 00 00 19 00 00 00 07 00 00 00 09 00 00 00 0E 01 00 00 14 00 01 80 08 00 01 00 03 00 00 00 \
        08 00 02 00 73 77 30 00 44 00 02 80 04 00 01 00 08 00 02 00 28 00 00 00";
    let bits = "34 00 03 80 0C 00 01 80 08 00 01 00 00 00 00 00 \
        18 00 01 80 08 00 01 00 03 00 00 00 09 00 02 00 6C 6C 64 70 00 00 00 00 \
        0C 00 01 80 08 00 01 00 21 00 00 00";
    assert_eq!(replied(&mut setup, &get(PRIVFLAGS_GET, REQUEST, 0)), [hex(head), hex(bits)].concat());
}

#[test]
fn debug_reply_has_command_7_and_an_empty_bits_nest() {
    let expected = "3C 00 00 00 19 00 00 00 07 00 00 00 09 00 00 00 07 01 00 00 14 00 01 80 08 00 01 00 03 00 00 00 \
        08 00 02 00 73 77 30 00 14 00 02 80 04 00 01 00 08 00 02 00 28 00 00 00 04 00 03 80";
    assert_eq!(replied(&mut Setup::document(), &get(DEBUG_GET, REQUEST, 0)), hex(expected));
}

#[test]
fn padding_of_a_port_name_counts_in_its_nest() {
    let mut setup = Setup::document();
    setup.roll = port(3, b"eth0");
    let reply = replied(&mut setup, &get(PRIVFLAGS_GET, REQUEST, 1));
    assert_eq!(reply[20..44], hex("18 00 01 80 08 00 01 00 03 00 00 00 09 00 02 00 65 74 68 30 00 00 00 00"));
    assert_eq!(reply[0], 0x48);
}

#[test]
fn longest_reply_has_24_648_bytes_and_24_684_with_its_ack() {
    let mut setup = Setup::document();
    setup.roll = port(3, b"fifteen-letters");
    setup.flag_names = (0..512).flat_map(|bit| names(1, &[(0, format!("{bit:031}").as_bytes())])).collect();
    setup.set_words(&[vec![0; 2], vec![u32::MAX; 16]].concat());
    assert_eq!(replied(&mut setup, &get(PRIVFLAGS_GET, REQUEST, 0)).len(), 24_648);
    setup.page.fill(0xA5);
    assert_eq!(replied(&mut setup, &get(PRIVFLAGS_GET, REQUEST | ACK, 0)).len(), 24_684);
}
