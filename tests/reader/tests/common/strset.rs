//! Requests for name lists put together by hand, a box for them, and their answers.

use super::*;

pub const STRSET_GET: u8 = 1;
pub const FLAGS: u32 = 2;
pub const CLASSES: u32 = 10;

/// STRINGSET of the private flags below: "lldp", no name, "eee".
pub const FLAG_SET: &str = "58 00 01 80 08 00 01 00 02 00 00 00 08 00 02 00 03 00 00 00 44 00 03 80 \
    18 00 01 80 08 00 01 00 00 00 00 00 09 00 02 00 6C 6C 64 70 00 00 00 00 \
    14 00 01 80 08 00 01 00 01 00 00 00 05 00 02 00 00 00 00 00 \
    14 00 01 80 08 00 01 00 02 00 00 00 08 00 02 00 65 65 65 00";

/// STRINGSET of the message classes below: "probe", "link".
pub const CLASS_SET: &str = "48 00 01 80 08 00 01 00 0A 00 00 00 08 00 02 00 02 00 00 00 34 00 03 80 \
    18 00 01 80 08 00 01 00 00 00 00 00 0A 00 02 00 70 72 6F 62 65 00 00 00 \
    18 00 01 80 08 00 01 00 01 00 00 00 09 00 02 00 6C 69 6E 6B 00 00 00 00";

/// The same two with ID and COUNT alone.
pub const FLAG_COUNT: &str = "14 00 01 80 08 00 01 00 02 00 00 00 08 00 02 00 03 00 00 00";
pub const CLASS_COUNT: &str = "14 00 01 80 08 00 01 00 0A 00 00 00 08 00 02 00 02 00 00 00";

/// A reply's header nest for port 3 "sw0", and for port 1 "eth1".
pub const SW0: &str = "14 00 01 80 08 00 01 00 03 00 00 00 08 00 02 00 73 77 30 00";
pub const ETH1: &str = "18 00 01 80 08 00 01 00 01 00 00 00 09 00 02 00 65 74 68 31 00 00 00 00";

/// A reply's headers behind its length: family 25, flags 0, sequence 7, port id 9, command 1, version 1.
pub const HEADERS: &str = "19 00 00 00 07 00 00 00 09 00 00 00 01 01 00 00";

/// The bytes of several texts, one after the other.
pub fn bytes(texts: &[&str]) -> Vec<u8> {
    hex(&texts.join(" "))
}

/// Two ports, two message classes, three flags of which the second has no name.
pub fn lists() -> Setup {
    let mut setup = Setup::document();
    setup.roll = [port(3, b"sw0"), port(1, b"eth1")].concat();
    setup.debug_names = names(2, &[(0, b"probe"), (1, b"link")]);
    setup.flag_names = names(3, &[(0, b"lldp"), (2, b"eee")]);
    setup.set_words(&[1, 2, 3, 4]);
    setup
}

/// A request whose top level has these attributes.
pub fn request(attributes: &[Vec<u8>]) -> Vec<u8> {
    message(STRSET_GET, REQUEST, attributes)
}

/// A STRINGSET with an id.
pub fn set(id: u32) -> Vec<u8> {
    nest(1, &[number(1, id)])
}

/// A STRINGSETS nest of these STRINGSETs.
pub fn list(sets: &[Vec<u8>]) -> Vec<u8> {
    nest(2, sets)
}

/// A STRINGSETS nest with these ids.
pub fn ids(ids: &[u32]) -> Vec<u8> {
    list(&ids.iter().map(|id| set(*id)).collect::<Vec<_>>())
}

pub fn counts_only() -> Vec<u8> {
    attribute(3, &[])
}

/// A header nest that names no port.
pub fn no_port() -> Vec<u8> {
    nest(1, &[])
}

/// The refusal number (0 if none) and what was written; page bytes behind that stay, no setting moves, no place is
/// handed back.
pub fn answered(setup: &mut Setup, request: &[u8]) -> (u32, Vec<u8>) {
    setup.page.fill(0xA5);
    let before = setup.settings.clone();
    let answer = setup.call(request);
    assert_eq!((&setup.settings, answer.next_place), (&before, 0));
    let (written, rest) = setup.page.split_at(answer.written as usize);
    assert!(rest.iter().all(|byte| *byte == 0xA5));
    (answer.refusal, written.to_vec())
}

/// The reply of the box above, which must be done.
pub fn replied(request: &[u8]) -> Vec<u8> {
    let (refusal, reply) = answered(&mut lists(), request);
    assert_eq!(refusal, 0, "{reply:x?}");
    reply
}
