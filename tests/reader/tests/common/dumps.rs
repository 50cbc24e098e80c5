//! Dumps put together by hand, boxes for them, and their answers.

use super::*;
use reader::{DONE, REFUSED};

pub const DUMP: u16 = 0x300;

/// DONE of sequence 7 and port id 9.
pub const DONE_MESSAGE: &str = "14 00 00 00 03 00 02 00 07 00 00 00 09 00 00 00 00 00 00 00";

/// Replies of the two ports below, compact, to PRIVFLAGS_GET.
pub const FIRST: &str =
    "44 00 00 00 19 00 02 00 07 00 00 00 09 00 00 00 0E 01 00 00 14 00 01 80 08 00 01 00 03 00 00 00 \
    08 00 02 00 73 77 30 00 1C 00 02 80 04 00 01 00 08 00 02 00 28 00 00 00 0C 00 04 00 01 00 00 00 02 00 00 00";
pub const SECOND: &str =
    "48 00 00 00 19 00 02 00 07 00 00 00 09 00 00 00 0E 01 00 00 18 00 01 80 08 00 01 00 01 00 00 00 \
    09 00 02 00 65 74 68 31 00 00 00 00 1C 00 02 80 04 00 01 00 08 00 02 00 28 00 00 00 \
    0C 00 04 00 08 00 00 00 80 00 00 00";

/// The box of the whole reply with a second port "eth1", whose index is lower, and flags {3, 39}.
pub fn two() -> Setup {
    let mut setup = Setup::document();
    setup.roll = [port(3, b"sw0"), port(1, b"eth1")].concat();
    setup.set_words(&[0, 0, 1, 2, 0x10, 0, 8, 0x80]);
    setup
}

/// 64 ports with falling indexes; each has its place as its debug set.
pub fn sixty_four() -> Setup {
    let mut setup = Setup::document();
    setup.roll = (0..64u32).flat_map(|place| port(100 - place, format!("port-{place}").as_bytes())).collect();
    setup.set_words(&(0..64).flat_map(|place| [place, 0, 0, 0]).collect::<Vec<_>>());
    setup
}

/// A dump whose header nest has these parts.
pub fn dump(command: u8, flags: u16, parts: &[Vec<u8>]) -> Vec<u8> {
    message(command, REQUEST | DUMP | flags, &[nest(1, parts)])
}

pub fn compact() -> Vec<u8> {
    dump(PRIVFLAGS_GET, 0, &[number(3, 1)])
}

/// The answer at a place, and what it wrote; page bytes behind that stay, and no setting moves.
pub fn shown(setup: &mut Setup, datagram: &[u8], position: u64, place: u64) -> (Answer, Vec<u8>) {
    setup.page.fill(0xA5);
    let before = setup.settings.clone();
    let answer = setup.call_at_place(datagram, position, place);
    let (written, rest) = setup.page.split_at(answer.written as usize);
    assert!(rest.iter().all(|byte| *byte == 0xA5));
    assert_eq!(setup.settings, before);
    (answer, written.to_vec())
}

/// An answer that is done, with what it hands back.
pub fn done(next: u64, next_place: u64, written: usize) -> Answer {
    Answer { kind: DONE, refusal: 0, next, next_place, written: written as u64 }
}

/// The refusal number and error message of a request at a place, which hands back place 0 and moves past it.
pub fn refused(setup: &mut Setup, request: &[u8], place: u64) -> (u32, Vec<u8>) {
    let (answer, error) = shown(setup, request, 0, place);
    assert_eq!((answer.kind, answer.next, answer.next_place), (REFUSED, request.len() as u64, 0));
    (answer.refusal, error)
}
