//! SETs: the sheet of marked bitsets on the flags, index and name in one BIT, and a few changes of the debug set.

use super::making::*;
use cases::requests::ACK;
use cases::tree::Attribute;

const ALL: u32 = 0xFFFF_FFFF;

/// P1 to P12 of document 01, each with what a SET of it says.
fn marked() -> Vec<(&'static str, Outcome, Vec<Attribute>)> {
    use Outcome::{Done, Refused};
    let again = vec![bit_at(3, true), bit_called(b"lldp", false)];
    vec![
        ("P1", Done, vec![size(40), value(&[8, 0]), mask(&[8, 2])]),
        ("P2", Done, vec![nomask(), size(3), value(&[2])]),
        ("P3", Done, vec![nomask(), size(0), value(&[])]),
        ("P4", Done, vec![size(0), value(&[]), mask(&[])]),
        ("P5", Refused(20), vec![size(64), value(&[0, 0]), mask(&[0, 256])]),
        ("P6", Done, vec![size(64), value(&[0, 256]), mask(&[0, 0])]),
        ("P7", Refused(19), vec![nomask(), size(33), value(&[0])]),
        ("P8", Refused(19), vec![nomask(), size(ALL), value(&[0])]),
        ("P9", Done, vec![bits(again)]),
        ("P10", Done, vec![nomask(), bits(vec![])]),
        ("P11", Done, vec![bits(vec![bit_at(39, true)])]),
        ("P11, index 40", Refused(20), vec![bits(vec![bit_at(39, true), bit_at(40, true)])]),
        ("P12", Done, vec![size(3), value(&[ALL]), mask(&[ALL])]),
    ]
}

/// The set back at {0, 33}, the marked bitset with ACK, and the set shown.
pub fn sheet() -> Vec<Message> {
    let start = || set(PRIVFLAGS_SET, 0, vec![nomask(), size(40), value(&[1, 2])]);
    let mut messages = Vec::new();
    for (what, outcome, contents) in marked() {
        messages.push(message("the flags back at {0, 33}", Outcome::Done, start()));
        messages.push(message(what, outcome, set(PRIVFLAGS_SET, ACK, contents)));
        messages.push(message("the flags after it", Outcome::Done, request(PRIVFLAGS_GET, 0, vec![port()])));
    }
    messages
}

/// The flags are {0, 1, 2, 33} before it.
pub fn index_and_name() -> Vec<Message> {
    let listed = |on| bits(vec![bit_at(1, false), bit_of_both(3, b"lldp", on)]);
    let shown = || message("the flags after it", Outcome::Done, request(PRIVFLAGS_GET, 0, vec![port()]));
    vec![
        message("flag 3 by index and name", Outcome::Done, set(PRIVFLAGS_SET, ACK, vec![listed(true)])),
        shown(),
        message("flag 3 off again", Outcome::Done, set(PRIVFLAGS_SET, 0, vec![listed(false)])),
        shown(),
        message("the same under NOMASK", Outcome::Done, set(PRIVFLAGS_SET, ACK, vec![nomask(), listed(false)])),
        shown(),
    ]
}

pub fn debug() -> Vec<Message> {
    let listed = vec![nomask(), bits(vec![bit_at(39, false), bit_at(0, true)])];
    vec![
        message("debug bits 0 and 39 by a list", Outcome::Done, set(DEBUG_SET, ACK, listed)),
        message("debug bit 1 too", Outcome::Done, set(DEBUG_SET, 0, vec![size(2), value(&[2]), mask(&[2])])),
        message("the debug set after it", Outcome::Done, request(DEBUG_GET, ACK, vec![port()])),
    ]
}
