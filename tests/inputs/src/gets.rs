//! GETs of the port and of all ports in both reply forms, of the name lists, and messages that are skipped.

use super::making::*;
use cases::requests::{Request, ACK, PORT_FLAGS, PORT_NAME};
use cases::strsets::{list, CLASSES, FLAGS, ID, STRINGSET, STRINGSETS};
use cases::tree::Attribute;

fn compact(command: u8, flags: u16) -> Request {
    request(command, flags, vec![port_with(1)])
}

fn verbose(command: u8, flags: u16) -> Request {
    request(command, flags, vec![port()])
}

/// The request of document 01's whole reply.
pub fn whole_reply() -> Vec<u8> {
    datagram([compact(PRIVFLAGS_GET, 0)].iter())
}

pub fn before() -> Vec<Message> {
    let by_name = header(vec![Attribute::name(PORT_NAME, b"sw0")]);
    vec![
        message("document 01's whole reply", Outcome::Done, compact(PRIVFLAGS_GET, 0)),
        message("the flags, verbose, with ACK", Outcome::Done, verbose(PRIVFLAGS_GET, ACK)),
        message("the flags by the port's name", Outcome::Done, request(PRIVFLAGS_GET, 0, vec![by_name])),
        message("the empty debug set, verbose", Outcome::Done, verbose(DEBUG_GET, 0)),
        message("the debug set, compact, with ACK", Outcome::Done, compact(DEBUG_GET, ACK)),
        message("omit reply changes nothing", Outcome::Done, request(DEBUG_GET, 0, vec![port_with(3)])),
        message("a control message", Outcome::Skipped, Request { kind: 3, ..verbose(DEBUG_GET, ACK) }),
        message("no REQUEST flag", Outcome::Skipped, Request { flags: ACK, ..verbose(DEBUG_GET, 0) }),
    ]
}

/// A dump, compact or verbose.
fn dumped(what: &'static str, command: u8, flags: u16, header_flags: Option<u32>) -> Message {
    let parts = header_flags.map(|flags| Attribute::number(PORT_FLAGS, flags));
    message(what, Outcome::Dumped, dump(command, flags, parts.into_iter().collect()))
}

/// All ports at once, with a change between two dumps, and one DUMP bit alone.
pub fn dumps() -> Vec<Message> {
    let change = set(PRIVFLAGS_SET, ACK, vec![bits(vec![bit_at(1, false), bit_at(39, true)])]);
    vec![
        dumped("all flags, compact", PRIVFLAGS_GET, 0, Some(1)),
        message("flag 1 off, flag 39 on", Outcome::Done, change),
        dumped("all flags, verbose, an ACK asked for", PRIVFLAGS_GET, ACK, None),
        dumped("all debug sets, verbose, omit reply changes nothing", DEBUG_GET, 0, Some(2)),
        dumped("all debug sets, compact, an ACK asked for", DEBUG_GET, ACK, Some(3)),
        message("one DUMP bit alone", Outcome::Done, verbose(PRIVFLAGS_GET, 0x100)),
        message("the other DUMP bit alone", Outcome::Done, compact(DEBUG_GET, 0x200)),
    ]
}

/// The name lists of the port and of no port, by default and by their ids.
pub fn name_lists() -> Vec<Message> {
    let done = |what, flags, attributes| message(what, Outcome::Done, names(flags, attributes));
    let no_port = || header(vec![]);
    let by_name = || header(vec![Attribute::name(PORT_NAME, b"sw0")]);
    let two_ids = Attribute::nest(STRINGSET, vec![Attribute::number(ID, 77), Attribute::number(ID, CLASSES)]);
    vec![
        done("message classes by default", 0, vec![no_port()]),
        done("message classes by their id, with ACK", ACK, vec![no_port(), list(&[CLASSES])]),
        done("private flags by default", 0, vec![port()]),
        done("an empty list, compact changes nothing", ACK, vec![port_with(1), list(&[])]),
        done("an empty list without a port", 0, vec![no_port(), list(&[])]),
        done("both lists", 0, vec![by_name(), list(&[FLAGS, CLASSES])]),
        done("both in the other order, with ACK", ACK, vec![list(&[CLASSES, FLAGS]), port()]),
        done("repeated ids", 0, vec![port(), list(&[CLASSES, FLAGS, FLAGS, CLASSES])]),
        done("the counts of both, with ACK", ACK, vec![port(), list(&[FLAGS, CLASSES]), counts_only()]),
        done("the count of the message classes", 0, vec![counts_only(), no_port()]),
        done("the last list counts", 0, vec![no_port(), list(&[77]), list(&[CLASSES])]),
        done("the last id of a set counts", 0, vec![port(), Attribute::nest(STRINGSETS, vec![two_ids])]),
        done("one DUMP bit alone", 0x200, vec![no_port()]),
    ]
}

/// What all the changes and refusals have left.
pub fn after() -> Vec<Message> {
    vec![
        message("the flags at the end, verbose", Outcome::Done, verbose(PRIVFLAGS_GET, ACK)),
        message("the debug set at the end, verbose", Outcome::Done, verbose(DEBUG_GET, ACK)),
        message("the debug set at the end, compact", Outcome::Done, compact(DEBUG_GET, 0)),
        dumped("all flags at the end, compact", PRIVFLAGS_GET, ACK, Some(1)),
    ]
}
