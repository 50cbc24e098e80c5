//! Messages put together by hand.

use cases::bitsets::{BIT, BITS, BIT_INDEX, BIT_NAME, BIT_VALUE, MASK, NOMASK, SIZE, VALUE};
use cases::requests::{Request, BITSET, DUMP, HEADER, PORT_FLAGS, PORT_INDEX, REQUEST};
use cases::strsets::{COUNTS_ONLY, STRSET_GET};
use cases::tree::Attribute;

pub const FAMILY: u16 = 25;
pub const DEBUG_GET: u8 = 7;
pub const DEBUG_SET: u8 = 8;
pub const PRIVFLAGS_GET: u8 = 13;
pub const PRIVFLAGS_SET: u8 = 14;

/// What the program's calls say about a message.
#[derive(Clone, Copy, Debug, PartialEq, Eq)]
pub enum Outcome {
    Skipped,
    Done,
    /// The reply of the box's one port, then DONE, by two calls.
    Dumped,
    Refused(u32),
}

/// One message of an input, and what it is there for.
pub struct Message {
    pub what: &'static str,
    pub outcome: Outcome,
    pub request: Request,
}

pub fn message(what: &'static str, outcome: Outcome, request: Request) -> Message {
    Message { what, outcome, request }
}

/// A request of the family with port id 9.
pub fn request(command: u8, flags: u16, attributes: Vec<Attribute>) -> Request {
    Request {
        stated: None,
        kind: FAMILY,
        flags: flags | REQUEST,
        sequence: 7,
        port_id: 9,
        generic: vec![command, 1, 0, 0],
        attributes,
        stray: Vec::new(),
    }
}

pub fn header(parts: Vec<Attribute>) -> Attribute {
    Attribute::nest(HEADER, parts)
}

/// The header of the box's port.
pub fn port() -> Attribute {
    header(vec![Attribute::number(PORT_INDEX, 3)])
}

/// The same with header flags.
pub fn port_with(flags: u32) -> Attribute {
    header(vec![Attribute::number(PORT_INDEX, 3), Attribute::number(PORT_FLAGS, flags)])
}

/// A request for all ports with these parts in its header.
pub fn dump(command: u8, flags: u16, parts: Vec<Attribute>) -> Request {
    request(command, flags | DUMP, vec![header(parts)])
}

/// A request for name lists.
pub fn names(flags: u16, attributes: Vec<Attribute>) -> Request {
    request(STRSET_GET, flags, attributes)
}

pub fn counts_only() -> Attribute {
    Attribute::leaf(COUNTS_ONLY, &[])
}

pub fn set(command: u8, flags: u16, contents: Vec<Attribute>) -> Request {
    request(command, flags, vec![port(), Attribute::nest(BITSET, contents)])
}

pub fn nomask() -> Attribute {
    Attribute::leaf(NOMASK, &[])
}

pub fn size(size: u32) -> Attribute {
    Attribute::number(SIZE, size)
}

fn bitmap(kind: u16, words: &[u32]) -> Attribute {
    Attribute::leaf(kind, &words.iter().flat_map(|word| word.to_le_bytes()).collect::<Vec<_>>())
}

pub fn value(words: &[u32]) -> Attribute {
    bitmap(VALUE, words)
}

pub fn mask(words: &[u32]) -> Attribute {
    bitmap(MASK, words)
}

pub fn bits(bits: Vec<Attribute>) -> Attribute {
    Attribute::nest(BITS, bits)
}

/// A BIT of some identification, with or without its VALUE flag.
fn bit(identity: Vec<Attribute>, on: bool) -> Attribute {
    let flag = on.then(|| Attribute::leaf(BIT_VALUE, &[]));
    Attribute::nest(BIT, identity.into_iter().chain(flag).collect())
}

pub fn bit_at(index: u32, on: bool) -> Attribute {
    bit(vec![Attribute::number(BIT_INDEX, index)], on)
}

pub fn bit_called(name: &[u8], on: bool) -> Attribute {
    bit(vec![Attribute::name(BIT_NAME, name)], on)
}

/// A BIT with INDEX and NAME.
pub fn bit_of_both(index: u32, name: &[u8], on: bool) -> Attribute {
    bit(vec![Attribute::number(BIT_INDEX, index), Attribute::name(BIT_NAME, name)], on)
}

pub fn bit_of_nothing() -> Attribute {
    bit(vec![], true)
}

/// Requests as one datagram: sequence numbers rise, and padding between messages is filled with ones.
pub fn datagram<'a>(requests: impl Iterator<Item = &'a Request>) -> Vec<u8> {
    let mut bytes = Vec::new();
    for (request, sequence) in requests.zip(7u32..) {
        let start = bytes.len();
        bytes.resize(start.next_multiple_of(4), 0xFF);
        let mut message = request.write();
        message[8..12].copy_from_slice(&sequence.to_le_bytes());
        bytes.extend(message);
    }
    bytes
}
