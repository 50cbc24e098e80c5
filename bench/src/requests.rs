//! Requests that leave a box with all its bits on as it is, so that they can be sent over and over.

use crate::lent::port_name;

const STRSET_GET: u8 = 1;
pub const PRIVFLAGS_GET: u8 = 13;
pub const PRIVFLAGS_SET: u8 = 14;

const NESTED: u16 = 0x8000;

fn attribute(kind: u16, payload: &[u8]) -> Vec<u8> {
    let mut bytes = (payload.len() as u16 + 4).to_le_bytes().to_vec();
    bytes.extend(kind.to_le_bytes());
    bytes.extend(payload);
    bytes.resize(bytes.len().next_multiple_of(4), 0);
    bytes
}

fn number(kind: u16, value: u32) -> Vec<u8> {
    attribute(kind, &value.to_le_bytes())
}

fn name(kind: u16, text: &str) -> Vec<u8> {
    attribute(kind, &[text.as_bytes(), &[0]].concat())
}

/// REQUEST; REQUEST and ACK, as the stock tool sends every request; and with both DUMP bits.
const REQUEST: u16 = 0x001;
const ONE_PORT: u16 = 0x005;
const ALL_PORTS: u16 = 0x305;

/// STRSET_GET for both name lists, of the first port and without an ACK.
pub fn name_lists() -> Vec<u8> {
    let sets: Vec<u8> = [2, 10].into_iter().flat_map(|id| attribute(1 | NESTED, &number(1, id))).collect();
    let mut body = vec![STRSET_GET, 1, 0, 0];
    body.extend(attribute(1 | NESTED, &name(2, &port_name(0))));
    body.extend(attribute(2 | NESTED, &sets));
    message(REQUEST, &body)
}

/// A request about the flags of a port, by name, or of all ports where none is given.
pub fn request(command: u8, port: Option<usize>, compact: bool, bitset: Option<&[u8]>) -> Vec<u8> {
    let mut header = port.map_or(Vec::new(), |port| name(2, &port_name(port)));
    if compact {
        header.extend(number(3, 1));
    }
    let mut body = vec![command, 1, 0, 0];
    body.extend(attribute(1 | NESTED, &header));
    if let Some(contents) = bitset {
        body.extend(attribute(2 | NESTED, contents));
    }
    message(if port.is_some() { ONE_PORT } else { ALL_PORTS }, &body)
}

/// A message of the family with these flags, behind whose header the body stands.
fn message(flags: u16, body: &[u8]) -> Vec<u8> {
    let mut message = (16 + body.len() as u32).to_le_bytes().to_vec();
    message.extend([25, 0]);
    message.extend(flags.to_le_bytes());
    message.extend(*b"\x07\0\0\0\x09\0\0\0");
    message.extend(body);
    message
}

/// Contents of a compact bitset that switches all bits on.
pub fn compact(bits: usize) -> Vec<u8> {
    let words: Vec<u8> = (0..bits.div_ceil(32)).flat_map(|_| u32::MAX.to_le_bytes()).collect();
    [number(2, bits as u32), attribute(4, &words), attribute(5, &words)].concat()
}

/// What a BIT carries to tell its bit.
#[derive(Clone, Copy, PartialEq, Eq)]
pub enum Told {
    Name,
    IndexAndName,
}

/// Contents of a bit list that switches so many of the bits with these names on, spread over all of them.
pub fn list(told: Told, entries: usize, names: &[String]) -> Vec<u8> {
    let bits = names.len();
    let bit = |at| if entries <= bits { at * bits / entries } else { at % bits };
    attribute(3 | NESTED, &(0..entries).flat_map(|at| entry(told, bit(at), names)).collect::<Vec<u8>>())
}

/// Contents of a bit list that switches one bit on, by its name.
pub fn one(bit: usize, names: &[String]) -> Vec<u8> {
    attribute(3 | NESTED, &entry(Told::Name, bit, names))
}

/// A BIT with its VALUE flag.
fn entry(told: Told, bit: usize, names: &[String]) -> Vec<u8> {
    let index = if told == Told::IndexAndName { number(1, bit as u32) } else { Vec::new() };
    attribute(1 | NESTED, &[index, name(2, &names[bit]), attribute(3, &[])].concat())
}
