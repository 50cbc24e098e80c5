//! Requests of the four commands (document 01, "What the box reads and writes"), dumps (request C-11), and requests for
//! name lists (request C-13).

use super::bitsets;
use super::boxes::Model;
use super::rng::Rng;
use super::strsets::{self, STRSET_GET};
use super::tree::{write_all, Attribute};

pub const REQUEST: u16 = 1;
pub const ACK: u16 = 4;
pub const DUMP: u16 = 0x300;

pub const HEADER: u16 = 1;
pub const BITSET: u16 = 2;
pub const PORT_INDEX: u16 = 1;
pub const PORT_NAME: u16 = 2;
pub const PORT_FLAGS: u16 = 3;

/// A message before it becomes bytes.
pub struct Request {
    /// The stated length, where it isn't the true one.
    pub stated: Option<u32>,
    pub kind: u16,
    pub flags: u16,
    pub sequence: u32,
    pub port_id: u32,
    /// Command, version, reserved; may be cut.
    pub generic: Vec<u8>,
    pub attributes: Vec<Attribute>,
    /// Bytes after the attributes, inside the message.
    pub stray: Vec<u8>,
}

/// Which list a command's bits come from.
pub fn list_of(command: u8) -> usize {
    usize::from(command >= 13)
}

impl Request {
    /// A valid request of one port.
    pub fn new(rng: &mut Rng, model: &Model) -> Self {
        let command = rng.pick(&[7, 8, 8, 8, 13, 14, 14, 14]);
        let flags = rng.pick(&[REQUEST, REQUEST | ACK, REQUEST | ACK, REQUEST | 0x100, REQUEST | 0x200 | ACK, 0xFCFF]);
        let header = header(rng, model);
        Self::of(rng, model, command, flags, header)
    }

    /// A dump: now and then of a SET or of one port, which is refused.
    pub fn dump(rng: &mut Rng, model: &Model) -> Self {
        let command = rng.weighted(&[(45, 7), (45, 13), (5, 8), (5, 14)]);
        let flags = REQUEST | DUMP | rng.pick(&[0, 0, ACK, ACK, ACK | 8, 0xFCFE]);
        let header = match rng.below(100) {
            0..10 => header(rng, model),
            10..13 => header_of_none(rng),
            _ => header_of_all(rng),
        };
        Self::of(rng, model, command, flags, header)
    }

    /// A request for name lists, with a port or without; now and then a dump, or of no port there can be, which is
    /// refused.
    pub fn names(rng: &mut Rng, model: &Model) -> Self {
        let (header, port_named) = match rng.below(100) {
            0..55 => (header(rng, model), true),
            55..58 => (header_of_none(rng), true),
            _ => (header_of_all(rng), false),
        };
        let beside = strsets::beside(rng, port_named);
        Self::of_names(rng, model, header, beside)
    }

    /// A request for both lists of a port.
    pub fn both_names(rng: &mut Rng, model: &Model) -> Self {
        let header = header(rng, model);
        let beside = strsets::of_both(rng);
        Self::of_names(rng, model, header, beside)
    }

    /// A request for name lists with these attributes, in any order.
    fn of_names(rng: &mut Rng, model: &Model, header: Attribute, mut attributes: Vec<Attribute>) -> Self {
        let place = if rng.per_mille(700) { 0 } else { rng.below(attributes.len() + 1) };
        attributes.insert(place, header);
        let dump = if rng.per_mille(30) { DUMP } else { 0 };
        let flags = REQUEST | dump | rng.pick(&[0, 0, ACK, ACK, 0x100, 0x200 | ACK, 0xFCFA, 0xFCFE]);
        Self::made(rng, model, STRSET_GET, flags, attributes)
    }

    fn of(rng: &mut Rng, model: &Model, command: u8, flags: u16, header: Attribute) -> Self {
        let mut attributes = vec![header];
        if matches!(command, 8 | 14) {
            let contents = bitsets::contents(rng, &model.lists[list_of(command)]);
            attributes.push(Attribute::nest(BITSET, contents));
        }
        if rng.per_mille(100) {
            attributes.reverse();
        }
        Self::made(rng, model, command, flags, attributes)
    }

    /// A message of the box's family.
    fn made(rng: &mut Rng, model: &Model, command: u8, flags: u16, attributes: Vec<Attribute>) -> Self {
        Request {
            stated: None,
            kind: model.family,
            flags,
            sequence: rng.next() as u32,
            port_id: rng.next() as u32,
            generic: generic(rng, command),
            attributes,
            stray: Vec::new(),
        }
    }

    /// The command, whatever was damaged.
    pub fn command(&self) -> u8 {
        self.generic.first().copied().unwrap_or(0)
    }

    /// The message's bytes, without the padding after its length.
    pub fn write(&self) -> Vec<u8> {
        let mut bytes = vec![0; 4];
        bytes.extend(self.kind.to_le_bytes());
        bytes.extend(self.flags.to_le_bytes());
        bytes.extend(self.sequence.to_le_bytes());
        bytes.extend(self.port_id.to_le_bytes());
        bytes.extend(&self.generic);
        write_all(&self.attributes, &mut bytes);
        bytes.extend(&self.stray);
        let stated = self.stated.unwrap_or(bytes.len() as u32);
        bytes[..4].copy_from_slice(&stated.to_le_bytes());
        bytes
    }
}

/// The generic header; version and reserved may be anything.
fn generic(rng: &mut Rng, command: u8) -> Vec<u8> {
    match rng.per_mille(100) {
        true => [vec![command], rng.bytes(3)].concat(),
        false => vec![command, 1, 0, 0],
    }
}

/// A header nest that names a port by index, name or both, with or without flags.
fn header(rng: &mut Rng, model: &Model) -> Attribute {
    let port = &model.ports[rng.below(model.ports.len())];
    let index = Attribute::number(PORT_INDEX, port.index);
    let name = Attribute::name(PORT_NAME, &port.name);
    let mut parts = match rng.below(3) {
        0 => vec![index],
        1 => vec![name],
        _ => vec![index, name],
    };
    if rng.per_mille(600) {
        let flags = some_flags(rng);
        parts.insert(rng.below(parts.len() + 1), flags);
    }
    Attribute::nest(HEADER, parts)
}

/// A header nest that names no port, with or without flags.
fn header_of_all(rng: &mut Rng) -> Attribute {
    let flags = if rng.per_mille(700) { vec![some_flags(rng)] } else { Vec::new() };
    Attribute::nest(HEADER, flags)
}

/// A header nest with an index and a name that no port can have, or with one of them.
fn header_of_none(rng: &mut Rng) -> Attribute {
    let index = Attribute::number(PORT_INDEX, rng.pick(&[0, 0, 0x8000_0000, u32::MAX]));
    let name = Attribute::name(PORT_NAME, b"");
    let parts = match rng.below(3) {
        0 => vec![index],
        1 => vec![name],
        _ => vec![name, index],
    };
    Attribute::nest(HEADER, parts)
}

/// Header flags that are known.
fn some_flags(rng: &mut Rng) -> Attribute {
    Attribute::number(PORT_FLAGS, rng.below(4) as u32)
}
