//! Requests and boxes put together by hand.
#![allow(dead_code)]

pub mod dumps;
pub mod strset;

use reader::Answer;

pub const NOMASK: u16 = 1;
pub const SIZE: u16 = 2;
pub const BITS: u16 = 3;
pub const VALUE: u16 = 4;
pub const MASK: u16 = 5;
pub const REQUEST: u16 = 1;
pub const ACK: u16 = 4;
pub const DEBUG_GET: u8 = 7;
pub const DEBUG_SET: u8 = 8;
pub const PRIVFLAGS_GET: u8 = 13;
pub const PRIVFLAGS_SET: u8 = 14;

/// An attribute with its padding.
pub fn attribute(kind: u16, payload: &[u8]) -> Vec<u8> {
    let mut bytes = unpadded(kind, payload);
    bytes.resize(bytes.len().next_multiple_of(4), 0);
    bytes
}

/// An attribute without its padding.
pub fn unpadded(kind: u16, payload: &[u8]) -> Vec<u8> {
    let mut bytes = Vec::new();
    bytes.extend((payload.len() as u16 + 4).to_le_bytes());
    bytes.extend(kind.to_le_bytes());
    bytes.extend(payload);
    bytes
}

pub fn number(kind: u16, value: u32) -> Vec<u8> {
    attribute(kind, &value.to_le_bytes())
}

pub fn words(kind: u16, words: &[u32]) -> Vec<u8> {
    attribute(kind, &words.iter().flat_map(|word| word.to_le_bytes()).collect::<Vec<_>>())
}

pub fn nest(kind: u16, parts: &[Vec<u8>]) -> Vec<u8> {
    attribute(kind | 0x8000, &parts.concat())
}

/// A header nest with the port's index.
pub fn by_index(index: u32) -> Vec<u8> {
    nest(1, &[number(1, index)])
}

/// A BIT nest.
pub fn bit(parts: &[Vec<u8>]) -> Vec<u8> {
    nest(1, parts)
}

/// A BIT with INDEX and perhaps VALUE.
pub fn bit_at(index: u32, on: bool) -> Vec<u8> {
    let value = if on { attribute(3, &[]) } else { Vec::new() };
    bit(&[number(1, index), value])
}

/// A BIT with NAME and perhaps VALUE.
pub fn bit_called(name: &[u8], on: bool) -> Vec<u8> {
    let value = if on { attribute(3, &[]) } else { Vec::new() };
    bit(&[attribute(2, name), value])
}

/// A message of family 25, sequence 7, port id 9.
pub fn message(command: u8, flags: u16, attributes: &[Vec<u8>]) -> Vec<u8> {
    message_of(25, flags, &[vec![command, 1, 0, 0], attributes.concat()].concat())
}

/// A message of any type with anything after its header.
pub fn message_of(kind: u16, flags: u16, body: &[u8]) -> Vec<u8> {
    let mut bytes = Vec::new();
    bytes.extend((body.len() as u32 + 16).to_le_bytes());
    bytes.extend(kind.to_le_bytes());
    bytes.extend(flags.to_le_bytes());
    bytes.extend(7u32.to_le_bytes());
    bytes.extend(9u32.to_le_bytes());
    bytes.extend(body);
    bytes
}

/// A port record.
pub fn port(index: u32, name: &[u8]) -> Vec<u8> {
    let mut bytes = vec![1];
    bytes.extend(index.to_le_bytes());
    bytes.extend(name);
    bytes.resize(21, 0);
    bytes
}

/// A list of N names, empty but for those given.
pub fn names(bits: usize, given: &[(usize, &[u8])]) -> Vec<u8> {
    let mut bytes = vec![0; 32 * bits];
    for (bit, name) in given {
        bytes[32 * bit..32 * bit + name.len()].copy_from_slice(name);
    }
    bytes
}

/// A box, a page and the calls on them.
pub struct Setup {
    pub family: u32,
    pub admin: u32,
    pub roll: Vec<u8>,
    pub debug_names: Vec<u8>,
    pub flag_names: Vec<u8>,
    pub settings: Vec<u8>,
    pub page: Vec<u8>,
}

impl Setup {
    /// The box of document 01's whole reply.
    pub fn document() -> Self {
        let mut setup = Setup {
            family: 25,
            admin: 1,
            roll: port(3, b"sw0"),
            debug_names: names(40, &[]),
            flag_names: names(40, &[(3, b"lldp")]),
            settings: Vec::new(),
            page: vec![0xA5; 32_768],
        };
        setup.set_words(&[0, 0, 1, 2]);
        setup
    }

    pub fn set_words(&mut self, words: &[u32]) {
        self.settings = words.iter().flat_map(|word| word.to_le_bytes()).collect();
    }

    pub fn words(&self) -> Vec<u32> {
        self.settings.chunks(4).map(|four| u32::from_le_bytes(four.try_into().unwrap())).collect()
    }

    pub fn call_at(&mut self, datagram: &[u8], position: u64) -> Answer {
        self.call_at_place(datagram, position, 0)
    }

    pub fn call_at_place(&mut self, datagram: &[u8], position: u64, place: u64) -> Answer {
        let Setup { family, admin, roll, debug_names, flag_names, settings, page } = self;
        reader::handle(*family, *admin, roll, debug_names, flag_names, settings, datagram, position, place, page)
    }

    pub fn call(&mut self, datagram: &[u8]) -> Answer {
        self.call_at(datagram, 0)
    }

    /// The part of the box that is at fault, and where.
    pub fn check(&self) -> (u32, u64) {
        let Setup { family, admin, roll, debug_names, flag_names, settings, .. } = self;
        reader::check_box(*family, *admin, roll, debug_names, flag_names, settings)
    }

    /// The refusal number and the bytes written.
    pub fn refusal(&mut self, datagram: &[u8]) -> (u32, Vec<u8>) {
        let before = self.settings.clone();
        let answer = self.call(datagram);
        assert_eq!(self.settings, before, "a refusal changes no setting");
        (answer.refusal, self.page[..answer.written as usize].to_vec())
    }

    /// The refusal number of a box or request that is refused without a message.
    pub fn silent(&mut self, datagram: &[u8], position: u64) -> u32 {
        let answer = self.call_at(datagram, position);
        assert_eq!((answer.kind, answer.next, answer.written), (reader::REFUSED, position, 0));
        assert!(self.page.iter().all(|byte| *byte == 0xA5));
        answer.refusal
    }

    /// A PRIVFLAGS_SET of port 3 with a bitset of these parts.
    pub fn set(&mut self, parts: &[Vec<u8>]) -> (u32, Vec<u8>) {
        let request = message(PRIVFLAGS_SET, REQUEST, &[by_index(3), nest(2, parts)]);
        let answer = self.call(&request);
        (answer.refusal, self.page[..answer.written as usize].to_vec())
    }
}

/// Bytes written as hexadecimal numbers.
pub fn hex(text: &str) -> Vec<u8> {
    text.split_whitespace().map(|byte| u8::from_str_radix(byte, 16).unwrap()).collect()
}

/// The errno of an error message.
pub fn errno(error: &[u8]) -> i32 {
    i32::from_le_bytes(error[16..20].try_into().unwrap())
}

/// The attributes of an error message as (type, u32).
pub fn details(error: &[u8]) -> Vec<(u16, u32)> {
    let four = |bytes: &[u8]| u32::from_le_bytes(bytes.try_into().unwrap());
    error[36..].chunks(8).map(|part| (u16::from_le_bytes([part[2], part[3]]), four(&part[4..8]))).collect()
}
