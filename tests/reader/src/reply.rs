//! The messages that go out (document 01, "What a call says back" and "Replies"; request C-11).

use super::bitset;
use super::command::Set;
use super::fault::{Detail, Fault};
use super::name_list::NameList;
use super::page::Page;
use super::roll::Port;
use super::text;
use super::wire::{u32_at, MessageHeader, ACK_TLVS, CAPPED, DONE, ERROR, MULTI};

/// Attribute types of an error message.
const OFFS: u16 = 2;
const MISS_TYPE: u16 = 5;
const MISS_NEST: u16 = 6;

/// Attribute types of a reply's top level and of its header nest.
const HEADER: u16 = 1;
const BITSET: u16 = 2;
const PORT_INDEX: u16 = 1;
const PORT_NAME: u16 = 2;

/// Attribute types of a BIT, and BIT's own.
const BIT: u16 = 1;
const BIT_INDEX: u16 = 1;
const BIT_NAME: u16 = 2;

/// Error message of a refusal 5 to 25.
pub fn error(page: &mut Page, request: &[u8], header: &MessageHeader, fault: Fault) {
    let flags = match fault.detail {
        Detail::None => CAPPED,
        _ => CAPPED | ACK_TLVS,
    };
    let message = page.open_message(ERROR, flags, header.sequence, header.port_id);
    page.put_u32(-fault.errno() as u32);
    page.put(&request[..MessageHeader::SIZE]);
    match fault.detail {
        Detail::None => {}
        Detail::Offset(offset) => page.attribute_u32(OFFS, offset as u32),
        Detail::Missing { kind, nest } => {
            page.attribute_u32(MISS_TYPE, u32::from(kind));
            if let Some(nest) = nest {
                page.attribute_u32(MISS_NEST, nest as u32);
            }
        }
    }
    page.close_message(message);
}

/// ACK of a done request: an error message with errno 0.
pub fn ack(page: &mut Page, request: &[u8], header: &MessageHeader) {
    let message = page.open_message(ERROR, CAPPED, header.sequence, header.port_id);
    page.put_u32(0);
    page.put(&request[..MessageHeader::SIZE]);
    page.close_message(message);
}

/// DONE, behind the replies of a dump: a 32-bit 0 after the header.
pub fn done(page: &mut Page, header: &MessageHeader) {
    let message = page.open_message(DONE, MULTI, header.sequence, header.port_id);
    page.put_u32(0);
    page.close_message(message);
}

/// A set as it is stored, with all that its reply says about it.
pub struct Stored<'a> {
    pub family: u16,
    pub set: Set,
    pub port: Port,
    pub names: &'a NameList<'a>,
    /// The set's words as little-endian bytes.
    pub words: &'a [u8],
}

/// Reply of a GET, with these message flags: the port, then its set under NOMASK.
pub fn reply(page: &mut Page, header: &MessageHeader, flags: u16, stored: &Stored, compact: bool) {
    let message = page.open_message(stored.family, flags, header.sequence, header.port_id);
    page.put(&[stored.set.reply_command(), 1, 0, 0]);
    port(page, &stored.port);
    let nest = page.open_nest(BITSET);
    page.attribute(bitset::NOMASK, 0);
    page.attribute_u32(bitset::SIZE, stored.names.bits() as u32);
    if compact {
        page.attribute(bitset::VALUE, stored.words.len());
        page.put(stored.words);
    } else {
        bits(page, stored);
    }
    page.close_nest(nest);
    page.close_message(message);
}

/// The header nest: index and name.
pub fn port(page: &mut Page, port: &Port) {
    let nest = page.open_nest(HEADER);
    page.attribute_u32(PORT_INDEX, port.index);
    let mut block = [0; 16];
    block[..8].copy_from_slice(&port.name[0].to_le_bytes());
    block[8..].copy_from_slice(&port.name[1].to_le_bytes());
    page.attribute_name(PORT_NAME, &block, text::length(&port.name));
    page.close_nest(nest);
}

/// The BITS nest: one BIT per set bit, rising.
fn bits(page: &mut Page, stored: &Stored) {
    let nest = page.open_nest(bitset::BITS);
    for word in 0..stored.names.words() {
        let mut left = u32_at(stored.words, 4 * word);
        while left != 0 {
            bit(page, stored.names, 32 * word + left.trailing_zeros() as usize);
            left &= left - 1;
        }
    }
    page.close_nest(nest);
}

/// A BIT nest: INDEX, then NAME where the bit has one.
#[inline]
fn bit(page: &mut Page, names: &NameList, number: usize) {
    let nest = page.open_nest(BIT);
    page.attribute_u32(BIT_INDEX, number as u32);
    if let Some((entry, length)) = names.name(number) {
        page.attribute_name(BIT_NAME, entry, length);
    }
    page.close_nest(nest);
}
