//! The reply to STRSET_GET (request C-13): its length, and its bytes.

use super::name_list::NameList;
use super::page::Page;
use super::reply;
use super::roll::Port;
use super::strset::STRSET_GET;
use super::text::{self, BIT_NAME};
use super::wire::{self, AttributeHeader, GenericHeader, MessageHeader};

/// Attribute types of the reply's top level, of STRINGSETS, STRINGSET, STRINGS and STRING.
const STRINGSETS: u16 = 2;
const STRINGSET: u16 = 1;
const ID: u16 = 1;
const COUNT: u16 = 2;
const STRINGS: u16 = 3;
const STRING: u16 = 1;
const INDEX: u16 = 1;
const VALUE: u16 = 2;

/// Bytes of a nest without its contents, and of an attribute with a u32.
const NEST: usize = AttributeHeader::SIZE;
const NUMBER: usize = AttributeHeader::SIZE + 4;

/// One list of names and its id.
#[derive(Clone, Copy)]
pub struct Listed<'a> {
    pub id: u32,
    pub names: &'a NameList<'a>,
}

/// All that a reply says.
pub struct Reply<'a> {
    pub family: u16,
    /// The port named in the request, if one is.
    pub port: Option<Port>,
    pub sets: [Option<Listed<'a>>; 2],
    /// Whether STRINGS is left out.
    pub counts_only: bool,
}

impl Reply<'_> {
    /// The bytes of the whole message.
    pub fn length(&self) -> usize {
        let headers = MessageHeader::SIZE + GenericHeader::SIZE;
        let port = self.port.map_or(0, |port| NEST + NUMBER + name_length(text::length(&port.name)));
        let sets = self.sets.iter().flatten().map(|set| self.set_length(set)).sum::<usize>();
        headers + port + NEST + sets
    }

    /// The bytes of a STRINGSET.
    fn set_length(&self, set: &Listed) -> usize {
        let strings = if self.counts_only { 0 } else { NEST + strings_length(set.names) };
        NEST + NUMBER + NUMBER + strings
    }

    /// Writes the message: the header nest where a port is named, then STRINGSETS.
    pub fn write(&self, page: &mut Page, header: &MessageHeader) {
        let message = page.open_message(self.family, 0, header.sequence, header.port_id);
        page.put(&[STRSET_GET, 1, 0, 0]);
        if let Some(port) = &self.port {
            reply::port(page, port);
        }
        let nest = page.open_nest(STRINGSETS);
        for set in self.sets.iter().flatten() {
            self.write_set(page, set);
        }
        page.close_nest(nest);
        page.close_message(message);
    }

    /// Writes a STRINGSET: ID, COUNT and, unless only counts are asked for, STRINGS.
    fn write_set(&self, page: &mut Page, set: &Listed) {
        let nest = page.open_nest(STRINGSET);
        page.attribute_u32(ID, set.id);
        page.attribute_u32(COUNT, set.names.bits() as u32);
        if !self.counts_only {
            write_strings(page, set.names);
        }
        page.close_nest(nest);
    }
}

/// The bytes of an attribute with a name of this length, its NUL and its padding.
#[inline]
fn name_length(length: usize) -> usize {
    wire::step(AttributeHeader::SIZE + length + 1)
}

/// A bit's entry and the length of its name, 0 where it has none.
#[inline]
fn entry<'a>(names: &NameList<'a>, bit: usize) -> (&'a [u8; BIT_NAME], usize) {
    names.name(bit).unwrap_or((&[0; BIT_NAME], 0))
}

/// The bytes of all STRINGs of a list.
fn strings_length(names: &NameList) -> usize {
    (0..names.bits()).map(|bit| NEST + NUMBER + name_length(entry(names, bit).1)).sum()
}

/// Writes STRINGS: a STRING for each entry, INDEX then VALUE, which is one NUL where the entry is empty.
fn write_strings(page: &mut Page, names: &NameList) {
    let strings = page.open_nest(STRINGS);
    for bit in 0..names.bits() {
        let string = page.open_nest(STRING);
        page.attribute_u32(INDEX, bit as u32);
        let (name, length) = entry(names, bit);
        page.attribute_name(VALUE, name, length);
        page.close_nest(string);
    }
    page.close_nest(strings);
}
