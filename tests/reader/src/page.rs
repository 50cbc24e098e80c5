//! Writing into the answer page (document 01, "Sizes on the wire"): padding is written as 0 and counted.

use super::wire::{self, AttributeHeader, NESTED};

/// Shortest answer page of a call.
pub const ANSWER_PAGE: usize = 32_768;

/// Bytes put into a page one after the other; those behind are left as they are.
pub struct Page<'p> {
    bytes: &'p mut [u8],
    written: usize,
}

/// A nest or message whose length isn't known yet: where it begins.
#[derive(Clone, Copy)]
pub struct Open(usize);

impl<'p> Page<'p> {
    pub fn new(bytes: &'p mut [u8]) -> Self {
        Page { bytes, written: 0 }
    }

    /// The bytes written so far.
    #[inline]
    pub fn written(&self) -> usize {
        self.written
    }

    #[inline]
    pub fn put(&mut self, bytes: &[u8]) {
        self.bytes[self.written..self.written + bytes.len()].copy_from_slice(bytes);
        self.written += bytes.len();
    }

    #[inline]
    pub fn put_u32(&mut self, number: u32) {
        self.put(&number.to_le_bytes());
    }

    /// Begins a message: 16 bytes header, its length filled in by `close_message`.
    pub fn open_message(&mut self, kind: u16, flags: u16, sequence: u32, port_id: u32) -> Open {
        let start = Open(self.written);
        self.put_u32(0);
        self.put(&kind.to_le_bytes());
        self.put(&flags.to_le_bytes());
        self.put_u32(sequence);
        self.put_u32(port_id);
        start
    }

    pub fn close_message(&mut self, message: Open) {
        let length = (self.written - message.0) as u32;
        self.bytes[message.0..message.0 + 4].copy_from_slice(&length.to_le_bytes());
    }

    /// An attribute header with the stated length of a payload.
    #[inline]
    pub fn attribute(&mut self, kind: u16, payload: usize) {
        let length = (AttributeHeader::SIZE + payload) as u32;
        self.put_u32(length | u32::from(kind) << 16);
    }

    /// An attribute with a u32.
    #[inline]
    pub fn attribute_u32(&mut self, kind: u16, number: u32) {
        let header = (AttributeHeader::SIZE + 4) as u64 | u64::from(kind) << 16;
        self.put(&(header | u64::from(number) << 32).to_le_bytes());
    }

    /// An attribute with a name, its one NUL and its padding; `block` holds the NULs after the name.
    #[inline]
    pub fn attribute_name(&mut self, kind: u16, block: &[u8], length: usize) {
        self.attribute(kind, length + 1);
        self.put(&block[..wire::step(length + 1)]);
    }

    /// Begins a nest; its contents are written into the rest of the page after its own four bytes.
    #[inline]
    pub fn open_nest(&mut self, kind: u16) -> Open {
        let start = Open(self.written);
        self.attribute(kind | NESTED, 0);
        start
    }

    /// Fills in a nest's length, the padding of its last attribute counted.
    #[inline]
    pub fn close_nest(&mut self, nest: Open) {
        let length = (self.written - nest.0) as u16;
        self.bytes[nest.0..nest.0 + 2].copy_from_slice(&length.to_le_bytes());
    }
}
