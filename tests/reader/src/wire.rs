//! Netlink structures on the wire (document 01, "Sizes on the wire"): all numbers are little-endian.

/// Message flag: the message asks for something.
pub const REQUEST: u16 = 1;
/// Message flag: one of several messages that answer a dump.
pub const MULTI: u16 = 2;
/// Message flag: the sender wants an ACK.
pub const ACK: u16 = 4;
/// Message flags: a dump, both bits.
pub const DUMP: u16 = 0x300;
/// Error message flag: only the request's header is quoted.
pub const CAPPED: u16 = 0x100;
/// Error message flag: attributes follow the quoted header.
pub const ACK_TLVS: u16 = 0x200;
/// Message type of errors and ACKs.
pub const ERROR: u16 = 2;
/// Message type behind the last message of a dump.
pub const DONE: u16 = 3;
/// Message types below this one belong to netlink itself.
pub const FIRST_FAMILY: u16 = 16;
/// Attribute type bit: the payload is made of attributes.
pub const NESTED: u16 = 0x8000;
/// Attribute type bit: the payload is in network byte order.
pub const NETWORK_ORDER: u16 = 0x4000;

/// The step from the start of a message or attribute to the next: its stated length rounded up to 4.
#[inline]
pub const fn step(stated: usize) -> usize {
    (stated + 3) & !3
}

/// The 16-bit number at an offset.
#[inline]
pub fn u16_at(bytes: &[u8], at: usize) -> u16 {
    u16::from_le_bytes([bytes[at], bytes[at + 1]])
}

/// The 32-bit number at an offset.
#[inline]
pub fn u32_at(bytes: &[u8], at: usize) -> u32 {
    let four = &bytes[at..at + 4];
    u32::from_le_bytes([four[0], four[1], four[2], four[3]])
}

/// Header of a message.
#[derive(Clone, Copy, Debug, PartialEq, Eq)]
pub struct MessageHeader {
    pub length: u32,
    pub kind: u16,
    pub flags: u16,
    pub sequence: u32,
    pub port_id: u32,
}

impl MessageHeader {
    pub const SIZE: usize = 16;

    /// Reads the header at the start of `bytes`, if it is whole.
    #[inline]
    pub fn read(bytes: &[u8]) -> Option<Self> {
        let head = bytes.get(..Self::SIZE)?;
        Some(MessageHeader {
            length: u32_at(head, 0),
            kind: u16_at(head, 4),
            flags: u16_at(head, 6),
            sequence: u32_at(head, 8),
            port_id: u32_at(head, 12),
        })
    }

    /// Whether both DUMP bits stand; one alone means nothing.
    #[inline]
    pub const fn is_dump(&self) -> bool {
        self.flags & DUMP == DUMP
    }
}

/// Header of a generic netlink message, after the message header.
#[derive(Clone, Copy, Debug, PartialEq, Eq)]
pub struct GenericHeader {
    pub command: u8,
    pub version: u8,
    pub reserved: u16,
}

impl GenericHeader {
    pub const SIZE: usize = 4;

    /// Reads the header at the start of `bytes`, if it is whole.
    #[inline]
    pub fn read(bytes: &[u8]) -> Option<Self> {
        let head = bytes.get(..Self::SIZE)?;
        Some(GenericHeader { command: head[0], version: head[1], reserved: u16_at(head, 2) })
    }
}

/// Header of an attribute: stated length and type with its two bits.
#[derive(Clone, Copy, Debug, PartialEq, Eq)]
pub struct AttributeHeader {
    pub length: u16,
    pub bits_and_kind: u16,
}

impl AttributeHeader {
    pub const SIZE: usize = 4;

    /// Reads the header at the start of `bytes`, if it is whole.
    #[inline]
    pub fn read(bytes: &[u8]) -> Option<Self> {
        let head = bytes.get(..Self::SIZE)?;
        Some(AttributeHeader { length: u16_at(head, 0), bits_and_kind: u16_at(head, 2) })
    }

    /// The type without its two bits.
    #[inline]
    pub const fn kind(self) -> u16 {
        self.bits_and_kind & !(NESTED | NETWORK_ORDER)
    }

    /// Whether the payload is marked as made of attributes.
    #[inline]
    pub const fn is_nest(self) -> bool {
        self.bits_and_kind & NESTED != 0
    }
}
