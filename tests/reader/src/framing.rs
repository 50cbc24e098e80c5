//! Messages in a datagram (document 01, "What a call says back"): 3, end, 4 and the step to the next message.

use super::wire::{self, MessageHeader};

/// Longest datagram that is read.
pub const MAX_DATAGRAM: usize = 32_768;

/// What stands at a position of a datagram.
pub enum Frame<'a> {
    /// The position is the datagram's end.
    End,
    /// A refusal that moves nothing: 3 or 4.
    Refused(u32),
    /// A message, from its header to its stated end, and the position of the next.
    Message { bytes: &'a [u8], header: MessageHeader, next: u64 },
}

/// Takes one message out of the datagram.
#[inline]
pub fn frame(datagram: &[u8], position: u64) -> Frame<'_> {
    if datagram.len() > MAX_DATAGRAM || position > datagram.len() as u64 {
        return Frame::Refused(3);
    }
    let start = position as usize;
    let rest = &datagram[start..];
    if rest.is_empty() {
        return Frame::End;
    }
    let Some(header) = MessageHeader::read(rest) else {
        return Frame::Refused(3);
    };
    let length = header.length as usize;
    if length < MessageHeader::SIZE || length > rest.len() {
        return Frame::Refused(4);
    }
    let next = (start + wire::step(length)).min(datagram.len()) as u64;
    Frame::Message { bytes: &rest[..length], header, next }
}
