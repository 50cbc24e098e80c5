//! Attributes inside their parent: 10, 11 and 12 for each in turn (document 01, "Sizes on the wire").

use super::fault::Fault;
use super::text::{self, Block, BIT_WORDS, PORT_WORDS};
use super::wire::{self, AttributeHeader};

/// What the payload of a listed type must be.
#[derive(Clone, Copy, PartialEq, Eq)]
pub enum Payload {
    Nest,
    U32,
    Flag,
    PortName,
    BitName,
    Bytes,
}

/// The types listed for a parent: type 1 first, without gaps.
pub type Policy<const TYPES: usize> = [Payload; TYPES];

/// The part of the message that a parent's attributes fill.
#[derive(Clone, Copy)]
pub struct Span {
    pub start: usize,
    pub end: usize,
}

/// One attribute: its header's offset, its type, its stated end.
#[derive(Clone, Copy, PartialEq, Eq, Debug)]
pub struct Attribute {
    pub at: usize,
    pub kind: u16,
    pub end: usize,
}

impl Attribute {
    /// The payload's place.
    #[inline]
    pub fn span(self) -> Span {
        Span { start: self.at + AttributeHeader::SIZE, end: self.end }
    }

    /// The payload: stated length less 4.
    #[inline]
    pub fn payload(self, message: &[u8]) -> &[u8] {
        &message[self.at + AttributeHeader::SIZE..self.end]
    }

    /// The payload of an attribute that was checked to be a u32.
    #[inline]
    pub fn number(self, message: &[u8]) -> u32 {
        wire::u32_at(message, self.at + AttributeHeader::SIZE)
    }

    /// The payload of an attribute that was checked to be a name of at most `8 * WORDS` bytes.
    #[inline]
    pub fn name<const WORDS: usize>(self, message: &[u8]) -> Block<WORDS> {
        let Span { start, end } = self.span();
        text::block_at(message, start, end - start)
    }

    /// Where the next attribute begins; the parent's end stops the step.
    #[inline]
    pub fn next(self, parent: Span) -> usize {
        (self.at + wire::step(self.end - self.at)).min(parent.end)
    }
}

/// Reads and checks the attribute at `at`, which is before the parent's end.
#[inline]
fn read<const TYPES: usize>(message: &[u8], at: usize, end: usize, policy: &Policy<TYPES>) -> Result<Attribute, Fault> {
    let bytes = &message[at..end];
    let header = AttributeHeader::read(bytes).ok_or(Fault::at(10, at))?;
    let length = usize::from(header.length);
    if length < AttributeHeader::SIZE || length > bytes.len() {
        return Err(Fault::at(10, at));
    }
    let kind = header.kind();
    let rule = policy.get(usize::from(kind).wrapping_sub(1)).ok_or(Fault::at(11, at))?;
    let attribute = Attribute { at, kind, end: at + length };
    if !bits_fit(header, *rule) || !payload_fits(message, attribute.span(), *rule) {
        return Err(Fault::at(12, at));
    }
    Ok(attribute)
}

/// A nest carries 0x8000, the others don't; nothing carries 0x4000.
#[inline]
fn bits_fit(header: AttributeHeader, rule: Payload) -> bool {
    let nested = header.is_nest() == (rule == Payload::Nest);
    nested && header.bits_and_kind & wire::NETWORK_ORDER == 0
}

/// The line "Payloads"; what is inside a nest is judged when it is opened.
#[inline]
fn payload_fits(message: &[u8], payload: Span, rule: Payload) -> bool {
    let Span { start, end } = payload;
    match rule {
        Payload::Nest | Payload::Bytes => true,
        Payload::U32 => end - start == 4,
        Payload::Flag => end == start,
        Payload::PortName => text::is_payload::<PORT_WORDS>(message, start, end),
        Payload::BitName => text::is_payload::<BIT_WORDS>(message, start, end),
    }
}

/// Walks a parent whole, giving each checked attribute to `each`, up to the first fault.
#[inline]
pub fn for_each<const TYPES: usize>(
    message: &[u8],
    parent: Span,
    policy: &Policy<TYPES>,
    mut each: impl FnMut(Attribute) -> Result<(), Fault>,
) -> Result<(), Fault> {
    let mut at = parent.start;
    while at < parent.end {
        let attribute = read(message, at, parent.end, policy)?;
        each(attribute)?;
        at = attribute.next(parent);
    }
    Ok(())
}

/// Walks a parent whole and keeps, of each type, the attribute that counts: the last.
#[inline]
pub fn walk<const TYPES: usize>(
    message: &[u8],
    parent: Span,
    policy: &Policy<TYPES>,
) -> Result<[Option<Attribute>; TYPES], Fault> {
    let mut counting = [None; TYPES];
    for_each(message, parent, policy, |attribute| {
        counting[usize::from(attribute.kind) - 1] = Some(attribute);
        Ok(())
    })?;
    Ok(counting)
}
