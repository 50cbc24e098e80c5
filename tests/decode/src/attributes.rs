//! Attributes as an indented tree: a nest is what carries 0x8000.

use super::payload;
use super::policy::{known, Known, Parent};
use super::{bytes_text, messages::indent};
use reader::wire::{step, AttributeHeader, NETWORK_ORDER};

/// Nests deeper than this are printed as bytes.
const DEEPEST: usize = 12;

/// Where the attributes of a parent stand: their bytes, the offset of these in the message, the depth.
#[derive(Clone, Copy)]
pub struct Place<'a> {
    pub bytes: &'a [u8],
    pub offset: usize,
    pub depth: usize,
}

/// Prints all attributes of a parent.
pub fn print(out: &mut String, place: Place, parent: Parent) {
    let Place { bytes, offset, depth } = place;
    let mut at = 0;
    while at < bytes.len() {
        let rest = &bytes[at..];
        let Some(header) = AttributeHeader::read(rest) else {
            return line(out, depth, offset + at, &format!("{} bytes left: {}", rest.len(), bytes_text(rest)));
        };
        let length = usize::from(header.length);
        let Some(payload) = rest.get(AttributeHeader::SIZE..length) else {
            let text = format!("bad length {length} of {} left: {}", rest.len(), bytes_text(rest));
            return line(out, depth, offset + at, &text);
        };
        let inside = Place { bytes: payload, offset: offset + at + AttributeHeader::SIZE, depth: depth + 1 };
        attribute(out, header, inside, parent);
        at += step(length);
    }
}

/// Prints one attribute and what is inside it.
fn attribute(out: &mut String, header: AttributeHeader, inside: Place, parent: Parent) {
    let Known { name, shape, parent } = known(parent, header.kind());
    let network = if header.bits_and_kind & NETWORK_ORDER != 0 { ", network byte order" } else { "" };
    let title = format!("{} {name}", header.kind()).trim_end().to_string() + network;
    let (depth, at) = (inside.depth - 1, inside.offset - AttributeHeader::SIZE);
    if header.is_nest() && inside.depth <= DEEPEST {
        line(out, depth, at, &format!("{title}, nest of {} bytes", inside.bytes.len()));
        print(out, inside, parent);
    } else {
        line(out, depth, at, &format!("{title}: {}", payload::text(inside.bytes, shape)));
    }
}

/// One line: indentation, offset in the message, text.
fn line(out: &mut String, depth: usize, offset: usize, text: &str) {
    indent(out, depth);
    out.push_str(&format!("@{offset} {text}\n"));
}
