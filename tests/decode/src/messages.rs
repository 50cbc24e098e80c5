//! Messages of a datagram, one after the other.

use super::attributes::{print, Place};
use super::bytes_text;
use super::errors::print_error;
use super::policy::{self, Parent};
use reader::wire::{step, u32_at, GenericHeader, MessageHeader, DONE, ERROR, FIRST_FAMILY, MULTI, REQUEST};

/// The datagram as text; attributes of messages of `family` are named as ethtool's.
pub fn decode(datagram: &[u8], family: Option<u16>) -> String {
    let mut out = String::new();
    let mut at = 0;
    while at < datagram.len() {
        let rest = &datagram[at..];
        let Some(header) = MessageHeader::read(rest) else {
            out.push_str(&format!("{} bytes left at {at}: {}\n", rest.len(), bytes_text(rest)));
            break;
        };
        let length = header.length as usize;
        out.push_str(&format!("message at {at}: {}\n", header_text(&header)));
        if length < MessageHeader::SIZE || length > rest.len() {
            out.push_str(&format!("  bad length {length}, {} bytes left\n", rest.len()));
            break;
        }
        body(&mut out, &rest[..length], &header, family);
        at += step(length);
    }
    out
}

/// A message header on one line.
pub fn header_text(header: &MessageHeader) -> String {
    let MessageHeader { length, kind, flags, sequence, port_id } = header;
    let named = flag_names(header);
    format!("length {length}, type {kind}, flags {flags:#06x}{named}, sequence {sequence}, port id {port_id}")
}

/// The flags of a dump and of what answers it by name; in an error message the DUMP bits mean something else.
fn flag_names(header: &MessageHeader) -> String {
    let dump = if header.flags & REQUEST != 0 && header.is_dump() { " DUMP" } else { "" };
    let multi = if header.flags & MULTI != 0 { " MULTI" } else { "" };
    format!("{dump}{multi}")
}

/// Two blanks for each level.
pub fn indent(out: &mut String, depth: usize) {
    out.push_str(&"  ".repeat(depth));
}

/// What stands after the message header.
fn body(out: &mut String, message: &[u8], header: &MessageHeader, family: Option<u16>) {
    let bytes = &message[MessageHeader::SIZE..];
    match GenericHeader::read(bytes) {
        _ if header.kind == ERROR => print_error(out, message, header),
        _ if header.kind == DONE && bytes.len() == 4 => out.push_str(&format!("  DONE {}\n", u32_at(bytes, 0) as i32)),
        Some(generic) if header.kind >= FIRST_FAMILY => {
            let named = family == Some(header.kind);
            let command = if named { policy::command(generic.command, header.flags & REQUEST != 0) } else { "" };
            let title = format!("command {} {command}", generic.command);
            out.push_str(&format!("  {}, version {}\n", title.trim_end(), generic.version));
            let offset = MessageHeader::SIZE + GenericHeader::SIZE;
            let parent = if named { policy::top(generic.command) } else { Parent::Plain };
            print(out, Place { bytes: &message[offset..], offset, depth: 1 }, parent);
        }
        _ if bytes.is_empty() => {}
        _ => out.push_str(&format!("  {}\n", bytes_text(bytes))),
    }
}
