//! Error messages and ACKs: errno, the quoted header, the attributes about it.

use super::attributes::{print, Place};
use super::bytes_text;
use super::messages::{header_text, indent};
use super::policy::Parent;
use reader::wire::{u32_at, MessageHeader, ACK_TLVS, CAPPED};

/// Bytes of errno.
const ERRNO: usize = 4;

/// Prints what follows the header of an error message.
pub fn print_error(out: &mut String, message: &[u8], header: &MessageHeader) {
    let body = &message[MessageHeader::SIZE..];
    let Some(quoted) = body.get(ERRNO..).and_then(MessageHeader::read) else {
        indent(out, 1);
        out.push_str(&format!("error message cut short: {}\n", bytes_text(body)));
        return;
    };
    indent(out, 1);
    out.push_str(&format!("{}\n", errno_text(u32_at(body, 0) as i32)));
    indent(out, 1);
    out.push_str(&format!("about: {}\n", header_text(&quoted)));
    let quoted_length = match header.flags & CAPPED {
        0 => (quoted.length as usize).max(MessageHeader::SIZE),
        _ => MessageHeader::SIZE,
    };
    let offset = (MessageHeader::SIZE + ERRNO).saturating_add(quoted_length);
    if let (true, Some(bytes)) = (header.flags & ACK_TLVS != 0, message.get(offset..)) {
        print(out, Place { bytes, offset, depth: 1 }, Parent::Error);
    }
}

/// errno with the name that C gives it.
fn errno_text(errno: i32) -> String {
    let name = match errno {
        0 => return "ACK".to_string(),
        -1 => "EPERM",
        -2 => "ENOENT",
        -19 => "ENODEV",
        -22 => "EINVAL",
        -90 => "EMSGSIZE",
        -95 => "EOPNOTSUPP",
        _ => "",
    };
    format!("error {errno} {name}").trim_end().to_string()
}
