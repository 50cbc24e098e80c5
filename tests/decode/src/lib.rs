//! A datagram in readable form: its messages, their headers, their attributes as an indented tree.
//!
//! Nothing is judged but lengths: what can't be read is printed as bytes, and reading goes on where it can.

#![forbid(unsafe_code)]

mod attributes;
mod errors;
mod messages;
mod payload;
mod policy;

pub use messages::decode;

/// Bytes in hexadecimal, with blanks between; long runs are cut.
fn bytes_text(bytes: &[u8]) -> String {
    const SHOWN: usize = 64;
    let shown: Vec<String> = bytes.iter().take(SHOWN).map(|byte| format!("{byte:02x}")).collect();
    let more = bytes.len().saturating_sub(SHOWN);
    match more {
        0 => shown.join(" "),
        _ => format!("{} and {more} more", shown.join(" ")),
    }
}
