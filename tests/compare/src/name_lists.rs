//! Which way a done STRSET_GET went (request C-13), told from its request and its reply.

use super::attributes::{attributes, last};
use cases::strsets::{COUNTS_ONLY, FLAGS, STRINGSETS, STRSET_GET};
use cases::HandleCase;
use reader::{Answer, DONE};

/// The ways; with COUNTS_ONLY all are one.
pub const WAYS: [&str; 6] = [
    "message classes by default, without a port",
    "private flags by default, of a port",
    "one listed set",
    "private flags, then message classes",
    "message classes, then private flags",
    "counts only",
];

/// The number of the way of a done STRSET_GET.
pub fn way(case: &HandleCase, answer: &Answer, page: &[u8]) -> Option<usize> {
    let message = case.datagram.get(usize::try_from(case.position).ok()?..)?;
    if answer.kind != DONE || message.get(16) != Some(&STRSET_GET) {
        return None;
    }
    let asked = attributes(&message[20..length(message)]);
    let reply = attributes(&page[20..length(page)]);
    let first = attributes(last(&reply, STRINGSETS)?);
    let default = last(&asked, STRINGSETS).is_none_or(<[u8]>::is_empty);
    let (counts_only, port_named) = (last(&asked, COUNTS_ONLY).is_some(), last(&reply, 1).is_some());
    Some(match first[..] {
        _ if counts_only => 5,
        _ if default => usize::from(port_named),
        [_] => 2,
        [(_, first), ..] if first.get(4..8) == Some(&FLAGS.to_le_bytes()) => 3,
        _ => 4,
    })
}

/// A message's stated length.
fn length(message: &[u8]) -> usize {
    u32::from_le_bytes([message[0], message[1], message[2], message[3]]) as usize
}
