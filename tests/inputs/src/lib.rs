//! Inputs for the program `answer`, for the one box that it has: port 3 "sw0", 40 bits in each set, flag 3 "lldp".
//!
//! The stored input (`crates/answer/stdin`) is [`stored`]: one long datagram that meets every refusal from 5 to 24 but
//! 9, which cannot be met since the program's sender is always admin. 25 cannot be met by a box with so few names. The other
//! inputs are the ways in which a run ends.

#![forbid(unsafe_code)]

mod changes;
mod ends;
mod gets;
mod making;
mod refusals;

pub use ends::ends;
pub use making::{Message, Outcome};

/// The messages of the stored input, in order.
pub fn messages() -> Vec<Message> {
    let mut messages = gets::before();
    messages.extend(changes::sheet());
    messages.extend(changes::index_and_name());
    messages.extend(changes::debug());
    messages.extend(gets::dumps());
    messages.extend(gets::name_lists());
    messages.extend(refusals::of_message());
    messages.extend(refusals::of_header());
    messages.extend(refusals::of_dump());
    messages.extend(refusals::of_bitset());
    messages.extend(refusals::of_index_and_name());
    messages.extend(refusals::of_names());
    messages.extend(refusals::of_name_lists());
    messages.extend(gets::after());
    messages
}

/// The stored input: each message counted from sequence 7 on, and padded by bytes that mean nothing.
pub fn stored() -> Vec<u8> {
    making::datagram(messages().iter().map(|message| &message.request))
}

/// Every input by its name.
pub fn inputs() -> Vec<(&'static str, Vec<u8>)> {
    let mut inputs = vec![("stored", stored()), ("example", gets::whole_reply())];
    inputs.extend(ends());
    inputs
}
