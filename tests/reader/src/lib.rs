//! An independent reader of ethtool netlink requests, written from document 01 and its later requests C-11 to
//! C-14 alone.
//!
//! It answers the same calls as the proved library: one message at a time ([`handle`]), one bitset at a time
//! ([`normalise`]), one box at a time ([`check_box`]), one bit name at a time ([`find`]), or a whole datagram for a fixed
//! box ([`run`]). Inputs are plain numbers and byte slices; every input has an answer. [`handle`] and [`normalise`]
//! allocate nothing.

#![forbid(unsafe_code)]

mod attribute;
mod bit_list;
mod bitset;
mod box_check;
mod command;
mod fault;
mod find;
mod framing;
mod handler;
mod name_list;
mod normaliser;
mod page;
mod port_header;
mod program;
mod reply;
mod roll;
mod slots;
mod strset;
mod strset_reply;
mod switch_box;
mod text;
pub mod wire;

pub use box_check::check_box;
pub use find::{find, NOT_FOUND};
pub use handler::{handle, Answer, DONE, END, REFUSED, SKIPPED};
pub use normaliser::normalise;
pub use program::{answers, answers_to, run};
