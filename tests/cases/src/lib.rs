//! Cases for the handler, the normaliser, the check of a box and the search for a bit name, each made from a seed and its
//! number alone.
//!
//! A case begins as a right box and a valid request of one of the five commands, in one of its many forms, dumps among
//! them. Then it is damaged none to three times: in the tree of attributes, in what the attributes say, in the message,
//! in the datagram, in the page or in the box. The place of a dump is any that the box has; other messages often get
//! one too, and all now and then one above the port count. Small boxes dominate; every hundredth or so is large, and
//! some have names whose reply is just not too long, or just too long. A case for the check of a box has no request, more
//! ports, and damage in any part and at any place of it. A case for the search has a list, mostly one of which many names
//! have one length and one last byte, and a name that is in it or nearly is, or one that no list has.

#![forbid(unsafe_code)]

mod alike;
mod bad_box;
mod bad_message;
mod bad_parts;
mod bad_strsets;
mod bad_tree;
mod bad_words;
pub mod bitsets;
mod boxes;
mod case;
mod datagrams;
mod hex;
mod long_lists;
mod making;
mod names;
mod places;
pub mod requests;
mod rng;
pub mod strsets;
pub mod tree;
mod wanted;

pub use case::{Case, CheckBoxCase, FindCase, GivenBox, HandleCase, NormaliseCase};
pub use hex::hex;
pub use making::case;
