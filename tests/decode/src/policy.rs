//! Names and payloads of the attributes of the commands (document 01, "Sizes on the wire", and request C-13).

/// The same number in a request and in its reply.
const STRSET_GET: u8 = 1;

/// What a payload is read as.
#[derive(Clone, Copy, Debug, PartialEq, Eq)]
pub enum Shape {
    Number,
    Flag,
    Name,
    Words,
    Unknown,
}

/// Where attributes stand.
#[derive(Clone, Copy, Debug, PartialEq, Eq)]
pub enum Parent {
    Top,
    Header,
    Bitset,
    Bits,
    Bit,
    /// The top level of STRSET_GET and of its reply, and what stands in it.
    StrsetTop,
    Stringsets,
    Stringset,
    Strings,
    String,
    /// After the quoted header of an error message.
    Error,
    /// Names are unknown here.
    Plain,
}

/// An attribute's name, the shape of its payload, and what it is a parent of.
pub struct Known {
    pub name: &'static str,
    pub shape: Shape,
    pub parent: Parent,
}

/// What is known of a type inside a parent.
pub fn known(parent: Parent, kind: u16) -> Known {
    let leaf = |name, shape| Known { name, shape, parent: Parent::Plain };
    let nest = |name, parent| Known { name, shape: Shape::Unknown, parent };
    match (parent, kind) {
        (Parent::Top, 1) => nest("HEADER", Parent::Header),
        (Parent::Top, 2) => nest("BITSET", Parent::Bitset),
        (Parent::Header, 1) => leaf("INDEX", Shape::Number),
        (Parent::Header, 2) => leaf("NAME", Shape::Name),
        (Parent::Header, 3) => leaf("FLAGS", Shape::Number),
        (Parent::Bitset, 1) => leaf("NOMASK", Shape::Flag),
        (Parent::Bitset, 2) => leaf("SIZE", Shape::Number),
        (Parent::Bitset, 3) => nest("BITS", Parent::Bits),
        (Parent::Bitset, 4) => leaf("VALUE", Shape::Words),
        (Parent::Bitset, 5) => leaf("MASK", Shape::Words),
        (Parent::Bits, 1) => nest("BIT", Parent::Bit),
        (Parent::Bit, 1) => leaf("INDEX", Shape::Number),
        (Parent::Bit, 2) => leaf("NAME", Shape::Name),
        (Parent::Bit, 3) => leaf("VALUE", Shape::Flag),
        (Parent::StrsetTop, 1) => nest("HEADER", Parent::Header),
        (Parent::StrsetTop, 2) => nest("STRINGSETS", Parent::Stringsets),
        (Parent::StrsetTop, 3) => leaf("COUNTS_ONLY", Shape::Flag),
        (Parent::Stringsets, 1) => nest("STRINGSET", Parent::Stringset),
        (Parent::Stringset, 1) => leaf("ID", Shape::Number),
        (Parent::Stringset, 2) => leaf("COUNT", Shape::Number),
        (Parent::Stringset, 3) => nest("STRINGS", Parent::Strings),
        (Parent::Strings, 1) => nest("STRING", Parent::String),
        (Parent::String, 1) => leaf("INDEX", Shape::Number),
        (Parent::String, 2) => leaf("VALUE", Shape::Name),
        (Parent::Error, 2) => leaf("OFFS", Shape::Number),
        (Parent::Error, 5) => leaf("MISS_TYPE", Shape::Number),
        (Parent::Error, 6) => leaf("MISS_NEST", Shape::Number),
        _ => leaf("", Shape::Unknown),
    }
}

/// A command's name: requests and replies have numbers of their own.
pub fn command(number: u8, is_request: bool) -> &'static str {
    match (number, is_request) {
        (STRSET_GET, true) => "STRSET_GET",
        (STRSET_GET, false) => "STRSET_GET_REPLY",
        (7, true) => "DEBUG_GET",
        (8, true) => "DEBUG_SET",
        (13, true) => "PRIVFLAGS_GET",
        (14, true) => "PRIVFLAGS_SET",
        (7, false) => "DEBUG_GET_REPLY",
        (14, false) => "PRIVFLAGS_GET_REPLY",
        _ => "",
    }
}

/// What the attributes behind the headers of a message with this command stand in.
pub fn top(command: u8) -> Parent {
    match command {
        STRSET_GET => Parent::StrsetTop,
        _ => Parent::Top,
    }
}
