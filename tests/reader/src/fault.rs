//! Refusals 5 to 22 (document 01, "What a call says back"), 23 (request C-12), 24 and 25 (request C-13): number, errno,
//! detail.

/// What an error message says beside its errno.
#[derive(Clone, Copy, Debug, PartialEq, Eq)]
pub enum Detail {
    None,
    /// Offset of an attribute's header from the start of the request.
    Offset(usize),
    /// Type of a required attribute that is absent, and the offset of the nest that lacks it.
    Missing {
        kind: u16,
        nest: Option<usize>,
    },
}

/// The first fault of a request.
#[derive(Clone, Copy, Debug, PartialEq, Eq)]
pub struct Fault {
    pub number: u32,
    pub detail: Detail,
}

impl Fault {
    pub const fn plain(number: u32) -> Self {
        Fault { number, detail: Detail::None }
    }

    pub const fn at(number: u32, offset: usize) -> Self {
        Fault { number, detail: Detail::Offset(offset) }
    }

    /// Number 13: the top level (no nest) or a nest lacks a required attribute.
    pub const fn missing(kind: u16, nest: Option<usize>) -> Self {
        Fault { number: 13, detail: Detail::Missing { kind, nest } }
    }

    /// The errno column of the table.
    pub const fn errno(self) -> i32 {
        match self.number {
            5 => 2,
            7 | 8 | 15 | 20 | 21 | 24 => 95,
            9 => 1,
            16 | 17 => 19,
            25 => 90,
            _ => 22,
        }
    }
}
