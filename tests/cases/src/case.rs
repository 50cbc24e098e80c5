//! A case: all inputs of one call.

use super::hex;
use std::fmt::{Display, Formatter, Result};

/// Inputs of the handler.
#[derive(Clone, Debug, PartialEq, Eq)]
pub struct HandleCase {
    pub family: u32,
    pub admin: u32,
    pub roll: Vec<u8>,
    pub debug_names: Vec<u8>,
    pub flag_names: Vec<u8>,
    pub settings: Vec<u8>,
    pub datagram: Vec<u8>,
    pub position: u64,
    /// Which message of a dump is asked for.
    pub place: u64,
    /// The page as it is before the call.
    pub page: Vec<u8>,
}

/// Inputs of the normaliser.
#[derive(Clone, Debug, PartialEq, Eq)]
pub struct NormaliseCase {
    pub contents: Vec<u8>,
    pub names: Vec<u8>,
    /// The page as it is before the call.
    pub page: Vec<u8>,
}

/// Inputs of the check of a box.
#[derive(Clone, Debug, PartialEq, Eq)]
pub struct CheckBoxCase {
    pub family: u32,
    pub admin: u32,
    pub roll: Vec<u8>,
    pub debug_names: Vec<u8>,
    pub flag_names: Vec<u8>,
    pub settings: Vec<u8>,
}

/// Inputs of the search for a bit name.
#[derive(Clone, Debug, PartialEq, Eq)]
pub struct FindCase {
    pub names: Vec<u8>,
    pub name: Vec<u8>,
}

/// One call.
#[derive(Clone, Debug, PartialEq, Eq)]
pub enum Case {
    Handle(HandleCase),
    Normalise(NormaliseCase),
    CheckBox(CheckBoxCase),
    Find(FindCase),
}

/// The box of a case.
#[derive(Clone, Copy)]
pub struct GivenBox<'a> {
    pub family: u32,
    pub admin: u32,
    pub roll: &'a [u8],
    pub debug_names: &'a [u8],
    pub flag_names: &'a [u8],
    pub settings: &'a [u8],
}

impl<'a> From<&'a HandleCase> for GivenBox<'a> {
    fn from(case: &'a HandleCase) -> Self {
        let HandleCase { family, admin, roll, debug_names, flag_names, settings, .. } = case;
        GivenBox { family: *family, admin: *admin, roll, debug_names, flag_names, settings }
    }
}

impl<'a> From<&'a CheckBoxCase> for GivenBox<'a> {
    fn from(case: &'a CheckBoxCase) -> Self {
        let CheckBoxCase { family, admin, roll, debug_names, flag_names, settings } = case;
        GivenBox { family: *family, admin: *admin, roll, debug_names, flag_names, settings }
    }
}

impl Display for GivenBox<'_> {
    fn fmt(&self, out: &mut Formatter) -> Result {
        writeln!(out, "family {}\nadmin {}", self.family, self.admin)?;
        writeln!(out, "roll {}", hex(self.roll))?;
        writeln!(out, "debug_names {}", hex(self.debug_names))?;
        writeln!(out, "flag_names {}", hex(self.flag_names))?;
        writeln!(out, "settings {}", hex(self.settings))
    }
}

impl Display for HandleCase {
    fn fmt(&self, out: &mut Formatter) -> Result {
        write!(out, "handle\n{}", GivenBox::from(self))?;
        writeln!(out, "datagram {}", hex(&self.datagram))?;
        writeln!(out, "position {}\nplace {}", self.position, self.place)?;
        writeln!(out, "page {} bytes, {}", self.page.len(), hex(&self.page))
    }
}

impl Display for NormaliseCase {
    fn fmt(&self, out: &mut Formatter) -> Result {
        writeln!(out, "normalise\ncontents {}", hex(&self.contents))?;
        writeln!(out, "names {}", hex(&self.names))?;
        writeln!(out, "page {} bytes, {}", self.page.len(), hex(&self.page))
    }
}

impl Display for FindCase {
    fn fmt(&self, out: &mut Formatter) -> Result {
        writeln!(out, "find\nnames {}", hex(&self.names))?;
        writeln!(out, "name {}", hex(&self.name))
    }
}

impl Display for Case {
    fn fmt(&self, out: &mut Formatter) -> Result {
        match self {
            Case::Handle(case) => case.fmt(out),
            Case::Normalise(case) => case.fmt(out),
            Case::CheckBox(case) => write!(out, "check_box\n{}", GivenBox::from(case)),
            Case::Find(case) => case.fmt(out),
        }
    }
}
