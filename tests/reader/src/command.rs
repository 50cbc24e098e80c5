//! The four ethtool commands that have a set (document 01, "What the box reads and writes").

/// Which of a port's two sets.
#[derive(Clone, Copy, Debug, PartialEq, Eq)]
pub enum Set {
    Debug,
    Flags,
}

/// What a command does with its set.
#[derive(Clone, Copy, Debug, PartialEq, Eq)]
pub enum Action {
    Get,
    Set,
}

/// One listed command.
#[derive(Clone, Copy, Debug, PartialEq, Eq)]
pub struct Command {
    pub set: Set,
    pub action: Action,
    /// Whether it may ask for all ports at once (request C-11).
    pub dumps: bool,
}

impl Command {
    /// The command with this number, if it is listed.
    #[inline]
    pub const fn from_number(number: u8) -> Option<Self> {
        let (set, action, dumps) = match number {
            7 => (Set::Debug, Action::Get, true),
            8 => (Set::Debug, Action::Set, false),
            13 => (Set::Flags, Action::Get, true),
            14 => (Set::Flags, Action::Set, false),
            _ => return None,
        };
        Some(Command { set, action, dumps })
    }
}

impl Set {
    /// The command number of a reply that carries this set ("Replies").
    #[inline]
    pub const fn reply_command(self) -> u8 {
        match self {
            Set::Debug => 7,
            Set::Flags => 14,
        }
    }
}
