//! The box a call is given (document 01, section of that name), checked whole on every call: refusal 1.

use super::command::Set;
use super::name_list::{NameList, NameSlots};
use super::roll::{Roll, RollSlots};
use super::wire::u32_at;
use std::ops::Range;

/// A box as the caller hands it over, nothing checked.
#[derive(Clone, Copy)]
pub struct Lent<'a> {
    pub family: u32,
    pub admin: u32,
    pub roll: &'a [u8],
    pub debug_names: &'a [u8],
    pub flag_names: &'a [u8],
}

/// Room that the check fills and the later look-ups use.
pub struct Tables {
    roll: RollSlots,
    debug: NameSlots,
    flags: NameSlots,
}

impl Tables {
    pub const fn new() -> Self {
        Tables { roll: RollSlots::new(), debug: NameSlots::new(), flags: NameSlots::new() }
    }
}

/// A box that keeps every rule.
pub struct SwitchBox<'a> {
    pub family: u16,
    pub admin: bool,
    pub roll: Roll<'a>,
    debug: NameList<'a>,
    flags: NameList<'a>,
}

impl<'a> SwitchBox<'a> {
    /// Checks family, admin, roll, both lists and the settings.
    pub fn check(lent: Lent<'a>, settings: &[u8], tables: &'a mut Tables) -> Option<Self> {
        if !(16..=65_535).contains(&lent.family) || lent.admin > 1 {
            return None;
        }
        let checked = SwitchBox {
            family: lent.family as u16,
            admin: lent.admin == 1,
            roll: Roll::check(lent.roll, &mut tables.roll)?,
            debug: NameList::check(lent.debug_names, &mut tables.debug)?,
            flags: NameList::check(lent.flag_names, &mut tables.flags)?,
        };
        checked.settings_fit(settings).then_some(checked)
    }

    /// Whether a dump has this place: one for each port, then one for DONE (request C-11).
    #[inline]
    pub fn has_place(&self, place: u64) -> bool {
        place <= self.roll.count() as u64
    }

    /// Whether the settings are exactly the words of all ports, with no bit at or past N.
    fn settings_fit(&self, settings: &[u8]) -> bool {
        let ports = self.roll.count();
        if settings.len() != 4 * ports * (self.debug.words() + self.flags.words()) {
            return false;
        }
        (0..ports).all(|port| self.set_fits(settings, port, Set::Debug) && self.set_fits(settings, port, Set::Flags))
    }

    /// Whether a set's last word has no bit at or past N.
    #[inline]
    fn set_fits(&self, settings: &[u8], port: usize, set: Set) -> bool {
        let names = self.names(set);
        let last = u32_at(settings, self.start(port, set) + 4 * (names.words() - 1));
        let used = names.bits() % 32;
        used == 0 || last >> used == 0
    }

    /// The list that names a set's bits.
    #[inline]
    pub fn names(&self, set: Set) -> &NameList<'a> {
        match set {
            Set::Debug => &self.debug,
            Set::Flags => &self.flags,
        }
    }

    /// Where a port's set begins in the settings, in bytes: for each port its debug set, then its flags.
    #[inline]
    fn start(&self, port: usize, set: Set) -> usize {
        let before = port * (self.debug.words() + self.flags.words());
        match set {
            Set::Debug => 4 * before,
            Set::Flags => 4 * (before + self.debug.words()),
        }
    }

    /// Where a port's set stands in the settings.
    #[inline]
    pub fn range(&self, port: usize, set: Set) -> Range<usize> {
        let start = self.start(port, set);
        start..start + 4 * self.names(set).words()
    }
}
