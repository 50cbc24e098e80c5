//! A list of bit names (document 01, "The box a call is given"): 32 bytes an entry, N entries.

use super::slots::Slots;
use super::text::{self, Block, BIT_NAME, BIT_WORDS};

/// Most entries of a list.
pub const MAX_BITS: usize = 512;
/// Most words of a set.
pub const MAX_WORDS: usize = MAX_BITS / 32;

/// Room for the hashes of one list.
pub type NameSlots = Slots<{ 2 * MAX_BITS }>;

/// A list that keeps the rules, with its names by hash.
pub struct NameList<'a> {
    entries: &'a [[u8; BIT_NAME]],
    slots: &'a NameSlots,
}

impl<'a> NameList<'a> {
    /// Reads a list: 1 to 512 entries, each 0 to 31 bytes then NULs, no name twice but the empty one.
    pub fn check(bytes: &'a [u8], slots: &'a mut NameSlots) -> Option<Self> {
        let (entries, rest) = bytes.as_chunks::<BIT_NAME>();
        if !rest.is_empty() || entries.is_empty() || entries.len() > MAX_BITS {
            return None;
        }
        for (bit, entry) in entries.iter().enumerate() {
            let name: Block<BIT_WORDS> = text::block(entry);
            if entry[0] == 0 && name == [0; BIT_WORDS] {
                continue;
            }
            let same = |other: usize| text::same(&text::block(&entries[other]), &name);
            if !text::is_name(&name) || !slots.insert(text::hash(&name), bit, same) {
                return None;
            }
        }
        Some(NameList { entries, slots })
    }

    /// N, the number of bits.
    #[inline]
    pub fn bits(&self) -> usize {
        self.entries.len()
    }

    /// W, the words of a set: N/32 rounded up.
    #[inline]
    pub fn words(&self) -> usize {
        self.entries.len().div_ceil(32)
    }

    /// A bit's name with the NULs after it, up to a multiple of 4 bytes, and its length without; none if empty.
    #[inline]
    pub fn name(&self, bit: usize) -> Option<(&'a [u8; BIT_NAME], usize)> {
        let entry = &self.entries[bit];
        let length = text::length::<BIT_WORDS>(&text::block(entry));
        (length > 0).then_some((entry, length))
    }

    /// The bit whose entry equals the name; an empty name matches none ("Bitsets").
    #[inline]
    pub fn find(&self, name: Block<BIT_WORDS>) -> Option<usize> {
        let same = |bit: usize| text::same(&text::block(&self.entries[bit]), &name);
        self.slots.seek(text::hash(&name), same).ok()
    }
}
