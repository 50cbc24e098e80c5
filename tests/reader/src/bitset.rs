//! Bitsets (document 01, section of that name): what an accepted one does, and the compact form.

use super::attribute::{self, Attribute, Payload, Policy, Span};
use super::bit_list;
use super::fault::Fault;
use super::name_list::{NameList, MAX_WORDS};
use super::wire;

/// Attribute types inside a bitset.
pub const NOMASK: u16 = 1;
pub const SIZE: u16 = 2;
pub const BITS: u16 = 3;
pub const VALUE: u16 = 4;
pub const MASK: u16 = 5;

const POLICY: Policy<5> = [Payload::Flag, Payload::U32, Payload::Nest, Payload::Bytes, Payload::Bytes];

/// What a bitset does to any starting set: the bits of `mask` become those of `value`, which has no others.
pub struct Change {
    pub mask: [u32; MAX_WORDS],
    pub value: [u32; MAX_WORDS],
}

impl Change {
    pub const fn none() -> Self {
        Change { mask: [0; MAX_WORDS], value: [0; MAX_WORDS] }
    }

    /// Gives one bit a value; a later call for the same bit wins.
    #[inline]
    pub fn put(&mut self, bit: usize, on: bool) {
        let (word, place) = (bit / 32, bit % 32);
        self.mask[word] |= 1 << place;
        self.value[word] = self.value[word] & !(1 << place) | u32::from(on) << place;
    }

    /// Makes the change one of all bits below N: those that `value` lacks become 0.
    #[inline]
    pub fn cover(&mut self, bits: usize) {
        for (word, mask) in self.mask.iter_mut().enumerate() {
            *mask = low_bits(bits, word);
        }
    }

    /// One word of the set that this change makes of a starting set.
    #[inline]
    pub fn apply(&self, word: usize, old: u32) -> u32 {
        old & !self.mask[word] | self.value[word]
    }
}

/// The bits of a word that stand below `bound` in the whole set.
#[inline]
fn low_bits(bound: usize, word: usize) -> u32 {
    match bound.saturating_sub(32 * word) {
        0 => 0,
        left @ 1..32 => (1 << left) - 1,
        _ => u32::MAX,
    }
}

/// Walks and judges a bitset whose contents are `contents` and whose header stands at `nest`; the change is
/// whole only where no fault is told.
pub fn judge(message: &[u8], nest: usize, contents: Span, names: &NameList, change: &mut Change) -> Result<(), Fault> {
    let found = attribute::walk(message, contents, &POLICY)?;
    let [nomask, size, bits, value, mask] = found;
    forms_apart(nomask, bits, value, mask)?;
    match bits {
        Some(bits) => bit_list::judge(message, bits.span(), nomask.is_some(), names, change),
        None => {
            let size = size.ok_or(Fault::missing(SIZE, Some(nest)))?;
            let value = value.ok_or(Fault::missing(VALUE, Some(nest)))?;
            let size = size.number(message);
            if nomask.is_some() {
                return whole(message, size, value, names, change);
            }
            let mask = mask.ok_or(Fault::missing(MASK, Some(nest)))?;
            masked(message, size, value, mask, names, change)
        }
    }
}

/// Number 18, in order: BITS with VALUE; BITS with MASK; NOMASK with MASK.
#[inline]
fn forms_apart(
    nomask: Option<Attribute>,
    bits: Option<Attribute>,
    value: Option<Attribute>,
    mask: Option<Attribute>,
) -> Result<(), Fault> {
    match (bits, value, mask) {
        (Some(_), Some(value), _) => Err(Fault::at(18, value.at)),
        (Some(_), None, Some(mask)) => Err(Fault::at(18, mask.at)),
        (None, _, Some(mask)) if nomask.is_some() => Err(Fault::at(18, mask.at)),
        _ => Ok(()),
    }
}

/// A compact bitset under NOMASK: bits below SIZE take VALUE, the rest become 0.
fn whole(message: &[u8], size: u32, value: Attribute, names: &NameList, change: &mut Change) -> Result<(), Fault> {
    long_enough(value, size)?;
    let value_words = value.payload(message);
    below_n(value, value_words, size, names.bits())?;
    for word in 0..words_given(size, names) {
        change.value[word] = wire::u32_at(value_words, 4 * word) & low_bits(size as usize, word);
    }
    change.cover(names.bits());
    Ok(())
}

/// A compact bitset with MASK: bits in MASK take VALUE's bit, bits from SIZE on are ignored.
fn masked(
    message: &[u8],
    size: u32,
    value: Attribute,
    mask: Attribute,
    names: &NameList,
    change: &mut Change,
) -> Result<(), Fault> {
    long_enough(value, size)?;
    long_enough(mask, size)?;
    let (value_words, mask_words) = (value.payload(message), mask.payload(message));
    below_n(mask, mask_words, size, names.bits())?;
    for word in 0..words_given(size, names) {
        change.mask[word] = wire::u32_at(mask_words, 4 * word) & low_bits(size as usize, word);
        change.value[word] = wire::u32_at(value_words, 4 * word) & change.mask[word];
    }
    Ok(())
}

/// The words of a set that a bitmap of SIZE bits reaches.
#[inline]
fn words_given(size: u32, names: &NameList) -> usize {
    (size as usize).div_ceil(32).min(names.words())
}

/// Number 19: a bitmap holds at least SIZE/32 rounded up words.
#[inline]
fn long_enough(bitmap: Attribute, size: u32) -> Result<(), Fault> {
    let bytes = 4 * u64::from(size).div_ceil(32);
    let span = bitmap.span();
    if ((span.end - span.start) as u64) < bytes {
        return Err(Fault::at(19, bitmap.at));
    }
    Ok(())
}

/// Number 20: no bit i with N <= i < SIZE stands in the bitmap, which holds SIZE bits.
#[inline]
fn below_n(bitmap: Attribute, words: &[u8], size: u32, bits: usize) -> Result<(), Fault> {
    let size = size as usize;
    for word in bits / 32..size.div_ceil(32) {
        let barred = low_bits(size, word) & !low_bits(bits, word);
        if wire::u32_at(words, 4 * word) & barred != 0 {
            return Err(Fault::at(20, bitmap.at));
        }
    }
    Ok(())
}
