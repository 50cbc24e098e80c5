//! The normaliser (document 01, "Bitsets", normal form): one form for all bitsets that do the same.

use super::attribute::Span;
use super::bitset::{self, Change};
use super::framing::MAX_DATAGRAM;
use super::name_list::{NameList, NameSlots};
use super::page::Page;

/// Shortest page: the form of 512 bits.
const FORM_PAGE: usize = 144;

/// Writes the normal form of a bitset's contents; answers a number (0 if accepted) and the bytes written.
pub fn normalise(contents: &[u8], names: &[u8], page: &mut [u8]) -> (u32, u64) {
    let mut slots = NameSlots::new();
    let Some(names) = NameList::check(names, &mut slots) else {
        return (1, 0);
    };
    if page.len() < FORM_PAGE {
        return (2, 0);
    }
    if contents.len() > MAX_DATAGRAM {
        return (3, 0);
    }
    let mut change = Change::none();
    let all = Span { start: 0, end: contents.len() };
    match bitset::judge(contents, 0, all, &names, &mut change) {
        Ok(()) => (0, write(&change, &names, page)),
        Err(fault) => (fault.number, 0),
    }
}

/// SIZE N, VALUE W words, MASK W words.
fn write(change: &Change, names: &NameList, page: &mut [u8]) -> u64 {
    let mut page = Page::new(page);
    page.attribute_u32(bitset::SIZE, names.bits() as u32);
    for (kind, words) in [(bitset::VALUE, &change.value), (bitset::MASK, &change.mask)] {
        page.attribute(kind, 4 * names.words());
        for word in &words[..names.words()] {
            page.put_u32(*word);
        }
    }
    page.written() as u64
}
