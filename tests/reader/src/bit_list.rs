//! Bit lists (document 01, "Bitsets"; request C-12): BITS walked whole, then each BIT in order, walked whole and
//! judged.

use super::attribute::{self, Attribute, Payload, Policy, Span};
use super::bitset::Change;
use super::fault::Fault;
use super::name_list::NameList;

const BITS_POLICY: Policy<1> = [Payload::Nest];
const BIT_POLICY: Policy<3> = [Payload::U32, Payload::BitName, Payload::Flag];

/// Judges a list and gathers what it does; NOMASK sets the listed bits and clears all others.
pub fn judge(message: &[u8], list: Span, nomask: bool, names: &NameList, change: &mut Change) -> Result<(), Fault> {
    attribute::for_each(message, list, &BITS_POLICY, |_| Ok(()))?;
    attribute::for_each(message, list, &BITS_POLICY, |entry| {
        let [index, name, value] = attribute::walk(message, entry.span(), &BIT_POLICY)?;
        let bit = identify(message, entry, index, name, names)?;
        change.put(bit, value.is_some() || nomask);
        Ok(())
    })?;
    if nomask {
        change.cover(names.bits());
    }
    Ok(())
}

/// The bit that a BIT means. INDEX is judged first (20), then NAME (21), then whether both mean the same bit (23), or
/// whether none is meant (22).
#[inline]
fn identify(
    message: &[u8],
    entry: Attribute,
    index: Option<Attribute>,
    name: Option<Attribute>,
    names: &NameList,
) -> Result<usize, Fault> {
    let by_index = index.map(|index| numbered(message, index, names)).transpose()?;
    let by_name = name.map(|name| called(message, name, names)).transpose()?;
    match (by_index, by_name) {
        (Some(index), Some(name)) if index != name => Err(Fault::at(23, entry.at)),
        (Some(bit), _) | (None, Some(bit)) => Ok(bit),
        (None, None) => Err(Fault::at(22, entry.at)),
    }
}

/// The bit with the number in INDEX.
#[inline]
fn numbered(message: &[u8], index: Attribute, names: &NameList) -> Result<usize, Fault> {
    let bit = index.number(message) as usize;
    (bit < names.bits()).then_some(bit).ok_or(Fault::at(20, index.at))
}

/// The bit with this NAME.
#[inline]
fn called(message: &[u8], name: Attribute, names: &NameList) -> Result<usize, Fault> {
    names.find(name.name(message)).ok_or(Fault::at(21, name.at))
}
