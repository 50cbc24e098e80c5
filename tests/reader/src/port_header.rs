//! The header of a request (document 01, "What a call says back"): 14 to 17, and 8 of a dump (request C-11).

use super::attribute::{self, Attribute, Payload, Policy};
use super::fault::Fault;
use super::roll::Roll;

/// Header flag: the reply carries a compact bitset.
const COMPACT: u32 = 1;
/// Header flag: omit the reply; it changes nothing here.
const OMIT_REPLY: u32 = 2;

const POLICY: Policy<3> = [Payload::U32, Payload::PortName, Payload::U32];

/// The port that a header names, by its position in the roll, and the form asked for.
#[derive(Clone, Copy)]
pub struct Named {
    pub port: usize,
    pub compact: bool,
}

/// Walks the header whole, then judges 14 to 17.
pub fn judge(message: &[u8], header: Attribute, roll: &Roll) -> Result<Named, Fault> {
    let [index, name, flags] = attribute::walk(message, header.span(), &POLICY)?;
    if index.is_none() && name.is_none() {
        return Err(Fault::at(14, header.at));
    }
    let compact = judge_flags(message, flags)?;
    let port = find_port(message, header, index, name, roll)?;
    Ok(Named { port, compact })
}

/// Walks the header of a dump whole, then judges 8, since it may name no port, and 15; tells whether replies are compact.
pub fn judge_dump(message: &[u8], header: Attribute) -> Result<bool, Fault> {
    let [index, name, flags] = attribute::walk(message, header.span(), &POLICY)?;
    if index.is_some() || name.is_some() {
        return Err(Fault::plain(8));
    }
    judge_flags(message, flags)
}

/// Walks the header of a request that need not name a port whole, then judges 15 and, where a port is named, 16 and 17;
/// gives that port's position (request C-13).
pub fn judge_optional(message: &[u8], header: Attribute, roll: &Roll) -> Result<Option<usize>, Fault> {
    let [index, name, flags] = attribute::walk(message, header.span(), &POLICY)?;
    judge_flags(message, flags)?;
    let names_a_port = index.is_some() || name.is_some();
    names_a_port.then(|| find_port(message, header, index, name, roll)).transpose()
}

/// Number 15: a flag other than the two known ones. Tells whether a compact reply is asked for.
fn judge_flags(message: &[u8], flags: Option<Attribute>) -> Result<bool, Fault> {
    let Some(attribute) = flags else {
        return Ok(false);
    };
    let flags = attribute.number(message);
    if flags & !(COMPACT | OMIT_REPLY) != 0 {
        return Err(Fault::at(15, attribute.at));
    }
    Ok(flags & COMPACT != 0)
}

/// Numbers 16 and 17: the port by index if given, else by name; a name beside the index is its own.
fn find_port(
    message: &[u8],
    header: Attribute,
    index: Option<Attribute>,
    name: Option<Attribute>,
    roll: &Roll,
) -> Result<usize, Fault> {
    let wanted = name.map(|attribute| attribute.name(message));
    match (index, name, wanted) {
        (Some(index), _, wanted) => {
            let port = roll.by_index(index.number(message)).ok_or(Fault::at(16, index.at))?;
            match wanted {
                Some(wanted) if roll.port(port).name != wanted => Err(Fault::at(17, header.at)),
                _ => Ok(port),
            }
        }
        (None, Some(name), Some(wanted)) => roll.by_name(&wanted).ok_or(Fault::at(16, name.at)),
        _ => Err(Fault::at(14, header.at)),
    }
}
