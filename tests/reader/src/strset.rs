//! STRSET_GET (request C-13): which name lists a request asks for, judged, and its answer.

use super::attribute::{self, Payload, Policy, Span};
use super::command::Set;
use super::fault::Fault;
use super::page::Page;
use super::port_header;
use super::reply;
use super::strset_reply::{Listed, Reply};
use super::switch_box::SwitchBox;
use super::wire::{self, GenericHeader, MessageHeader};

/// The command's number, of the request and of its reply.
pub const STRSET_GET: u8 = 1;

/// The ids of the sets offered: private flags belong to a port, message classes (the debug names) to none.
const PRIVATE_FLAGS: u32 = 2;
const MESSAGE_CLASSES: u32 = 10;

/// Required attribute types: of the top level and of a STRINGSET.
const HEADER: u16 = 1;
const ID: u16 = 1;

/// Top level: header, STRINGSETS, COUNTS_ONLY.
const POLICY: Policy<3> = [Payload::Nest, Payload::Nest, Payload::Flag];
const STRINGSETS_POLICY: Policy<1> = [Payload::Nest];
const STRINGSET_POLICY: Policy<1> = [Payload::U32];

/// The longest reply, its ACK counted.
const LONGEST: usize = 32_768;
/// Bytes of an ACK.
const ACK_LENGTH: usize = 36;

/// What a request asks for.
struct Asked {
    /// The named port, by its position in the roll.
    port: Option<usize>,
    sets: Sets,
    counts_only: bool,
}

/// Sets in the order in which their ids first stand, each of them once.
type Sets = [Option<Set>; 2];

/// Answers a request of command 1 that passed number 6: the reply, then the ACK if asked, or the first fault.
pub fn serve(state: &SwitchBox, request: &[u8], header: &MessageHeader, page: &mut Page) -> Result<(), Fault> {
    if header.is_dump() {
        return Err(Fault::plain(8));
    }
    let reply = prepare(state, &judge(state, request)?);
    let wants_ack = header.flags & wire::ACK != 0;
    if reply.length() + if wants_ack { ACK_LENGTH } else { 0 } > LONGEST {
        return Err(Fault::plain(25));
    }
    reply.write(page, header);
    if wants_ack {
        reply::ack(page, request, header);
    }
    Ok(())
}

/// Walks the top level whole, then the header, then the list; without a list, or with an empty one, the sets are those
/// of the port, or without a port the global ones.
fn judge(state: &SwitchBox, message: &[u8]) -> Result<Asked, Fault> {
    let attributes = Span { start: MessageHeader::SIZE + GenericHeader::SIZE, end: message.len() };
    let [header, stringsets, counts_only] = attribute::walk(message, attributes, &POLICY)?;
    let header = header.ok_or(Fault::missing(HEADER, None))?;
    let port = port_header::judge_optional(message, header, &state.roll)?;
    let listed = match stringsets {
        Some(stringsets) => judge_list(message, stringsets.span(), port.is_some())?,
        None => [None; 2],
    };
    let sets = match (listed, port) {
        ([None, _], Some(_)) => [Some(Set::Flags), None],
        ([None, _], None) => [Some(Set::Debug), None],
        _ => listed,
    };
    Ok(Asked { port, sets, counts_only: counts_only.is_some() })
}

/// Walks STRINGSETS whole, then each STRINGSET in order, walked whole and judged: 13, 24.
fn judge_list(message: &[u8], list: Span, port_named: bool) -> Result<Sets, Fault> {
    attribute::for_each(message, list, &STRINGSETS_POLICY, |_| Ok(()))?;
    let mut sets = [None; 2];
    attribute::for_each(message, list, &STRINGSETS_POLICY, |stringset| {
        let [id] = attribute::walk(message, stringset.span(), &STRINGSET_POLICY)?;
        let id = id.ok_or(Fault::missing(ID, Some(stringset.at)))?;
        let set = offered(id.number(message), port_named).ok_or(Fault::at(24, id.at))?;
        add(&mut sets, set);
        Ok(())
    })?;
    Ok(sets)
}

/// The set with this id, if it may be listed: private flags only where a port is named.
fn offered(id: u32, port_named: bool) -> Option<Set> {
    match id {
        PRIVATE_FLAGS if port_named => Some(Set::Flags),
        MESSAGE_CLASSES => Some(Set::Debug),
        _ => None,
    }
}

/// Adds a set behind the others, unless it is there.
fn add(sets: &mut Sets, set: Set) {
    match sets {
        [first @ None, _] => *first = Some(set),
        [Some(first), second] if *first != set => *second = Some(set),
        _ => {}
    }
}

/// The reply to what is asked for.
fn prepare<'a>(state: &'a SwitchBox, asked: &Asked) -> Reply<'a> {
    let listed = |set| match set {
        Set::Flags => Listed { id: PRIVATE_FLAGS, names: state.names(set) },
        Set::Debug => Listed { id: MESSAGE_CLASSES, names: state.names(set) },
    };
    Reply {
        family: state.family,
        port: asked.port.map(|port| state.roll.port(port)),
        sets: asked.sets.map(|set| set.map(listed)),
        counts_only: asked.counts_only,
    }
}
