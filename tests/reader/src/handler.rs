//! The handler (document 01, "What a call says back"; requests C-11 and C-13): one message of a datagram, answered.

use super::attribute::{self, Attribute, Payload, Policy, Span};
use super::bitset::{self, Change};
use super::command::{Action, Command, Set};
use super::fault::Fault;
use super::framing::{self, Frame};
use super::page::{Page, ANSWER_PAGE};
use super::port_header;
use super::reply::{self, Stored};
use super::strset::{self, STRSET_GET};
use super::switch_box::{Lent, SwitchBox, Tables};
use super::wire::{self, GenericHeader, MessageHeader};

/// Kinds of an answer.
pub const END: u32 = 0;
pub const SKIPPED: u32 = 1;
pub const DONE: u32 = 2;
pub const REFUSED: u32 = 3;

/// Top-level attribute types.
const HEADER: u16 = 1;
const BITSET: u16 = 2;

const GET_POLICY: Policy<1> = [Payload::Nest];
const SET_POLICY: Policy<2> = [Payload::Nest, Payload::Nest];

/// What a call returns: kind, refusal number (0 if none), next position, next place in a dump, bytes written.
#[derive(Clone, Copy, Debug, PartialEq, Eq)]
pub struct Answer {
    pub kind: u32,
    pub refusal: u32,
    pub next: u64,
    pub next_place: u64,
    pub written: u64,
}

impl Answer {
    /// End, skipped, and the refusals 1 to 4: nothing is written.
    const fn silent(kind: u32, refusal: u32, next: u64) -> Self {
        Answer { kind, refusal, next, next_place: 0, written: 0 }
    }
}

/// One request: its bytes from the message header to the stated end, where it begins and where the next one does.
#[derive(Clone, Copy)]
struct Request<'a> {
    bytes: &'a [u8],
    header: MessageHeader,
    position: u64,
    past: u64,
    /// Which message of a dump is asked for.
    place: u64,
}

/// Answers the message at a position of the datagram, a dump by the message at a place; settings are the little-endian
/// bytes of their words.
#[allow(clippy::too_many_arguments)]
pub fn handle(
    family: u32,
    admin: u32,
    roll: &[u8],
    debug_names: &[u8],
    flag_names: &[u8],
    settings: &mut [u8],
    datagram: &[u8],
    position: u64,
    place: u64,
    page: &mut [u8],
) -> Answer {
    let mut tables = Tables::new();
    let lent = Lent { family, admin, roll, debug_names, flag_names };
    let Some(state) = SwitchBox::check(lent, settings, &mut tables) else {
        return Answer::silent(REFUSED, 1, position);
    };
    if !state.has_place(place) {
        return Answer::silent(REFUSED, 1, position);
    }
    if page.len() < ANSWER_PAGE {
        return Answer::silent(REFUSED, 2, position);
    }
    match framing::frame(datagram, position) {
        Frame::End => Answer::silent(END, 0, position),
        Frame::Refused(number) => Answer::silent(REFUSED, number, position),
        Frame::Message { header, next, .. } if is_skipped(&header) => Answer::silent(SKIPPED, 0, next),
        Frame::Message { bytes, header, next } => {
            let request = Request { bytes, header, position, past: next, place };
            answer(&state, request, settings, page)
        }
    }
}

/// Netlink's own messages and those that ask for nothing.
#[inline]
fn is_skipped(header: &MessageHeader) -> bool {
    header.kind < wire::FIRST_FAMILY || header.flags & wire::REQUEST == 0
}

/// Serves a request, or writes the error message of its first fault.
fn answer(state: &SwitchBox, request: Request, settings: &mut [u8], page: &mut [u8]) -> Answer {
    let mut page = Page::new(page);
    let (kind, refusal, next_place) = match serve(state, request, settings, &mut page) {
        Ok(next_place) => (DONE, 0, next_place),
        Err(fault) => {
            reply::error(&mut page, request.bytes, &request.header, fault);
            (REFUSED, fault.number, 0)
        }
    };
    // A dump that goes on is answered at the same position.
    let next = if next_place == 0 { request.past } else { request.position };
    Answer { kind, refusal, next, next_place, written: page.written() as u64 }
}

/// Judges a request whole, then carries it out and writes its reply and ACK; gives the next place.
fn serve(state: &SwitchBox, request: Request, settings: &mut [u8], page: &mut Page) -> Result<u64, Fault> {
    let number = command_number(state, request)?;
    if number == STRSET_GET {
        return strset::serve(state, request.bytes, &request.header, page).map(|()| 0);
    }
    let command = listed_command(state, request, number)?;
    let (header, bitset) = top_level(request.bytes, command.action)?;
    if request.header.is_dump() {
        let compact = port_header::judge_dump(request.bytes, header)?;
        return Ok(dump(state, request, command.set, compact, settings, page));
    }
    let named = port_header::judge(request.bytes, header, &state.roll)?;
    match bitset {
        Some(bitset) => {
            let words = &mut settings[state.range(named.port, command.set)];
            let mut change = Change::none();
            bitset::judge(request.bytes, bitset.at, bitset.span(), state.names(command.set), &mut change)?;
            apply(&change, words);
        }
        None => {
            let stored = stored(state, named.port, command.set, settings);
            reply::reply(page, &request.header, 0, &stored, named.compact);
        }
    }
    if request.header.flags & wire::ACK != 0 {
        reply::ack(page, request.bytes, &request.header);
    }
    Ok(0)
}

/// Writes the message of a dump at its place: a port's reply, or DONE behind the last; gives the next place.
fn dump(state: &SwitchBox, request: Request, set: Set, compact: bool, settings: &[u8], page: &mut Page) -> u64 {
    let port = request.place as usize;
    if port == state.roll.count() {
        reply::done(page, &request.header);
        return 0;
    }
    reply::reply(page, &request.header, wire::MULTI, &stored(state, port, set, settings), compact);
    request.place + 1
}

/// A port's set with all that its reply says about it.
fn stored<'a>(state: &'a SwitchBox, port: usize, set: Set, settings: &'a [u8]) -> Stored<'a> {
    let words = &settings[state.range(port, set)];
    Stored { family: state.family, set, port: state.roll.port(port), names: state.names(set), words }
}

/// Numbers 5 and 6; gives the command's number.
fn command_number(state: &SwitchBox, request: Request) -> Result<u8, Fault> {
    if request.header.kind != state.family {
        return Err(Fault::plain(5));
    }
    let generic = GenericHeader::read(&request.bytes[MessageHeader::SIZE..]).ok_or(Fault::plain(6))?;
    Ok(generic.command)
}

/// Numbers 7 to 9 of the commands that have a set.
fn listed_command(state: &SwitchBox, request: Request, number: u8) -> Result<Command, Fault> {
    let command = Command::from_number(number).ok_or(Fault::plain(7))?;
    if request.header.is_dump() && !command.dumps {
        return Err(Fault::plain(8));
    }
    if command.action == Action::Set && !state.admin {
        return Err(Fault::plain(9));
    }
    Ok(command)
}

/// Walks the top level whole; the header is required, and the bitset in a SET, which alone may carry it.
fn top_level(message: &[u8], action: Action) -> Result<(Attribute, Option<Attribute>), Fault> {
    let attributes = Span { start: MessageHeader::SIZE + GenericHeader::SIZE, end: message.len() };
    let (header, bitset) = match action {
        Action::Get => {
            let [header] = attribute::walk(message, attributes, &GET_POLICY)?;
            (header, None)
        }
        Action::Set => {
            let [header, bitset] = attribute::walk(message, attributes, &SET_POLICY)?;
            (header, bitset)
        }
    };
    let header = header.ok_or(Fault::missing(HEADER, None))?;
    if action == Action::Set && bitset.is_none() {
        return Err(Fault::missing(BITSET, None));
    }
    Ok((header, bitset))
}

/// Makes the changed set of a stored one, word by word.
fn apply(change: &Change, words: &mut [u8]) {
    for (word, bytes) in words.as_chunks_mut::<4>().0.iter_mut().enumerate() {
        *bytes = change.apply(word, u32::from_le_bytes(*bytes)).to_le_bytes();
    }
}
