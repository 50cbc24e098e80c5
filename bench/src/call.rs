//! One call that is measured, made by the library or by the reader on the same buffers.

use crate::lent::Lent;
use crate::library::{self, Archive};
use crate::names;
use crate::requests::{self, Told, PRIVFLAGS_GET, PRIVFLAGS_SET};
use reader::Answer;
use std::hint::black_box;

#[derive(Clone, Copy, PartialEq, Eq)]
pub enum Made {
    Library(Archive),
    Reader,
}

enum Input {
    Message(Vec<u8>),
    /// A message that is refused.
    Refused(Vec<u8>),
    /// Several datagrams of one message, one after the other.
    Messages(Vec<Vec<u8>>),
    /// A message that is answered place by place.
    Dump(Vec<u8>),
    /// A position at the datagram's end: the answer comes right after the box check.
    End,
    Contents(Vec<u8>),
    /// The box by itself, and the part that is at fault.
    Parts(u32),
}

pub struct Call {
    pub name: String,
    pub lent: Lent,
    input: Input,
    pub page: Vec<u8>,
    /// Whether the archive of before is linked and answers this call as that of now does.
    pub before: bool,
}

impl Call {
    fn new(name: &str, ports: usize, bits: usize, input: Input) -> Self {
        Call { name: name.to_string(), lent: Lent::new(ports, bits), input, page: vec![0; 32_768], before: false }
    }

    pub fn box_check(ports: usize, bits: usize) -> Self {
        Self::new("box check alone", ports, bits, Input::End)
    }

    /// The same call over another box of as many bits.
    pub fn over(self, lent: Lent) -> Self {
        Call { lent, ..self }
    }

    pub fn set(name: &str, ports: usize, bits: usize, contents: &[u8]) -> Self {
        let message = requests::request(PRIVFLAGS_SET, Some(ports - 1), false, Some(contents));
        Self::new(name, ports, bits, Input::Message(message))
    }

    pub fn compact_set(ports: usize, bits: usize) -> Self {
        Self::set("compact SET", ports, bits, &requests::compact(bits))
    }

    pub fn list_set(entries: usize, ports: usize, bits: usize) -> Self {
        Self::set(
            &format!("SET by {entries} names"),
            ports,
            bits,
            &requests::list(Told::Name, entries, &names::queues(bits)),
        )
    }

    /// The same list, each BIT with the index of its name before it.
    pub fn indexed_set(entries: usize, ports: usize, bits: usize) -> Self {
        let name = format!("SET by {entries} BITs with index and name");
        Self::set(&name, ports, bits, &requests::list(Told::IndexAndName, entries, &names::queues(bits)))
    }

    pub fn compact_get(ports: usize, bits: usize) -> Self {
        let message = requests::request(PRIVFLAGS_GET, Some(ports - 1), true, None);
        Self::new("compact GET", ports, bits, Input::Message(message))
    }

    pub fn verbose_get(ports: usize, bits: usize) -> Self {
        let message = requests::request(PRIVFLAGS_GET, Some(ports - 1), false, None);
        Self::new(&format!("verbose GET of {bits} bits"), ports, bits, Input::Message(message))
    }

    /// A whole dump: a call for each port, and one for DONE.
    pub fn dump(compact: bool, ports: usize, bits: usize) -> Self {
        let message = requests::request(PRIVFLAGS_GET, None, compact, None);
        Self::new(&format!("{} dump of {ports} ports", form(compact)), ports, bits, Input::Dump(message))
    }

    /// What a dump takes the place of: a GET for each port.
    pub fn gets(compact: bool, ports: usize, bits: usize) -> Self {
        let get = |port| requests::request(PRIVFLAGS_GET, Some(port), compact, None);
        let messages = (0..ports).map(get).collect();
        Self::new(&format!("{ports} {} GETs, one for each port", form(compact)), ports, bits, Input::Messages(messages))
    }

    /// The check of one list of names of 16 bytes, and next to nothing else: the normal form of a bitset of no bits.
    pub fn list_check(bits: usize) -> Self {
        Self::contents(&format!("check {bits} names"), bits, requests::compact(0)).over(Lent::of_sixteen(bits))
    }

    pub fn normalise(entries: usize, bits: usize) -> Self {
        let list = requests::list(Told::Name, entries, &names::queues(bits));
        Self::contents(&format!("normalise {entries} names"), bits, list)
    }

    /// The normal form of a bitset.
    pub fn contents(name: &str, bits: usize, contents: Vec<u8>) -> Self {
        Self::new(name, 1, bits, Input::Contents(contents))
    }

    /// Both name lists, of names of 31 bytes, in one reply: written, or refused by 25 where it is too long.
    pub fn name_lists(bits: usize, refused: bool) -> Self {
        let told = if refused { "refused by 25" } else { "told" };
        let input =
            if refused { Input::Refused(requests::name_lists()) } else { Input::Message(requests::name_lists()) };
        Self::new(&format!("two lists of {bits} names {told}"), 1, bits, input).over(Lent::of_thirty_one(bits))
    }

    /// Which part of the largest box is at fault, and where; `spoil` makes it so.
    pub fn parts(name: &str, part: u32, spoil: impl Fn(&mut Lent)) -> Self {
        let mut call = Self::new(name, 64, 512, Input::Parts(part));
        spoil(&mut call.lent);
        call
    }

    /// Has this call made over the other's box and page, and the other over this one's.
    pub fn swap_buffers(&mut self, other: &mut Self) {
        std::mem::swap(&mut self.lent, &mut other.lent);
        std::mem::swap(&mut self.page, &mut other.page);
    }

    /// Bytes of the datagram or contents.
    pub fn input_bytes(&self) -> usize {
        match &self.input {
            Input::Message(bytes) | Input::Refused(bytes) | Input::Dump(bytes) | Input::Contents(bytes) => bytes.len(),
            Input::Messages(datagrams) => datagrams.iter().map(Vec::len).sum(),
            Input::End | Input::Parts(_) => 0,
        }
    }

    /// The kind that an answered message has, the number of accepted contents, or the part at fault.
    pub fn expected(&self) -> u32 {
        match &self.input {
            Input::Message(_) | Input::Messages(_) | Input::Dump(_) => reader::DONE,
            Input::Refused(_) => reader::REFUSED,
            Input::End => reader::END,
            Input::Contents(_) => 0,
            Input::Parts(part) => *part,
        }
    }

    /// Makes the call, or all of them; the last kind (or number, or part) and the bytes written in all (or the offset).
    #[inline(never)]
    pub fn make(&mut self, made: Made) -> (u32, u64) {
        let Call { lent, input, page, .. } = self;
        match (black_box(&*input), made) {
            (Input::Contents(contents), Made::Library(archive)) => {
                library::normalise(archive, contents, &lent.flag_names, page)
            }
            (Input::Contents(contents), Made::Reader) => reader::normalise(contents, &lent.flag_names, page),
            (Input::Message(datagram) | Input::Refused(datagram), made) => told(&handle(made, lent, datagram, 0, page)),
            (Input::Messages(datagrams), made) => each(made, lent, datagrams, page),
            (Input::Dump(datagram), made) => whole_dump(made, lent, datagram, page),
            (Input::End, made) => told(&handle(made, lent, &[], 0, page)),
            (Input::Parts(_), Made::Library(archive)) => library::check_box(archive, lent),
            (Input::Parts(_), Made::Reader) => {
                reader::check_box(25, 1, &lent.roll, &lent.debug_names, &lent.flag_names, &lent.settings)
            }
        }
    }
}

fn form(compact: bool) -> &'static str {
    if compact {
        "compact"
    } else {
        "verbose"
    }
}

fn told(answer: &Answer) -> (u32, u64) {
    (answer.kind, answer.written)
}

/// The answer to a datagram's first message.
fn handle(made: Made, lent: &mut Lent, datagram: &[u8], place: u64, page: &mut [u8]) -> Answer {
    let Lent { roll, debug_names, flag_names, settings } = lent;
    match made {
        Made::Library(archive) => library::handle(archive, lent, datagram, place, page),
        Made::Reader => reader::handle(25, 1, roll, debug_names, flag_names, settings, datagram, 0, place, page),
    }
}

fn each(made: Made, lent: &mut Lent, datagrams: &[Vec<u8>], page: &mut [u8]) -> (u32, u64) {
    let answers = datagrams.iter().map(|datagram| told(&handle(made, lent, datagram, 0, page)));
    answers.fold((0, 0), |(_, all), (kind, written)| (kind, all + written))
}

fn whole_dump(made: Made, lent: &mut Lent, datagram: &[u8], page: &mut [u8]) -> (u32, u64) {
    let (mut place, mut all) = (0, 0);
    loop {
        let answer = handle(made, lent, datagram, place, page);
        all += answer.written;
        place = answer.next_place;
        if place == 0 {
            return (answer.kind, all);
        }
    }
}
