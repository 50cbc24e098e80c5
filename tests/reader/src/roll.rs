//! The port roll (document 01, "The box a call is given"), read record by record.

use super::slots::Slots;
use super::text::{self, Block, PORT_NAME, PORT_WORDS};
use super::wire::u32_at;

/// Most ports of a roll.
pub const MAX_PORTS: usize = 64;
/// The kind of record that names a port.
const PORT_RECORD: u8 = 1;
/// Body of a port record: index and name.
const PORT_BODY: usize = 4 + PORT_NAME;
/// A port record: its kind and its body.
const RECORD: usize = 1 + PORT_BODY;
/// Largest index of a port.
const LAST_INDEX: u32 = 2_147_483_647;

/// One port of the roll.
#[derive(Clone, Copy)]
pub struct Port {
    pub index: u32,
    pub name: Block<PORT_WORDS>,
}

impl Port {
    /// Reads a record's body.
    #[inline]
    fn read(body: &[u8]) -> Self {
        Port { index: u32_at(body, 0), name: text::block(&body[4..]) }
    }

    /// An index from 1 to 2,147,483,647, a name of 1 to 15 bytes and NULs.
    #[inline]
    fn is_right(&self) -> bool {
        (1..=LAST_INDEX).contains(&self.index) && self.name != [0; PORT_WORDS] && text::is_name(&self.name)
    }
}

/// Room for the hashes of a roll.
pub struct RollSlots {
    by_index: Slots<{ 2 * MAX_PORTS }>,
    by_name: Slots<{ 2 * MAX_PORTS }>,
}

impl RollSlots {
    pub const fn new() -> Self {
        RollSlots { by_index: Slots::new(), by_name: Slots::new() }
    }
}

/// A roll that keeps the rules, its ports found by index and by name.
pub struct Roll<'a> {
    bytes: &'a [u8],
    count: usize,
    slots: &'a RollSlots,
}

/// Spreads an index over the hash.
#[inline]
fn index_hash(index: u32) -> u64 {
    text::hash(&[u64::from(index)])
}

/// The port at a position, all records before it being ports.
#[inline]
fn port_at(bytes: &[u8], position: usize) -> Port {
    Port::read(&bytes[RECORD * position + 1..RECORD * (position + 1)])
}

impl<'a> Roll<'a> {
    /// Reads the records: 1 to 64 whole ports with distinct indexes and distinct names.
    pub fn check(bytes: &'a [u8], slots: &'a mut RollSlots) -> Option<Self> {
        let mut rest = bytes;
        let mut count = 0;
        while let Some((kind, body)) = rest.split_first() {
            if *kind != PORT_RECORD || body.len() < PORT_BODY || count == MAX_PORTS {
                return None;
            }
            let (body, after) = body.split_at(PORT_BODY);
            let port = Port::read(body);
            if !port.is_right() || !is_new(bytes, slots, count, &port) {
                return None;
            }
            count += 1;
            rest = after;
        }
        (count > 0).then_some(Roll { bytes, count, slots })
    }

    /// The number of ports.
    #[inline]
    pub fn count(&self) -> usize {
        self.count
    }

    /// The port at a position of the roll.
    #[inline]
    pub fn port(&self, position: usize) -> Port {
        port_at(self.bytes, position)
    }

    /// The position of the port with this index.
    #[inline]
    pub fn by_index(&self, index: u32) -> Option<usize> {
        let same = |other: usize| self.port(other).index == index;
        self.slots.by_index.seek(index_hash(index), same).ok()
    }

    /// The position of the port with this name.
    #[inline]
    pub fn by_name(&self, name: &Block<PORT_WORDS>) -> Option<usize> {
        let same = |other: usize| self.port(other).name == *name;
        self.slots.by_name.seek(text::hash(name), same).ok()
    }
}

/// Takes in a port, if no port before it has its index or its name.
#[inline]
fn is_new(bytes: &[u8], slots: &mut RollSlots, position: usize, port: &Port) -> bool {
    let same_index = |other: usize| port_at(bytes, other).index == port.index;
    let same_name = |other: usize| port_at(bytes, other).name == port.name;
    let new_index = slots.by_index.insert(index_hash(port.index), position, same_index);
    let new_name = slots.by_name.insert(text::hash(&port.name), position, same_name);
    new_index && new_name
}
