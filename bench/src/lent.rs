//! What is lent to a call: a box of so many ports and names.

use crate::names;

/// A right box, all of its bits named and on.
pub struct Lent {
    pub roll: Vec<u8>,
    pub debug_names: Vec<u8>,
    pub flag_names: Vec<u8>,
    pub settings: Vec<u8>,
}

/// The name of a port.
pub fn port_name(port: usize) -> String {
    format!("quay-port{}", port + 1)
}

fn list(bits: usize, name: impl Fn(usize) -> String) -> Vec<u8> {
    entries(&(0..bits).map(name).collect::<Vec<String>>())
}

/// The names as entries of 32 bytes.
fn entries(names: &[String]) -> Vec<u8> {
    let mut list = vec![0; 32 * names.len()];
    for (name, entry) in names.iter().zip(list.chunks_mut(32)) {
        entry[..name.len()].copy_from_slice(name.as_bytes());
    }
    list
}

fn record(port: usize) -> [u8; 21] {
    let mut record = [0; 21];
    let name = port_name(port);
    record[0] = 1;
    record[1..5].copy_from_slice(&(port as u32 + 1).to_le_bytes());
    record[5..5 + name.len()].copy_from_slice(name.as_bytes());
    record
}

/// The set of all bits below N, as the bytes of its words.
fn full(bits: usize) -> Vec<u8> {
    let words = (0..bits.div_ceil(32)).map(|at| u32::MAX >> (32 * (at + 1)).saturating_sub(bits));
    words.flat_map(u32::to_le_bytes).collect()
}

impl Lent {
    /// A box of one port, the names of its flags exactly 16 bytes long.
    pub fn of_sixteen(bits: usize) -> Self {
        Lent { flag_names: list(bits, |bit| format!("storm-queue-{bit:04}")), ..Self::new(1, bits) }
    }

    /// A box of one port, both lists of names as long as can be, 31 bytes.
    pub fn of_thirty_one(bits: usize) -> Self {
        let names = |before: &str| list(bits, |bit| format!("{before}-queue-of-the-long-quay-{bit:04}"));
        Lent { debug_names: names("dbg"), flag_names: names("flg"), ..Self::new(1, bits) }
    }

    /// A box of one port, both lists made of these names.
    pub fn of_names(names: &[String]) -> Self {
        Lent { debug_names: entries(names), flag_names: entries(names), ..Self::new(1, names.len()) }
    }

    pub fn new(ports: usize, bits: usize) -> Self {
        let of_port = full(bits).repeat(2);
        Lent {
            roll: (0..ports).flat_map(record).collect(),
            debug_names: list(bits, |bit| format!("debug-level-{bit:03}")),
            flag_names: entries(&names::queues(bits)),
            settings: of_port.repeat(ports),
        }
    }

    /// Bytes that the box check has to look at.
    pub fn bytes(&self) -> usize {
        self.roll.len() + self.debug_names.len() + self.flag_names.len() + self.settings.len()
    }
}
