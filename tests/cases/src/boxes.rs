//! Right boxes (document 01, "The box a call is given").

use super::alike;
use super::long_lists;
use super::names;
use super::rng::Rng;

pub struct Port {
    pub index: u32,
    pub name: Vec<u8>,
}

/// A right box before it becomes bytes.
pub struct Model {
    pub family: u16,
    pub ports: Vec<Port>,
    /// Names of the debug bits and of the private flags.
    pub lists: [Vec<Vec<u8>>; 2],
}

/// A box as bytes, right or not.
pub struct BoxBytes {
    pub family: u32,
    pub admin: u32,
    pub roll: Vec<u8>,
    pub lists: [Vec<u8>; 2],
    pub settings: Vec<u8>,
}

/// The number of bits of a list: those at the edges of words, and now and then a long one.
pub fn bits(rng: &mut Rng) -> usize {
    const EDGES: [usize; 8] = [1, 31, 32, 33, 40, 63, 64, 65];
    match rng.below(200) {
        0 | 1 => 512,
        2 => 511,
        3 | 4 => rng.within(1, 512),
        5..80 => rng.pick(&EDGES),
        80..160 => rng.within(1, 12),
        _ => rng.within(1, 100),
    }
}

/// A list of names; many lists have no name at all, or one, and in some many names have one length and one last byte.
pub fn list(rng: &mut Rng, bits: usize) -> Vec<Vec<u8>> {
    let empty = rng.pick(&[0, 0, 500, 900, 1000]);
    match rng.per_mille(250) {
        true => alike::list(rng, bits, empty),
        false => names::distinct(rng, bits, 31, empty),
    }
}

impl Model {
    pub fn new(rng: &mut Rng) -> Self {
        match rng.per_mille(1) {
            true => Self::largest(rng),
            false => Self::any(rng),
        }
    }

    /// 64 ports, and all names there can be.
    fn largest(rng: &mut Rng) -> Self {
        let lists = [(); 2].map(|()| names::distinct(rng, 512, 31, 0));
        Model { family: 25, ports: ports(rng, 64), lists }
    }

    fn any(rng: &mut Rng) -> Self {
        let family = rng.pick(&[16, 25, 25, 25, 31, 255, 256, 4660, 65_535]);
        let count = match rng.below(200) {
            0 => 64,
            1 => rng.within(9, 63),
            2..20 => rng.within(3, 8),
            20..90 => 2,
            _ => 1,
        };
        Self::of(rng, family, count)
    }

    /// A box for a dump: mostly of few ports, and the largest roll more often than elsewhere.
    pub fn of_dump(rng: &mut Rng) -> Self {
        let family = rng.pick(&[16, 25, 25, 300, 65_535]);
        let count = match rng.below(100) {
            0..8 => 64,
            8 => rng.within(9, 63),
            9..20 => rng.within(3, 8),
            20..60 => 2,
            _ => 1,
        };
        Self::of(rng, family, count)
    }

    /// A box whose faults can stand at more than one port.
    pub fn of_more_ports(rng: &mut Rng) -> Self {
        let family = rng.pick(&[16, 17, 25, 256, 65_534, 65_535]);
        let count = match rng.below(20) {
            0 => rng.within(60, 64),
            1..4 => 1,
            _ => rng.within(2, 9),
        };
        Self::of(rng, family, count)
    }

    /// A box of one port whose reply about both lists is just not too long, or just too long.
    pub fn of_long_lists(rng: &mut Rng) -> Self {
        let ports = ports(rng, 1);
        let lists = long_lists::lists(rng, &ports[0]);
        Model { family: rng.pick(&[16, 25, 65_535]), ports, lists }
    }

    fn of(rng: &mut Rng, family: u16, count: usize) -> Self {
        let debug_bits = bits(rng);
        let flag_bits = if rng.coin() { debug_bits } else { bits(rng) };
        let lists = [list(rng, debug_bits), list(rng, flag_bits)];
        Model { family, ports: ports(rng, count), lists }
    }

    /// The box's bytes with settings of its own.
    pub fn lend(&self, rng: &mut Rng) -> BoxBytes {
        let sets = self.ports.iter().flat_map(|_| self.lists.iter().map(Vec::len));
        let settings = sets.flat_map(|bits| set(rng, bits)).flat_map(u32::to_le_bytes).collect();
        BoxBytes {
            family: u32::from(self.family),
            admin: 1,
            roll: self.ports.iter().flat_map(record).collect(),
            lists: [list_bytes(&self.lists[0]), list_bytes(&self.lists[1])],
            settings,
        }
    }
}

fn ports(rng: &mut Rng, count: usize) -> Vec<Port> {
    let mut indexes: Vec<u32> = Vec::new();
    while indexes.len() < count {
        let index = match rng.below(4) {
            0 => rng.within(1, 0x7FFF_FFFF) as u32,
            1 => rng.pick(&[1, 2, 3, 0x7FFF_FFFF, 0x0100_0000, 256]),
            _ => rng.within(1, 100) as u32,
        };
        if !indexes.contains(&index) {
            indexes.push(index);
        }
    }
    let names = names::distinct(rng, count, 15, 0);
    indexes.into_iter().zip(names).map(|(index, name)| Port { index, name }).collect()
}

/// One port's record.
pub fn record(port: &Port) -> [u8; 21] {
    let mut bytes = [0; 21];
    bytes[0] = 1;
    bytes[1..5].copy_from_slice(&port.index.to_le_bytes());
    bytes[5..5 + port.name.len()].copy_from_slice(&port.name);
    bytes
}

/// Names as entries of 32 bytes.
pub fn list_bytes(names: &[Vec<u8>]) -> Vec<u8> {
    let mut bytes = vec![0; 32 * names.len()];
    for (entry, name) in bytes.chunks_mut(32).zip(names) {
        entry[..name.len()].copy_from_slice(name);
    }
    bytes
}

/// The words of a set of N bits: empty, full or anything.
pub fn set(rng: &mut Rng, bits: usize) -> Vec<u32> {
    let style = rng.below(6);
    let mut words: Vec<u32> = (0..bits.div_ceil(32))
        .map(|_| match style {
            0 => 0,
            1 => u32::MAX,
            _ => rng.word(),
        })
        .collect();
    if !bits.is_multiple_of(32) {
        words[bits / 32] &= (1 << (bits % 32)) - 1;
    }
    words
}
