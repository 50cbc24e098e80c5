//! The cases reach every way in which a search for a bit name can go (request C-14).

use cases::{Case, FindCase};
use compare::{Implementation, Reader};
use reader::NOT_FOUND;
use std::collections::BTreeMap;

const SEED: u64 = 1;
const CASES: u64 = 200_000;
const LEAST: u32 = 100;

/// An entry's bytes before its NULs.
fn held(entry: &[u8]) -> &[u8] {
    entry.split(|byte| *byte == 0).next().unwrap_or(&[])
}

/// A search in a right list, with what it came to.
struct Search<'a> {
    name: &'a [u8],
    entries: Vec<&'a [u8]>,
    found: u32,
    compared: u64,
}

impl Search<'_> {
    /// Whether an entry has the name's length and its last byte.
    fn agrees(&self, entry: &[u8]) -> bool {
        entry.len() == self.name.len() && entry.last() == self.name.last()
    }

    fn any(&self, is: impl Fn(&[u8]) -> bool) -> bool {
        self.entries.iter().any(|entry| is(entry))
    }

    /// Ways of a search that finds the name.
    fn hits(&self) -> Vec<(&'static str, bool)> {
        let (before, behind) = self.entries.split_at(self.found as usize);
        vec![
            ("found", true),
            ("found: the first entry", before.is_empty()),
            ("found: the last entry, of several", behind.len() == 1 && before.len() > 1),
            ("found: behind an empty entry", before.contains(&&[][..])),
            ("found: another agrees behind it", behind[1..].iter().any(|entry| self.agrees(entry))),
            ("found: nothing else compared", self.compared == 1),
            ("found: others compared", self.compared > 1),
            ("found: ten or more compared", self.compared > 9),
            ("found: one of its length before it, not compared", before.iter().any(|entry| self.same_length(entry))),
            ("found: one with its last byte before it, not compared", before.iter().any(|entry| self.same_end(entry))),
            ("found: one byte", self.name.len() == 1),
            ("found: 31 bytes", self.name.len() == 31),
            ("found: more than 255 entries before it", before.len() > 255),
        ]
    }

    fn same_length(&self, entry: &[u8]) -> bool {
        entry.len() == self.name.len() && entry.last() != self.name.last()
    }

    fn same_end(&self, entry: &[u8]) -> bool {
        entry.len() != self.name.len() && entry.last() == self.name.last()
    }

    /// Ways of a search for a name that no entry equals.
    fn misses(&self) -> Vec<(&'static str, bool)> {
        let (name, unnamed) = (self.name, self.any(<[u8]>::is_empty));
        let beginning = |entry: &[u8]| entry.len() > name.len() && entry.starts_with(name);
        let of_31 = |entry: &[u8]| entry.len() == 31 && name.starts_with(entry);
        vec![
            ("not found", true),
            ("not found: nothing compared", self.compared == 0),
            ("not found: one compared", self.compared == 1),
            ("not found: ten or more compared", self.compared > 9),
            ("not found: one of its length, not compared", self.any(|entry| self.same_length(entry))),
            ("not found: one with its last byte, not compared", self.any(|entry| self.same_end(entry))),
            ("not found: an empty name, empty entries", name.is_empty() && unnamed),
            ("not found: an empty name, no empty entry", name.is_empty() && !unnamed),
            ("not found: the beginning of an entry", !name.is_empty() && self.any(beginning)),
            ("not found: an entry and more", self.any(|entry| !entry.is_empty() && name.starts_with(entry))),
            ("not found: an entry of 31 bytes and more", self.any(of_31)),
            ("not found: 31 bytes", name.len() == 31),
            ("not found: 32 bytes", name.len() == 32),
            ("not found: 33 bytes and more", name.len() > 32),
        ]
    }

    /// Ways of a search for a name that holds a NUL.
    fn nuls(&self) -> Vec<(&'static str, bool)> {
        let name = self.name;
        let (ahead, last) = (name.first() == Some(&0), name.last() == Some(&0));
        let inside = !ahead && !last && name.contains(&0);
        vec![
            ("NUL: ahead of bytes that agree", ahead && self.any(|entry| self.agrees(entry))),
            ("NUL: at the end, one of its length", last && self.any(|entry| entry.len() == name.len())),
            ("NUL: behind an entry", self.any(|entry| name == [entry, &[0]].concat())),
            ("NUL: all those of an entry", name.len() == 32 && self.any(|entry| entry == held(name))),
            ("NUL: inside, nothing compared", inside && self.compared == 0),
            ("NUL: inside, some compared", inside && self.compared > 0),
            ("NUL: inside, behind an entry", inside && self.any(|entry| entry == held(name))),
        ]
    }
}

/// Ways of a list that breaks a rule.
fn refusals(case: &FindCase) -> Vec<(&'static str, bool)> {
    let (entries, cut) = case.names.as_chunks::<32>();
    let full = |entry: &[u8; 32]| entry[31] != 0;
    let behind_nul = |entry: &[u8; 32]| entry[held(entry).len()..].iter().any(|byte| *byte != 0);
    let listed = entries.iter().filter(|entry| held(&entry[..]) == case.name).count();
    vec![
        ("refused", true),
        ("refused: no entry", case.names.is_empty()),
        ("refused: an entry cut short", !cut.is_empty()),
        ("refused: 513 entries and more", entries.len() > 512),
        ("refused: an entry of 32 bytes", entries.iter().any(full)),
        ("refused: a byte behind a NUL", entries.iter().any(behind_nul)),
        ("refused: the name twice", listed > 1 && !case.name.is_empty()),
        ("refused: the name once", listed == 1),
        ("refused: an empty name", case.name.is_empty()),
        ("refused: a name of more than 31 bytes", case.name.len() > 31),
    ]
}

#[test]
fn every_way_is_met_100_times_in_200_000_cases() {
    let mut met: BTreeMap<&str, u32> = BTreeMap::new();
    for number in 0..CASES {
        let Case::Find(case) = cases::case(SEED, number) else { continue };
        let (number, found, compared) = Reader.find(&case);
        let search = Search { name: &case.name, entries: case.names.chunks(32).map(held).collect(), found, compared };
        let ways = match (number, found) {
            (1, _) => refusals(&case),
            (_, NOT_FOUND) => [search.misses(), search.nuls()].concat(),
            _ => search.hits(),
        };
        for (way, went) in ways {
            *met.entry(way).or_default() += u32::from(went);
        }
    }
    println!("{met:#?}");
    let rare: Vec<_> = met.iter().filter(|(_, count)| **count < LEAST).collect();
    assert!(rare.is_empty() && met.len() == 44, "too rare: {rare:?}");
}
