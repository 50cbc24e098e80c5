//! The cases reach every way in which INDEX and NAME can stand in one BIT (request C-12) and in which the search for its
//! NAME can go (request C-14), and the number told is the one that the BITs of the list ask for, judged here a third time.

use cases::{Case, HandleCase, NormaliseCase};
use compare::{attributes, last, Implementation, Reader};
use std::collections::BTreeMap;

const SEED: u64 = 1;
const CASES: u64 = 200_000;
const LEAST: u32 = 100;

/// Ways of a BIT that carries both.
const WAYS: [&str; 8] = [
    "index past N, a bit's name",
    "index past N, unknown name",
    "index past N, empty name",
    "index, unknown name",
    "index, empty name",
    "index, another bit's name",
    "index of a bit without a name, a bit's name",
    AGREEING,
];
const AGREEING: &str = "index and its name";

/// Ways of the search for the NAME of a BIT, by how many entries have its length and last byte.
const SEARCHES: [&str; 5] =
    ["found, one agrees", "found, two to nine", "found, ten and more", "unknown, none agrees", "unknown, some"];

/// How the search for a NAME, which isn't empty, goes; all entries that agree are counted, also those behind the hit.
fn search(name: &[u8], names: &[u8]) -> &'static str {
    let text = &name[..name.len() - 1];
    let (_, found, compared) = reader::find(names, text);
    let behind = names.chunks(32).skip((found as usize).saturating_add(1));
    let agreeing = behind.filter(|entry| entry[text.len()] == 0 && entry[text.len() - 1] == text[text.len() - 1]);
    match (found, compared as usize + agreeing.count()) {
        (reader::NOT_FOUND, 0) => SEARCHES[3],
        (reader::NOT_FOUND, _) => SEARCHES[4],
        (_, 1) => SEARCHES[0],
        (_, 2..10) => SEARCHES[1],
        _ => SEARCHES[2],
    }
}

/// How INDEX and NAME stand in a BIT that carries both, and the number that any BIT gets.
fn way(bit: &[u8], names: &[u8]) -> (Option<&'static str>, u32) {
    let found = attributes(bit);
    let equals = |entry: &[u8], name: &[u8]| name.len() > 1 && entry.starts_with(name);
    let known = |name: &[u8]| names.chunks(32).any(|entry| equals(entry, name));
    let index = last(&found, 1).map(|four| u32::from_le_bytes(four.try_into().unwrap()) as usize);
    match (index.map(|index| names.chunks(32).nth(index)), last(&found, 2)) {
        (None, None) => (None, 22),
        (None, Some(name)) => (None, if known(name) { 0 } else { 21 }),
        (Some(entry), None) => (None, if entry.is_some() { 0 } else { 20 }),
        (Some(None), Some([0])) => (Some("index past N, empty name"), 20),
        (Some(None), Some(name)) if known(name) => (Some("index past N, a bit's name"), 20),
        (Some(None), Some(_)) => (Some("index past N, unknown name"), 20),
        (Some(Some(_)), Some([0])) => (Some("index, empty name"), 21),
        (Some(Some(_)), Some(name)) if !known(name) => (Some("index, unknown name"), 21),
        (Some(Some(entry)), Some(name)) if equals(entry, name) => (Some(AGREEING), 0),
        (Some(Some([0, ..])), Some(_)) => (Some("index of a bit without a name, a bit's name"), 23),
        (Some(Some(_)), Some(_)) => (Some("index, another bit's name"), 23),
    }
}

/// The contents of a SET's bitset, the names of its bits, and the number told: 0, or one that a BIT can get.
fn handled(case: &HandleCase) -> Option<(&[u8], &[u8], u32)> {
    let HandleCase { debug_names, flag_names, datagram, position, .. } = case;
    let answer = Reader.handle(case, &mut case.settings.clone(), &mut case.page.clone());
    let message = datagram.get(*position as usize..)?;
    let names = match message.get(16)? {
        8 => debug_names,
        14 => flag_names,
        _ => return None,
    };
    if answer.kind != reader::DONE && !(20..=23).contains(&answer.refusal) {
        return None;
    }
    let length = u32::from_le_bytes(message[..4].try_into().unwrap()) as usize;
    Some((last(&attributes(&message[20..length]), 2)?, names, answer.refusal))
}

/// The same of the normaliser.
fn normalised(case: &NormaliseCase) -> Option<(&[u8], &[u8], u32)> {
    let (number, _) = reader::normalise(&case.contents, &case.names, &mut case.page.clone());
    matches!(number, 0 | 20..=23).then_some((&case.contents, &case.names, number))
}

/// Counts of BITs that carry both, none after the one that a list is refused for.
#[derive(Default)]
struct Reached {
    /// By call, way and whether the list was accepted.
    ways: BTreeMap<(&'static str, &'static str, bool), u32>,
    /// By the BIT's number, NOMASK and whether the list has one BIT.
    lists: BTreeMap<(u32, bool, bool), u32>,
    /// By call and how the search for a NAME goes.
    searches: BTreeMap<(&'static str, &'static str), u32>,
}

impl Reached {
    fn count(&mut self, call: &'static str, contents: &[u8], names: &[u8], told: u32) {
        let found = attributes(contents);
        let Some(list) = last(&found, 3) else { return };
        let (nomask, entries) = (last(&found, 1).is_some(), attributes(list));
        let mut first = 0;
        for (_, bit) in &entries {
            let (way, number) = way(bit, names);
            if let Some(name @ [_, _, ..]) = last(&attributes(bit), 2) {
                *self.searches.entry((call, search(name, names))).or_default() += 1;
            }
            if let Some(way) = way {
                *self.ways.entry((call, way, told == 0)).or_default() += 1;
                *self.lists.entry((number, nomask, entries.len() == 1)).or_default() += 1;
            }
            first = number;
            if first != 0 {
                break;
            }
        }
        assert_eq!(told, first, "{call} {} {}", cases::hex(contents), cases::hex(names));
    }

    fn rare(&self) -> Vec<String> {
        let calls = ["handle", "normalise"];
        let refused = calls.into_iter().flat_map(|call| WAYS.map(|way| (call, way, false)));
        let accepted = calls.map(|call| (call, AGREEING, true));
        let ways = refused.chain(accepted).filter(|way| self.ways.get(way).is_none_or(|count| *count < LEAST));
        let forms = [(false, false), (false, true), (true, false), (true, true)];
        let lists = [0, 20, 21, 23].into_iter().flat_map(|number| forms.map(|(nomask, one)| (number, nomask, one)));
        let lists = lists.filter(|list| self.lists.get(list).is_none_or(|count| *count < LEAST));
        let searches = calls.into_iter().flat_map(|call| SEARCHES.map(|way| (call, way)));
        let searches = searches.filter(|way| self.searches.get(way).is_none_or(|count| *count < LEAST));
        let rare = ways.map(|way| format!("{way:?}")).chain(lists.map(|list| format!("{list:?}")));
        rare.chain(searches.map(|way| format!("{way:?}"))).collect()
    }
}

#[test]
fn every_way_is_met_100_times_in_200_000_cases() {
    let mut reached = Reached::default();
    for number in 0..CASES {
        let case = cases::case(SEED, number);
        let (call, judged) = match &case {
            Case::Handle(case) => ("handle", handled(case)),
            Case::Normalise(case) => ("normalise", normalised(case)),
            Case::CheckBox(_) | Case::Find(_) => continue,
        };
        if let Some((contents, names, told)) = judged {
            reached.count(call, contents, names, told);
        }
    }
    let Reached { ways, lists, searches } = &reached;
    println!("{searches:#?}");
    assert!(reached.rare().is_empty(), "too rare: {:?} of {ways:?} {lists:?} {searches:?}", reached.rare());
}
