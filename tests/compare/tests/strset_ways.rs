//! The cases reach every way in which a request for name lists can be answered (request C-13), and the number that it
//! gets is the one that its ids and the length of its reply ask for, judged here a third time.

use cases::{Case, HandleCase};
use compare::{attributes, last, Implementation, Reader};
use reader::{Answer, DONE};
use std::collections::BTreeMap;

const SEED: u64 = 1;
const CASES: u64 = 200_000;

/// How often each way of the first list is met at least, and each of the second.
const LEAST: u32 = 100;
const LEAST_OF_PARTS: u32 = 20;

/// The longest reply, its ACK counted.
const LONGEST: usize = 32_768;

const WAYS: [&str; 30] = [
    "done: without a port",
    "done: of a port",
    "done: ACK asked",
    "done: sender not admin",
    "done: header flag 1",
    "done: one DUMP bit",
    "done: an empty list",
    "done: a repeated id",
    "done: two ids in one STRINGSET",
    "done: several lists",
    "done: an entry without a name",
    "done: message classes by default, without a port",
    "done: private flags by default, of a port",
    "done: message classes alone, without a port",
    "done: message classes alone, of a port",
    "done: private flags alone",
    "done: private flags, then message classes",
    "done: message classes, then private flags",
    "done: counts only",
    "done: counts only of both",
    "done: up to 36 bytes below the longest",
    "8",
    "13 of an id",
    "24",
    "24: not offered",
    "24: private flags without a port",
    "24: behind a good id",
    "25",
    "25: up to 36 bytes above the longest",
    "25: by its ACK alone",
];

const PARTS: [&str; 17] = [
    "done: as long as one may be",
    "done: as long as one may be, with its ACK",
    "24: before another STRINGSET",
    "24: before a broken or empty STRINGSET",
    "24: the last of two ids",
    "24: with COUNTS_ONLY",
    "25: 4 bytes above the longest",
    "25: 4 bytes above the longest, with its ACK",
    "25: message classes first",
    "10",
    "11",
    "12",
    "13",
    "15",
    "15: without a port",
    "16",
    "17",
];

/// A request for name lists whose top level was walked whole.
struct Asked<'a> {
    case: &'a HandleCase,
    message: &'a [u8],
    top: Vec<(u16, &'a [u8])>,
}

impl<'a> Asked<'a> {
    /// The request that an answer looked into, past its top level.
    fn new(case: &'a HandleCase, answer: &Answer) -> Option<Self> {
        let looked_into = answer.kind == DONE || matches!(answer.refusal, 15..=17 | 24 | 25);
        let message = message(case).filter(|_| looked_into)?;
        Some(Asked { case, message, top: attributes(&message[20..]) })
    }

    /// Whether the header names a port.
    fn port_named(&self) -> bool {
        let header = attributes(last(&self.top, 1).unwrap());
        last(&header, 1).or(last(&header, 2)).is_some()
    }

    /// Whether COUNTS_ONLY stands.
    fn counts_only(&self) -> bool {
        last(&self.top, 3).is_some()
    }

    /// The bytes of the ACK, if one is asked for.
    fn ack(&self) -> usize {
        if self.message[6] & 4 != 0 {
            36
        } else {
            0
        }
    }

    /// The STRINGSETs of the list that counts.
    fn sets(&self) -> Vec<&'a [u8]> {
        attributes(last(&self.top, 2).unwrap_or(&[])).into_iter().map(|(_, set)| set).collect()
    }

    /// The ids in order, up to the first that isn't offered.
    fn ids(&self) -> (Vec<u32>, Option<u32>) {
        let mut ids = Vec::new();
        for set in self.sets() {
            let id = u32::from_le_bytes(last(&attributes(set), 1).unwrap().try_into().unwrap());
            if id != 10 && !(id == 2 && self.port_named()) {
                return (ids, Some(id));
            }
            ids.push(id);
        }
        (ids, None)
    }

    /// The ids that are answered, in order.
    fn answered(&self) -> Vec<u32> {
        let (listed, _) = self.ids();
        let mut ids = if listed.is_empty() { vec![if self.port_named() { 2 } else { 10 }] } else { listed };
        let first = ids[0];
        ids.sort_by_key(|id| *id != first);
        ids.dedup();
        ids
    }

    /// The names of the set with this id.
    fn names(&self, id: u32) -> &'a [u8] {
        if id == 2 {
            &self.case.flag_names
        } else {
            &self.case.debug_names
        }
    }

    /// Letters of the named port, which the roll has.
    fn port_letters(&self) -> usize {
        let header = attributes(last(&self.top, 1).unwrap());
        let Some(index) = last(&header, 1) else { return last(&header, 2).unwrap().len() - 1 };
        let record = self.case.roll.chunks(21).find(|record| &record[1..5] == index).unwrap();
        letters(&record[5..])
    }

    /// The bytes of the reply and its ACK.
    fn length(&self) -> usize {
        let named = |letters: usize| 12 + (5 + letters).next_multiple_of(4);
        let strings = |id| 4 + self.names(id).chunks(32).map(|entry| named(letters(entry))).sum::<usize>();
        let sets = self.answered().into_iter().map(|id| 20 + if self.counts_only() { 0 } else { strings(id) });
        24 + if self.port_named() { named(self.port_letters()) } else { 0 } + sets.sum::<usize>() + self.ack()
    }
}

/// The bytes before the first NUL.
fn letters(name: &[u8]) -> usize {
    name.iter().take_while(|byte| **byte != 0).count()
}

/// The message at the position, if it is a whole request for name lists.
fn message(case: &HandleCase) -> Option<&[u8]> {
    let rest = case.datagram.get(usize::try_from(case.position).ok()?..)?;
    let length = u32::from_le_bytes(rest.get(..4)?.try_into().ok()?) as usize;
    rest.get(..length).filter(|message| message.len() >= 20 && message[16] == 1)
}

/// Counts of ways.
#[derive(Default)]
struct Reached(BTreeMap<String, u32>);

impl Reached {
    /// Counts a way, and those of its parts that hold.
    fn count(&mut self, way: &str, parts: &[(&str, bool)]) {
        *self.0.entry(way.to_string()).or_default() += 1;
        for (part, _) in parts.iter().filter(|(_, holds)| *holds) {
            *self.0.entry(format!("{way}: {part}")).or_default() += 1;
        }
    }

    /// A request that was done.
    fn done(&mut self, asked: &Asked, written: usize) {
        let (ids, length) = (asked.answered(), asked.length());
        assert_eq!((asked.ids().1, length), (None, written), "{}", asked.case);
        let (listed, default) = (asked.sets(), asked.sets().is_empty());
        let (port, counts, ack) = (asked.port_named(), asked.counts_only(), asked.ack() > 0);
        let empty = |id: &u32| asked.names(*id).chunks(32).any(|entry| entry[0] == 0);
        let header = attributes(last(&asked.top, 1).unwrap());
        let alone = |id: u32| ids == [id] && !default && !counts;
        self.count(
            "done",
            &[
                ("without a port", !port),
                ("of a port", port),
                ("ACK asked", ack),
                ("sender not admin", asked.case.admin == 0),
                ("header flag 1", last(&header, 3).is_some_and(|flags| flags[0] & 1 == 1)),
                ("one DUMP bit", asked.message[7] & 3 != 0),
                ("an empty list", default && last(&asked.top, 2).is_some()),
                ("a repeated id", listed.len() > ids.len()),
                ("two ids in one STRINGSET", listed.iter().any(|set| attributes(set).len() > 1)),
                ("several lists", asked.top.iter().filter(|(kind, _)| *kind == 2).count() > 1),
                ("an entry without a name", !counts && ids.iter().any(empty)),
                ("message classes by default, without a port", default && !port && !counts),
                ("private flags by default, of a port", default && port && !counts),
                ("message classes alone, without a port", alone(10) && !port),
                ("message classes alone, of a port", alone(10) && port),
                ("private flags alone", alone(2)),
                ("private flags, then message classes", ids == [2, 10] && !counts),
                ("message classes, then private flags", ids == [10, 2] && !counts),
                ("counts only", counts),
                ("counts only of both", counts && ids.len() == 2),
                ("up to 36 bytes below the longest", length + 36 >= LONGEST),
                ("as long as one may be", length == LONGEST && !ack),
                ("as long as one may be, with its ACK", length == LONGEST && ack),
            ],
        );
    }

    /// A request that was refused by 24.
    fn not_offered(&mut self, asked: &Asked) {
        let (good, bad) = asked.ids();
        let id = bad.unwrap_or_else(|| panic!("{}", asked.case));
        let (sets, place) = (asked.sets(), good.len());
        let broken = |set: &&[u8]| set.is_empty() || !set.len().is_multiple_of(4);
        let parts = [
            ("not offered", id != 2),
            ("private flags without a port", id == 2),
            ("behind a good id", place > 0),
            ("before another STRINGSET", place + 1 < sets.len()),
            ("before a broken or empty STRINGSET", sets[place + 1..].iter().any(broken)),
            ("the last of two ids", attributes(sets[place]).len() > 1),
            ("with COUNTS_ONLY", asked.counts_only()),
        ];
        self.count("24", &parts);
    }

    /// A request that was refused by 25.
    fn too_long(&mut self, asked: &Asked) {
        let (length, ack) = (asked.length(), asked.ack());
        assert!(asked.ids().1.is_none() && length > LONGEST, "{}", asked.case);
        let parts = [
            ("up to 36 bytes above the longest", length <= LONGEST + 36),
            ("by its ACK alone", length - ack <= LONGEST),
            ("4 bytes above the longest", length == LONGEST + 4 && ack == 0),
            ("4 bytes above the longest, with its ACK", length == LONGEST + 4 && ack > 0),
            ("message classes first", asked.answered()[0] == 10),
        ];
        self.count("25", &parts);
    }

    /// An answer to a request for name lists.
    fn answered(&mut self, case: &HandleCase, answer: &Answer, page: &[u8]) {
        let asked = Asked::new(case, answer);
        match (asked, answer.refusal) {
            (Some(asked), 0) => self.done(&asked, answer.written as usize),
            (Some(asked), 24) => self.not_offered(&asked),
            (Some(asked), 25) => self.too_long(&asked),
            (Some(asked), 15) => self.count("15", &[("without a port", !asked.port_named())]),
            (_, number) => self.count(&number.to_string(), &[]),
        }
        if answer.refusal == 13 && answer.written == 52 {
            assert_eq!((page[40], page[44]), (1, 8), "{case}");
            self.count("13 of an id", &[]);
        }
    }

    /// What was met too rarely.
    fn rare(&self) -> Vec<String> {
        let ways = WAYS.iter().map(|way| (way, LEAST)).chain(PARTS.iter().map(|way| (way, LEAST_OF_PARTS)));
        let met = |way: &str| self.0.get(way).copied().unwrap_or(0);
        ways.filter(|(way, least)| met(way) < *least).map(|(way, _)| format!("{way}: {}", met(way))).collect()
    }
}

#[test]
fn every_way_is_met_in_200_000_cases() {
    let mut reached = Reached::default();
    for number in 0..CASES {
        let Case::Handle(case) = cases::case(SEED, number) else { continue };
        let mut page = case.page.clone();
        let answer = Reader.handle(&case, &mut case.settings.clone(), &mut page);
        let judged = answer.kind == DONE || answer.refusal > 6;
        if judged && message(&case).is_some() {
            reached.answered(&case, &answer, &page);
        }
    }
    println!("{:#?}", reached.0);
    assert_eq!(reached.rare(), Vec::<String>::new(), "too rare");
}
