//! The cases reach every way in which a dump and a place can be answered (request C-11), and the number that a dump gets
//! is the one that its header asks for, judged here a third time.

use cases::{Case, HandleCase};
use compare::{attributes, last, Implementation, Reader};
use reader::{Answer, DONE, END, SKIPPED};
use std::collections::BTreeMap;

const SEED: u64 = 1;
const CASES: u64 = 200_000;

/// How often each way of the first list is met at least, and each of the second.
const LEAST: u32 = 100;
const LEAST_OF_PARTS: u32 = 20;

const WAYS: [&str; 35] = [
    "a port's reply",
    "a port's reply: DEBUG_GET",
    "a port's reply: PRIVFLAGS_GET",
    "a port's reply: compact",
    "a port's reply: verbose",
    "a port's reply: ACK asked",
    "a port's reply: inside a datagram",
    "a port's reply: sender not admin",
    "a port's reply: the first of several",
    "a port's reply: the last of several",
    "a port's reply: one between",
    "a port's reply: 1 port",
    "a port's reply: 2 ports",
    "a port's reply: 64 ports",
    "DONE",
    "DONE: DEBUG_GET",
    "DONE: PRIVFLAGS_GET",
    "DONE: ACK asked",
    "DONE: inside a datagram",
    "DONE: 1 port",
    "DONE: 2 ports",
    "DONE: 64 ports",
    "8 of a SET",
    "8 of STRSET_GET",
    "8 of a dump: by index",
    "8 of a dump: by name",
    "8 of a dump: by both",
    "10 in a dump",
    "11 in a dump",
    "12 in a dump",
    "13 in a dump",
    "15 in a dump",
    "1 by the place",
    "1 by the place: a dump",
    "a place passed over",
];

const PARTS: [&str; 23] = [
    "DONE: sender not admin",
    "8 of a SET: sender not admin",
    "8 of a dump: flags that 15 would refuse",
    "8 of a dump: at DONE's place",
    "15 in a dump: at DONE's place",
    "1 by the place: at the end",
    "1 by the place: skipped",
    "1 by the place: done otherwise",
    "1 by the place: 2",
    "1 by the place: 3",
    "1 by the place: 4",
    "1 by the place: 5 to 9",
    "1 by the place: 10 to 25",
    "1 by the place: right in its low 32 bits",
    "a place passed over: at the end",
    "a place passed over: skipped",
    "a place passed over: done otherwise",
    "a place passed over: a setting moves",
    "a place passed over: 2",
    "a place passed over: 3",
    "a place passed over: 4",
    "a place passed over: 5 to 9",
    "a place passed over: 10 to 25",
];

/// What a call leaves behind.
#[derive(PartialEq, Eq)]
struct Left {
    answer: Answer,
    settings: Vec<u8>,
    page: Vec<u8>,
}

fn left(case: &HandleCase, place: u64) -> Left {
    let (mut settings, mut page) = (case.settings.clone(), case.page.clone());
    let answer = Reader.handle(&HandleCase { place, ..case.clone() }, &mut settings, &mut page);
    Left { answer, settings, page }
}

/// The message at the position, if it is a request that was looked into: its bytes up to its stated end.
fn request<'a>(case: &'a HandleCase, answer: &Answer) -> Option<&'a [u8]> {
    let looked_into = answer.kind == DONE || answer.refusal > 6;
    let rest = case.datagram.get(case.position as usize..).filter(|_| looked_into)?;
    Some(&rest[..u32::from_le_bytes(rest[..4].try_into().unwrap()) as usize])
}

fn has_both_bits(message: &[u8]) -> bool {
    message[7] & 3 == 3
}

/// The payloads of a dump's INDEX, NAME and flags, if it has a header nest.
fn header(message: &[u8]) -> Option<[Option<&[u8]>; 3]> {
    let parts = attributes(last(&attributes(&message[20..]), 1)?);
    Some([1, 2, 3].map(|kind| last(&parts, kind)))
}

/// The number of a dump of a GET none of whose attributes has a fault of its own.
fn judged(message: &[u8]) -> u32 {
    match header(message) {
        None => 13,
        Some([None, None, None | Some([0..4, 0, 0, 0])]) => 0,
        Some([None, None, Some(_)]) => 15,
        Some(_) => 8,
    }
}

/// What a call with place 0 says, in the words of the lists above.
fn instead(answer: &Answer) -> &'static str {
    match (answer.kind, answer.refusal) {
        _ if answer.next_place > 0 => "a dump",
        (END, _) => "at the end",
        (SKIPPED, _) => "skipped",
        (DONE, _) => "done otherwise",
        (_, 2) => "2",
        (_, 3) => "3",
        (_, 4) => "4",
        (_, 5..=9) => "5 to 9",
        _ => "10 to 25",
    }
}

/// Counts of ways.
#[derive(Default)]
struct Reached(BTreeMap<String, u32>);

impl Reached {
    /// Counts a way, and those of its parts that hold.
    fn count(&mut self, way: &str, parts: &[(&str, bool)]) {
        *self.0.entry(way.to_string()).or_default() += 1;
        for (part, _) in parts.iter().filter(|(_, holds)| *holds) {
            *self.0.entry(format!("{way}: {part}")).or_default() += 1;
        }
    }

    /// A dump that was answered by a port's reply or DONE.
    fn answered(&mut self, case: &HandleCase, message: &[u8], answer: &Answer) {
        let (ports, place) = (case.roll.len() as u64 / 21, case.place);
        let compact = matches!(header(message), Some([_, _, Some([1 | 3, ..])]));
        let way = if answer.next_place > 0 { "a port's reply" } else { "DONE" };
        let parts = [
            ("DEBUG_GET", message[16] == 7),
            ("PRIVFLAGS_GET", message[16] == 13),
            ("compact", compact),
            ("verbose", !compact),
            ("ACK asked", message[6] & 4 != 0),
            ("inside a datagram", case.position > 0),
            ("sender not admin", case.admin == 0),
            ("the first of several", place == 0 && ports > 1),
            ("the last of several", place == ports - 1 && ports > 1),
            ("one between", place > 0 && place < ports - 1),
            ("1 port", ports == 1),
            ("2 ports", ports == 2),
            ("64 ports", ports == 64),
        ];
        self.count(way, &parts);
    }

    /// A dump of a GET that was refused.
    fn refused(&mut self, case: &HandleCase, message: &[u8], number: u32) {
        let at_done = ("at DONE's place", case.place == case.roll.len() as u64 / 21);
        if number != 8 {
            return self.count(&format!("{number} in a dump"), &[at_done]);
        }
        let [index, name, flags] = header(message).unwrap();
        let bad_flags = flags.is_some_and(|flags| !matches!(flags, [0..4, 0, 0, 0]));
        let parts = [
            ("by index", name.is_none()),
            ("by name", index.is_none()),
            ("by both", index.is_some() && name.is_some()),
            ("flags that 15 would refuse", bad_flags),
            at_done,
        ];
        self.count("8 of a dump", &parts);
    }

    /// A message with both DUMP bits.
    fn dumped(&mut self, case: &HandleCase, message: &[u8], answer: &Answer) {
        match message[16] {
            8 | 14 => {
                assert_eq!(answer.refusal, 8, "{case}");
                self.count("8 of a SET", &[("sender not admin", case.admin == 0)]);
            }
            7 | 13 => {
                assert!((10..=12).contains(&answer.refusal) || answer.refusal == judged(message), "{case}");
                match answer.refusal {
                    0 => self.answered(case, message, answer),
                    number => self.refused(case, message, number),
                }
            }
            1 => {
                assert_eq!(answer.refusal, 8, "{case}");
                self.count("8 of STRSET_GET", &[]);
            }
            _ => assert_eq!(answer.refusal, 7, "{case}"),
        }
    }

    /// A call with a place other than 0, and what it would have been with 0.
    fn placed(&mut self, case: &HandleCase, now: &Left, first: &Left) {
        let instead = instead(&first.answer);
        if case.place > case.roll.len() as u64 / 21 {
            assert_eq!(now.answer.refusal, 1, "{case}");
            let low = ("right in its low 32 bits", case.place as u32 <= case.roll.len() as u32 / 21);
            self.count("1 by the place", &[(instead, true), low]);
        } else if !request(case, &now.answer).is_some_and(has_both_bits) {
            assert!(now == first, "{case}");
            self.count("a place passed over", &[(instead, true), ("a setting moves", now.settings != case.settings)]);
        }
    }

    fn rare(&self) -> Vec<String> {
        let ways = WAYS.iter().map(|way| (way, LEAST)).chain(PARTS.iter().map(|way| (way, LEAST_OF_PARTS)));
        let met = |way: &str| self.0.get(way).copied().unwrap_or(0);
        ways.filter(|(way, least)| met(way) < *least).map(|(way, _)| format!("{way}: {}", met(way))).collect()
    }
}

#[test]
fn every_way_is_met_in_200_000_cases() {
    let mut reached = Reached::default();
    for number in 0..CASES {
        let Case::Handle(case) = cases::case(SEED, number) else { continue };
        if Reader.check_box((&case).into()).0 != 0 {
            continue;
        }
        let now = left(&case, case.place);
        if let Some(message) = request(&case, &now.answer).filter(|message| has_both_bits(message)) {
            reached.dumped(&case, message, &now.answer);
        }
        if case.place > 0 {
            reached.placed(&case, &now, &left(&case, 0));
        }
    }
    println!("{:#?}", reached.0);
    assert_eq!(reached.rare(), Vec::<String>::new(), "too rare");
}
