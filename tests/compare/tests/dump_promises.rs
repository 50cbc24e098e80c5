//! What request C-11 promises of dumps and places, checked on the reader without knowing the answer.

use cases::{Case, HandleCase};
use compare::{attributes, last, Implementation, Reader};
use reader::{Answer, DONE, END};

const SEED: u64 = 2;
const CASES: u64 = 40_000;

/// What a call leaves behind: its answer, the settings, the bytes written.
type Left = (Answer, Vec<u8>, Vec<u8>);

fn left(case: &HandleCase) -> Left {
    let (mut settings, mut page) = (case.settings.clone(), case.page.clone());
    let answer = Reader.handle(case, &mut settings, &mut page);
    assert!(page[answer.written as usize..] == case.page[answer.written as usize..]);
    page.truncate(answer.written as usize);
    (answer, settings, page)
}

fn ports(case: &HandleCase) -> u64 {
    case.roll.len() as u64 / 21
}

fn cases() -> impl Iterator<Item = HandleCase> {
    (0..CASES).filter_map(|number| match cases::case(SEED, number) {
        Case::Handle(case) => Some(case),
        _ => None,
    })
}

/// The message at the position with both DUMP bits, up to its stated end, if one is there.
fn dump(case: &HandleCase) -> Option<&[u8]> {
    let rest = case.datagram.get(usize::try_from(case.position).ok()?..)?;
    let length = u32::from_le_bytes(rest.get(..4)?.try_into().ok()?) as usize;
    rest.get(..length).filter(|message| message.len() >= 20 && message[7] & 3 == 3)
}

/// Calls that a dump answers, with what they leave behind.
fn answered() -> impl Iterator<Item = (HandleCase, Left)> {
    let calls = cases().map(|case| {
        let left = left(&case);
        (case, left)
    });
    calls.filter(|(case, (answer, ..))| answer.kind == DONE && dump(case).is_some())
}

#[test]
fn only_a_ports_reply_hands_back_a_place() {
    let (mut replies, mut others) = (0, 0);
    for case in cases() {
        let (answer, ..) = left(&case);
        if answer.next_place == 0 {
            others += 1;
            continue;
        }
        assert!(answer.kind == DONE && dump(&case).is_some(), "{case}");
        assert_eq!((answer.next, answer.next_place), (case.position, case.place + 1));
        assert!(answer.next_place <= ports(&case));
        replies += 1;
    }
    assert!(replies > 500 && others > 20_000, "{replies} {others}");
}

#[test]
fn done_moves_past_the_message_and_is_twenty_bytes() {
    let mut met = 0;
    for (case, (answer, settings, written)) in answered().filter(|(case, _)| case.place == ports(case)) {
        let message = dump(&case).unwrap();
        let past = case.position + message.len().next_multiple_of(4) as u64;
        assert_eq!((answer.next, answer.next_place), (past.min(case.datagram.len() as u64), 0));
        assert!(settings == case.settings);
        assert_eq!(written, [&[20, 0, 0, 0, 3, 0, 2, 0], &message[8..16], &[0; 4]].concat());
        met += 1;
    }
    assert!(met > 300, "{met}");
}

/// A GET of the port at a place by its index, with the header flags, sequence and port id of a dump.
fn get(case: &HandleCase, message: &[u8]) -> HandleCase {
    let header = attributes(last(&attributes(&message[20..]), 1).unwrap());
    let flags = last(&header, 3).unwrap_or(&[0; 4]);
    let port = &case.roll[21 * case.place as usize..];
    let head = [&[40, 0, 0, 0], &message[4..6], &[1, 0], &message[8..20], &[20, 0, 1, 0x80]].concat();
    let datagram = [&head[..], &[8, 0, 1, 0], &port[1..5], &[8, 0, 3, 0], flags].concat();
    HandleCase { datagram, position: 0, place: 0, ..case.clone() }
}

#[test]
fn a_ports_reply_is_that_of_a_get_but_for_the_message_flags() {
    let mut met = 0;
    for (case, (_, _, written)) in answered().filter(|(case, _)| case.place < ports(case)) {
        let (answer, _, mut expected) = left(&get(&case, dump(&case).unwrap()));
        assert_eq!((answer.kind, answer.next, &expected[6..8]), (DONE, 40, &[0, 0][..]));
        expected[6] = 2;
        assert!(written == expected, "{case}");
        met += 1;
    }
    assert!(met > 500, "{met}");
}

#[test]
fn a_dump_takes_a_call_for_each_port_and_one_more() {
    let mut largest = 0;
    for (case, _) in answered() {
        let mut shown: Vec<u8> = Vec::new();
        let mut call = HandleCase { place: 0, ..case.clone() };
        for place in 0..=ports(&case) {
            let (answer, settings, written) = left(&call);
            assert!(answer.kind == DONE && settings == case.settings);
            assert_eq!(answer.next_place == 0, place == ports(&case));
            shown.extend(written.get(28..32).into_iter().flatten());
            call = HandleCase { position: answer.next, place: answer.next_place, ..call };
        }
        let roll: Vec<u8> = case.roll.chunks(21).flat_map(|port| &port[1..5]).copied().collect();
        assert_eq!(shown, roll, "the ports in roll order");
        assert!(call.position > case.position);
        largest += u32::from(ports(&case) == 64);
    }
    assert!(largest > 50, "{largest}");
}

#[test]
fn an_asked_ack_adds_nothing() {
    for (mut case, before) in answered() {
        case.datagram[case.position as usize + 6] ^= 4;
        assert!(left(&case) == before, "{case}");
    }
}

#[test]
fn a_refused_message_is_refused_alike_at_every_place() {
    let mut met = 0;
    for case in cases().filter(|case| dump(case).is_some()) {
        let refused = left(&case);
        if refused.0.refusal > 1 {
            met += 1;
            for place in 0..=ports(&case).min(9) {
                assert!(left(&HandleCase { place, ..case.clone() }) == refused, "{case}");
            }
        }
    }
    assert!(met > 1_000, "{met}");
}

#[test]
fn a_place_above_the_count_is_1_also_at_the_end() {
    for case in cases().filter(|case| Reader.check_box(case.into()).0 == 0) {
        let position = case.datagram.len() as u64;
        for (place, refusal) in [(ports(&case), 0), (ports(&case) + 1, 1), (ports(&case) + (1 << 32), 1)] {
            let page = vec![0; 32_768];
            let (answer, ..) = left(&HandleCase { place, position, page, ..case.clone() });
            let too_long = position > 32_768;
            let expected = if too_long && refusal == 0 { 3 } else { refusal };
            assert_eq!((answer.refusal, answer.next, answer.next_place), (expected, position, 0));
            assert_eq!(answer.kind == END, expected == 0);
        }
    }
}
