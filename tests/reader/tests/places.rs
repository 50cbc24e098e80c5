//! Places (request C-11): above the port count, on messages that are no dumps, and with changes in between.

mod common;
use common::dumps::*;
use common::*;
use reader::{Answer, END, REFUSED, SKIPPED};

#[test]
fn place_above_the_count_is_1_whatever_the_message() {
    let set = message(PRIVFLAGS_SET, REQUEST, &[by_index(3), nest(2, &[nest(BITS, &[bit_at(4, true)])])]);
    let datagrams = [
        compact(),
        dump(DEBUG_GET, 0, &[number(1, 3)]),
        message(DEBUG_GET, REQUEST, &[by_index(3)]),
        set,
        message_of(2, REQUEST, &[]),
        message_of(26, REQUEST, &[]),
        vec![0; 16],
        vec![0; 15],
        vec![0; 32_769],
        Vec::new(),
    ];
    for (ports, mut setup) in [(1, Setup::document()), (2, two()), (64, sixty_four())] {
        for place in [ports + 1, ports + 2, 1 << 32, (1 << 32) + 1, 1 << 63, u64::MAX] {
            let refused = |next| Answer { kind: REFUSED, refusal: 1, next, next_place: 0, written: 0 };
            for datagram in &datagrams {
                let end = datagram.len() as u64;
                for position in [0, end, end + 1] {
                    assert_eq!(shown(&mut setup, datagram, position, place).0, refused(position));
                }
            }
        }
    }
}

#[test]
fn place_above_the_count_goes_before_a_short_page() {
    let mut setup = two();
    setup.page.truncate(32_767);
    assert_eq!(shown(&mut setup, &compact(), 0, 3).0.refusal, 1);
    assert_eq!(shown(&mut setup, &compact(), 0, 2).0, Answer { kind: REFUSED, refusal: 2, ..done(0, 0, 0) });
}

#[test]
fn place_on_another_message_is_passed_over() {
    let list = nest(2, &[nest(BITS, &[bit_at(4, true)])]);
    let datagrams = [
        message(PRIVFLAGS_GET, REQUEST | ACK, &[by_index(1)]),
        message(PRIVFLAGS_SET, REQUEST | ACK, &[by_index(3), list.clone()]),
        message(PRIVFLAGS_SET, REQUEST | DUMP, &[by_index(3), list]),
        message(DEBUG_GET, REQUEST, &[nest(1, &[])]),
        message_of(2, REQUEST, &[]),
        message_of(26, REQUEST, &[]),
        vec![0; 16],
        vec![0; 15],
        vec![0; 32_769],
        Vec::new(),
    ];
    for datagram in &datagrams {
        let mut first = two();
        let expected = first.call_at_place(datagram, 0, 0);
        assert_eq!(expected.next_place, 0);
        for place in [1, 2] {
            let mut setup = two();
            assert_eq!(setup.call_at_place(datagram, 0, place), expected);
            assert!(setup.page == first.page && setup.settings == first.settings);
        }
    }
}

#[test]
fn end_and_skipped_hand_back_place_0() {
    let datagram = message_of(2, REQUEST, &[]);
    let answer = |kind| Answer { kind, refusal: 0, next: 16, next_place: 0, written: 0 };
    assert_eq!(shown(&mut two(), &datagram, 0, 2).0, answer(SKIPPED));
    assert_eq!(shown(&mut two(), &datagram, 16, 2).0, answer(END));
}

#[test]
fn set_in_between_is_seen_by_the_replies_still_to_come() {
    let (mut setup, request) = (two(), compact());
    assert_eq!(shown(&mut setup, &request, 0, 0), (done(0, 1, 68), hex(FIRST)));
    let cleared = nest(2, &[attribute(NOMASK, &[]), number(SIZE, 0), words(VALUE, &[])]);
    for index in [3, 1] {
        let set = message(PRIVFLAGS_SET, REQUEST, &[by_index(index), cleared.clone()]);
        assert_eq!(setup.call_at_place(&set, 0, 1), done(set.len() as u64, 0, 0));
    }
    let (answer, reply) = shown(&mut setup, &request, 0, 1);
    assert_eq!((answer, &reply[..64], &reply[64..]), (done(0, 2, 72), &hex(SECOND)[..64], &[0; 8][..]));
    assert_eq!(shown(&mut setup, &request, 0, 2), (done(32, 0, 20), hex(DONE_MESSAGE)));
}

#[test]
fn nothing_is_remembered_between_calls() {
    let (mut setup, request) = (two(), compact());
    assert_eq!(shown(&mut setup, &request, 0, 2).1, hex(DONE_MESSAGE));
    assert_eq!(shown(&mut setup, &request, 0, 1).1, hex(SECOND));
    assert_eq!(shown(&mut setup, &request, 0, 1).1, hex(SECOND));
    setup.roll = port(3, b"sw0");
    setup.set_words(&[0, 0, 1, 2]);
    assert_eq!(shown(&mut setup, &request, 0, 1), (done(32, 0, 20), hex(DONE_MESSAGE)));
    assert_eq!(shown(&mut setup, &request, 0, 2).0.refusal, 1);
}
