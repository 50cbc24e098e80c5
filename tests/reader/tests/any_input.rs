//! Every input has an answer: lengths and bytes of any kind, never a panic.

mod common;
use common::*;

fn next(state: &mut u64) -> usize {
    *state = state.wrapping_mul(6_364_136_223_846_793_005).wrapping_add(1_442_695_040_888_963_407);
    (*state >> 33) as usize
}

fn some_bytes(state: &mut u64, longest: usize) -> Vec<u8> {
    let length = next(state) % (longest + 1);
    (0..length).map(|_| if next(state).is_multiple_of(3) { 0 } else { next(state) as u8 }).collect()
}

#[test]
fn any_bytes_in_any_place() {
    let state = &mut 5;
    for _ in 0..20_000 {
        let mut setup = Setup::document();
        match next(state) % 8 {
            0 => setup.roll = some_bytes(state, 50),
            1 => setup.debug_names = some_bytes(state, 100),
            2 => setup.flag_names = some_bytes(state, 100),
            3 => setup.settings = some_bytes(state, 40),
            4 => setup.page = some_bytes(state, 300),
            _ => {}
        }
        let (part, offset) = setup.check();
        let lengths =
            [0, 0, 0, setup.roll.len(), setup.debug_names.len(), setup.flag_names.len(), setup.settings.len()];
        assert!(offset <= lengths[part as usize] as u64);
        let datagram = some_bytes(state, 200);
        let position = [0, 0, next(state) as u64 % 250, u64::MAX, 1 << 32][next(state) % 5];
        let place = [0, 0, 1, 2, 1 << 32, u64::MAX][next(state) % 6];
        let answer = setup.call_at_place(&datagram, position, place);
        assert!(answer.kind <= 3 && answer.refusal <= 25 && answer.written <= setup.page.len() as u64);
        assert!(answer.next_place <= 1 && (place <= 1 || answer.refusal == 1));
        reader::normalise(&datagram, &setup.flag_names, &mut setup.page);
        let (number, found, compared) = reader::find(&setup.flag_names, &datagram[..datagram.len() % 40]);
        assert!(number <= 1 && (found < 40 || found == reader::NOT_FOUND) && compared <= 40);
        reader::run(&datagram);
    }
}

#[test]
fn any_bytes_after_right_headers() {
    let state = &mut 6;
    for _ in 0..50_000 {
        let command = [DEBUG_GET, DEBUG_SET, PRIVFLAGS_GET, PRIVFLAGS_SET][next(state) % 4];
        let mut inside = some_bytes(state, 60);
        inside.iter_mut().for_each(|byte| *byte %= [12, 255][next(state) % 2]);
        let request = message(command, REQUEST, &[by_index(3), attribute(0x8002, &inside)]);
        let answer = Setup::document().call(&request);
        assert!(matches!(answer.refusal, 0 | 10..=13 | 18..=23));
        assert_eq!(answer.next, request.len() as u64);
    }
}

#[test]
fn any_bytes_in_the_header_of_a_dump() {
    let state = &mut 7;
    for _ in 0..50_000 {
        let mut inside = some_bytes(state, 16);
        inside.iter_mut().for_each(|byte| *byte %= [9, 255][next(state) % 2]);
        let request =
            message([DEBUG_GET, PRIVFLAGS_GET][next(state) % 2], REQUEST | 0x300, &[attribute(0x8001, &inside)]);
        let place = next(state) as u64 % 2;
        let answer = Setup::document().call_at_place(&request, 0, place);
        assert!(matches!(answer.refusal, 0 | 8 | 10..=12 | 15));
        let goes_on = answer.refusal == 0 && place == 0;
        assert_eq!((answer.next, answer.next_place), if goes_on { (0, 1) } else { (request.len() as u64, 0) });
    }
}

#[test]
fn any_bytes_in_a_request_for_name_lists() {
    let state = &mut 8;
    for _ in 0..50_000 {
        let mut inside = some_bytes(state, 40);
        inside.iter_mut().for_each(|byte| *byte %= [12, 255][next(state) % 2]);
        let lists = [strset::list(&[attribute(0x8001, &inside)]), attribute(0x8002, &inside), inside];
        let header = [strset::no_port(), by_index(3)][next(state) % 2].clone();
        let request = strset::request(&[header, lists[next(state) % 3].clone()]);
        let (refusal, written) = strset::answered(&mut strset::lists(), &request);
        assert!(matches!(refusal, 0 | 10..=13 | 15..=17 | 24));
        assert!(written.len() >= 36 && written.len().is_multiple_of(4));
    }
}

#[test]
fn any_message_and_page_for_name_lists() {
    let state = &mut 9;
    for _ in 0..5_000 {
        let mut setup = strset::lists();
        if next(state).is_multiple_of(4) {
            setup.page = some_bytes(state, 300);
        }
        let flags = REQUEST | [0, ACK, 0x100, 0x300][next(state) % 4];
        let body = [vec![strset::STRSET_GET, 1, 0, 0], some_bytes(state, 60)].concat();
        let (refusal, written) = strset::answered(&mut setup, &message_of(25, flags, &body));
        assert!(matches!(refusal, 0 | 2 | 8 | 10..=13 | 15..=17 | 24));
        assert_eq!(written.is_empty(), refusal == 2);
    }
}

#[test]
fn whole_bitmaps_as_long_as_a_datagram() {
    let room = 32_768 - 20 - 12 - 4 - 4 - 8 - 4;
    let parts = [attribute(NOMASK, &[]), number(SIZE, 8 * room as u32), attribute(VALUE, &vec![0; room])];
    let request = message(PRIVFLAGS_SET, REQUEST, &[by_index(3), nest(2, &parts)]);
    assert_eq!(request.len(), 32_768);
    let mut setup = Setup::document();
    assert_eq!(setup.call(&request).refusal, 0);
    assert_eq!(setup.words(), [0; 4]);
}
