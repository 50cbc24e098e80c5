//! What document 01 promises of every answer, checked on the reader without knowing the answer; `dump_promises.rs` has
//! what request C-11 adds.

use cases::strsets::STRSET_GET;
use cases::{Case, HandleCase, NormaliseCase};
use compare::{outcome, Outcome, Reader};
use reader::{Answer, DONE, END, REFUSED, SKIPPED};

const SEED: u64 = 2;
const CASES: u64 = 10_000;

fn handled() -> impl Iterator<Item = (HandleCase, Answer, Vec<u8>, Vec<u8>)> {
    (0..CASES).filter_map(|number| {
        let case = cases::case(SEED, number);
        match (outcome(&Reader, &case), case) {
            (Outcome::Handled { answer, settings, page, .. }, Case::Handle(case)) => {
                Some((case, answer, settings, page))
            }
            _ => None,
        }
    })
}

fn normalised() -> impl Iterator<Item = (NormaliseCase, u32, Vec<u8>)> {
    (0..CASES).filter_map(|number| {
        let case = cases::case(SEED, number);
        match (outcome(&Reader, &case), case) {
            (Outcome::Normalised { number, written, page }, Case::Normalise(case)) => {
                assert!(page[written as usize..] == case.page[written as usize..]);
                Some((case, number, page[..written as usize].to_vec()))
            }
            _ => None,
        }
    })
}

/// Whether the message at the position asks for name lists.
fn is_strset_get(case: &HandleCase) -> bool {
    case.datagram.get(case.position as usize + 16) == Some(&STRSET_GET)
}

#[test]
fn kind_number_and_count_fit_together() {
    for (case, answer, ..) in handled() {
        let Answer { kind, refusal, written, .. } = answer;
        match (kind, refusal) {
            (END | SKIPPED, 0) | (REFUSED, 1..=4) => assert_eq!(written, 0),
            (REFUSED, 5..=9 | 25) => assert_eq!(written, 36),
            (REFUSED, 13) => assert!(written == 44 || written == 52),
            (REFUSED, 10..=24) => assert_eq!(written, 44),
            (DONE, 0) => assert!(written % 4 == 0 && written <= if is_strset_get(&case) { 32_768 } else { 24_684 }),
            _ => panic!("{answer:?} for {case}"),
        }
    }
}

#[test]
fn next_position_is_kept_or_moves_past_the_message() {
    for (case, answer, ..) in handled() {
        let stays = answer.kind == END || (1..=4).contains(&answer.refusal) || answer.next_place > 0;
        let moved = answer.next > case.position && answer.next <= case.datagram.len() as u64;
        assert!(if stays { answer.next == case.position } else { moved });
    }
}

#[test]
fn page_bytes_past_the_count_stay() {
    for (case, answer, _, page) in handled() {
        assert!(page[answer.written as usize..] == case.page[answer.written as usize..]);
    }
}

#[test]
fn settings_change_only_in_a_done_set() {
    let mut changed = 0;
    for (case, answer, settings, _) in handled() {
        let message = case.datagram.get(case.position as usize..).unwrap_or(&[]);
        let is_set = message.get(16).is_some_and(|command| matches!(command, 8 | 14));
        assert!(settings == case.settings || (answer.kind == DONE && is_set));
        changed += u32::from(settings != case.settings);
    }
    assert!(changed > 500);
}

#[test]
fn box_stays_right_after_a_call() {
    for (case, answer, settings, _) in handled() {
        if answer.kind == DONE {
            let again = HandleCase { settings, datagram: Vec::new(), position: 0, ..case };
            assert!(
                matches!(outcome(&Reader, &Case::Handle(again)), Outcome::Handled { answer, .. } if answer.kind == END)
            );
        }
    }
}

#[test]
fn normal_form_is_its_own_normal_form() {
    for (case, number, form) in normalised() {
        if number == 0 {
            let words = case.names.len().div_ceil(32 * 32);
            assert_eq!(form.len(), 16 + 8 * words);
            let mut page = vec![0; 144];
            let (number, written) = reader::normalise(&form, &case.names, &mut page);
            assert_eq!((number, &page[..written as usize]), (0, &form[..]));
        } else {
            assert!(form.is_empty());
        }
    }
}

/// What a SET with these contents makes of a set, through the handler; the refusal number if it is refused.
fn effect(contents: &[u8], names: &[u8], start: &[u8]) -> Result<Vec<u8>, u32> {
    let mut message = (28 + 4 + contents.len() as u32 + 4).to_le_bytes().to_vec();
    message.extend(*b"\x19\0\x01\0\0\0\0\0\0\0\0\0\x0e\x01\0\0\x0c\0\x01\x80\x08\0\x01\0\x03\0\0\0");
    message.extend((contents.len() as u16 + 4).to_le_bytes());
    message.extend([2, 0x80]);
    message.extend(contents);
    let roll = *b"\x01\x03\0\0\0sw0\0\0\0\0\0\0\0\0\0\0\0\0\0";
    let mut settings = [&[0; 4], start].concat();
    let mut page = vec![0; 32_768];
    let answer = reader::handle(25, 1, &roll, &[0; 32], names, &mut settings, &message, 0, 0, &mut page);
    if answer.kind == DONE {
        Ok(settings[4..].to_vec())
    } else {
        Err(answer.refusal)
    }
}

/// The set of all bits below N.
fn full(bits: usize) -> Vec<u8> {
    let words = (0..bits.div_ceil(32)).map(|word| u32::MAX >> (32 * (word + 1)).saturating_sub(bits));
    words.flat_map(u32::to_le_bytes).collect()
}

#[test]
fn normal_form_changes_every_set_as_its_bitset_does() {
    for (case, number, form) in normalised() {
        let bits = case.names.len() / 32;
        if matches!(number, 1..=3) || case.contents.len() > 32_000 {
            continue;
        }
        for start in [vec![0; 4 * bits.div_ceil(32)], full(bits)] {
            let made = effect(&case.contents, &case.names, &start);
            match number {
                0 => assert_eq!(made, effect(&form, &case.names, &start)),
                _ => assert_eq!(made, Err(number)),
            }
        }
    }
}
