//! The cases reach every answer, are the same on every run, and a difference is seen wherever it is.

use cases::{Case, FindCase, GivenBox, HandleCase, NormaliseCase};
use compare::{compare, outcome, Implementation, Reader, Tally};
use reader::Answer;
use std::io::{stdout, Write};

#[test]
fn every_number_is_reached_100_times_in_200_000_cases() {
    let mut tally = Tally::default();
    for number in 0..200_000 {
        let case = cases::case(1, number);
        tally.count(&case, &outcome(&Reader, &case));
    }
    // Written past the harness, so that the counts show in every run.
    let _ = writeln!(stdout(), "seed 1, 200000 cases\n{tally}");
    assert_eq!(tally.rare(100), Vec::<String>::new());
}

#[test]
fn the_reader_does_not_differ_from_itself() {
    assert!(compare(&Reader, &Reader, 4, 2_000, &mut Tally::default()).is_none());
}

#[test]
fn a_case_is_made_from_seed_and_number_alone() {
    assert!((0..200).all(|number| cases::case(7, number) == cases::case(7, number)));
    assert!((0..200).all(|number| cases::case(7, number) != cases::case(8, number)));
}

#[test]
fn large_and_small_boxes_appear() {
    let (mut names, mut ports) = ([0; 2], [0; 2]);
    for number in 0..20_000 {
        if let Case::Handle(HandleCase { roll, flag_names, .. }) = cases::case(3, number) {
            names[0] += u32::from(flag_names.len() == 32);
            names[1] += u32::from(flag_names.len() == 512 * 32);
            ports[0] += u32::from(roll.len() == 21);
            ports[1] += u32::from(roll.len() == 64 * 21);
        }
    }
    assert!(names.into_iter().chain(ports).all(|count| count >= 20), "{names:?} {ports:?}");
}

type Alteration = fn(&mut Answer, &mut [u8], &mut [u8]);

/// The reader with one thing of its outcome changed.
struct Altered(Alteration);

impl Implementation for Altered {
    fn handle(&self, case: &HandleCase, settings: &mut [u8], page: &mut [u8]) -> Answer {
        let mut answer = Reader.handle(case, settings, page);
        (self.0)(&mut answer, settings, page);
        answer
    }

    fn normalise(&self, case: &NormaliseCase, page: &mut [u8]) -> (u32, u64) {
        Reader.normalise(case, page)
    }

    fn check_box(&self, given: GivenBox) -> (u32, u64) {
        Reader.check_box(given)
    }

    fn find(&self, case: &FindCase) -> (u32, u32, u64) {
        Reader.find(case)
    }
}

/// The reader with another check of a box.
struct OtherCheck(fn(GivenBox) -> (u32, u64));

impl Implementation for OtherCheck {
    fn handle(&self, case: &HandleCase, settings: &mut [u8], page: &mut [u8]) -> Answer {
        Reader.handle(case, settings, page)
    }

    fn normalise(&self, case: &NormaliseCase, page: &mut [u8]) -> (u32, u64) {
        Reader.normalise(case, page)
    }

    fn check_box(&self, given: GivenBox) -> (u32, u64) {
        (self.0)(given)
    }

    fn find(&self, case: &FindCase) -> (u32, u32, u64) {
        Reader.find(case)
    }
}

/// Number, bit and count of a search.
type Found = (u32, u32, u64);

/// The reader with another search for a name.
struct OtherFind(fn(Found) -> Found);

impl Implementation for OtherFind {
    fn handle(&self, case: &HandleCase, settings: &mut [u8], page: &mut [u8]) -> Answer {
        Reader.handle(case, settings, page)
    }

    fn normalise(&self, case: &NormaliseCase, page: &mut [u8]) -> (u32, u64) {
        Reader.normalise(case, page)
    }

    fn check_box(&self, given: GivenBox) -> (u32, u64) {
        Reader.check_box(given)
    }

    fn find(&self, case: &FindCase) -> (u32, u32, u64) {
        (self.0)(Reader.find(case))
    }
}

#[test]
fn every_part_of_an_outcome_is_compared() {
    let alterations: [Alteration; 7] = [
        |answer, _, _| answer.kind ^= 1,
        |answer, _, _| answer.refusal ^= 1,
        |answer, _, _| answer.next ^= 1 << 40,
        |answer, _, _| answer.next_place ^= 1 << 40,
        |answer, _, _| answer.written ^= 1 << 40,
        |_, settings, _| settings.iter_mut().last().map_or((), |byte| *byte ^= 1),
        |_, _, page| page.iter_mut().last().map_or((), |byte| *byte ^= 1),
    ];
    for alteration in alterations {
        assert!(compare(&Altered(alteration), &Reader, 1, 20, &mut Tally::default()).is_some());
    }
}

#[test]
fn part_and_offset_of_a_checked_box_are_compared() {
    let other_part = OtherCheck(|given| (Reader.check_box(given).0 ^ 8, Reader.check_box(given).1));
    let other_offset = OtherCheck(|given| (Reader.check_box(given).0, Reader.check_box(given).1 ^ 1 << 40));
    for other in [other_part, other_offset] {
        assert!(compare(&other, &Reader, 1, 200, &mut Tally::default()).is_some());
    }
}

#[test]
fn number_bit_and_count_of_a_search_are_compared() {
    let others = [
        OtherFind(|(number, found, compared)| (number ^ 1, found, compared)),
        OtherFind(|(number, found, compared)| (number, found ^ 1 << 20, compared)),
        OtherFind(|(number, found, compared)| (number, found, compared ^ 1 << 40)),
    ];
    for other in others {
        assert!(compare(&other, &Reader, 1, 200, &mut Tally::default()).is_some());
    }
}

#[test]
fn a_check_that_does_not_agree_with_the_handler_is_seen() {
    for answer in [|_: GivenBox| (0, 0), |_: GivenBox| (3, 0)] {
        let constant = OtherCheck(answer);
        assert!(compare(&constant, &constant, 1, 200, &mut Tally::default()).is_some());
    }
}
