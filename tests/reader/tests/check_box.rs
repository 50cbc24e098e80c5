//! `check_box` by hand: each part, each kind of fault, its place; the first of several.

mod common;
use common::*;

/// A box of three ports with sets of 40 and 33 bits, two words each.
fn right_box() -> Setup {
    let mut setup = Setup::document();
    setup.roll = [port(3, b"sw0"), port(4, b"sw1"), port(5, b"sw2")].concat();
    setup.debug_names = names(40, &[(0, b"drv"), (7, b"link")]);
    setup.flag_names = names(33, &[(3, b"lldp"), (32, b"eee")]);
    setup.set_words(&[0; 12]);
    setup
}

/// What is told of the right box after a change.
fn told(change: impl FnOnce(&mut Setup)) -> (u32, u64) {
    let mut setup = right_box();
    change(&mut setup);
    setup.check()
}

fn roll_of(records: &[Vec<u8>]) -> (u32, u64) {
    told(|setup| setup.roll = records.concat())
}

fn debug_list(list: Vec<u8>) -> (u32, u64) {
    told(|setup| setup.debug_names = list)
}

fn flag_list(list: Vec<u8>) -> (u32, u64) {
    told(|setup| setup.flag_names = list)
}

fn many_ports(count: u32) -> Vec<Vec<u8>> {
    (1..=count).map(|index| port(index, format!("p{index}").as_bytes())).collect()
}

#[test]
fn nothing_is_told_of_a_right_box() {
    assert_eq!(right_box().check(), (0, 0));
    assert_eq!(Setup::document().check(), (0, 0));
}

#[test]
fn family_is_the_first_part() {
    for family in [0, 15, 65_536, 65_536 + 25, u32::MAX] {
        assert_eq!(told(|setup| setup.family = family), (1, 0), "{family}");
    }
    for family in [16, 25, 65_535] {
        assert_eq!(told(|setup| setup.family = family), (0, 0), "{family}");
    }
}

#[test]
fn admin_is_the_second_part() {
    assert_eq!([0, 1, 2, 256, u32::MAX].map(|admin| told(|setup| setup.admin = admin).0), [0, 0, 2, 2, 2]);
    assert_eq!(told(|setup| setup.admin = 2), (2, 0));
}

#[test]
fn no_beginning_of_a_roll_is_right() {
    assert_eq!(roll_of(&[]), (3, 0));
    assert_eq!(roll_of(&[vec![1]]), (3, 0));
    assert_eq!(roll_of(&[port(0, b"sw0"), port(4, b"sw1"), port(5, b"sw2")]), (3, 0));
}

#[test]
fn record_of_unknown_kind() {
    for kind in [0, 2, 255] {
        assert_eq!(told(|setup| setup.roll[21] = kind), (3, 21), "{kind}");
    }
}

#[test]
fn record_cut_short() {
    for length in [43, 50, 62] {
        assert_eq!(told(|setup| setup.roll.truncate(length)), (3, 42), "{length}");
    }
    assert_eq!(told(|setup| setup.roll.push(1)), (3, 63));
    assert_eq!(told(|setup| setup.roll.truncate(20)), (3, 0));
}

#[test]
fn record_with_a_bad_index() {
    for index in [0, 0x8000_0000, u32::MAX] {
        assert_eq!(roll_of(&[port(3, b"sw0"), port(4, b"sw1"), port(index, b"sw2")]), (3, 42), "{index}");
    }
    assert_eq!(roll_of(&[port(3, b"sw0"), port(0x7FFF_FFFF, b"sw1"), port(1, b"sw2")]), (0, 0));
}

#[test]
fn record_with_a_bad_name() {
    for name in [b"".as_slice(), b"sixteen-letters!", b"a\0b", b"\0b", b"a\0\0\0\0\0\0\0\0\0\0\0\0\0\0b"] {
        assert_eq!(roll_of(&[port(3, b"sw0"), port(4, name), port(5, b"sw2")]), (3, 21), "{name:?}");
    }
    assert_eq!(roll_of(&[port(3, b"sw0"), port(4, b"fifteen-letters"), port(5, b"s")]), (0, 0));
}

#[test]
fn record_that_repeats_an_index_or_a_name() {
    assert_eq!(roll_of(&[port(3, b"sw0"), port(4, b"sw1"), port(3, b"sw2")]), (3, 42));
    assert_eq!(roll_of(&[port(3, b"sw0"), port(4, b"sw0"), port(5, b"sw2")]), (3, 21));
    assert_eq!(roll_of(&[port(3, b"sw0"), port(3, b"sw0"), port(0, b"")]), (3, 21));
}

#[test]
fn port_65_is_at_fault() {
    assert_eq!(roll_of(&many_ports(65)), (3, 64 * 21));
    assert_eq!(roll_of(&many_ports(70)), (3, 64 * 21));
    let mut ports = many_ports(66);
    ports[40] = port(41, b"p1");
    assert_eq!(roll_of(&ports), (3, 40 * 21));
    let with_64 = |setup: &mut Setup| {
        setup.roll = many_ports(64).concat();
        setup.set_words(&[0; 4 * 64]);
    };
    assert_eq!(told(with_64), (0, 0));
}

#[test]
fn no_beginning_of_a_list_is_right() {
    assert_eq!(debug_list(Vec::new()), (4, 0));
    assert_eq!(debug_list(vec![0; 31]), (4, 0));
    assert_eq!(flag_list(Vec::new()), (5, 0));
    assert_eq!(flag_list(names(33, &[(0, b"a\0b")])), (5, 0));
}

#[test]
fn entry_cut_short() {
    assert_eq!(debug_list(vec![0; 40 * 32 - 1]), (4, 39 * 32));
    assert_eq!(debug_list(vec![0; 40 * 32 + 1]), (4, 40 * 32));
    assert_eq!(flag_list(vec![0; 33 * 32 + 31]), (5, 33 * 32));
}

#[test]
fn entry_that_is_not_a_name_and_then_nuls() {
    for name in [&[b'x'; 32], b"a\0b".as_slice(), b"\0b", b"12345678\x0012345678"] {
        assert_eq!(debug_list(names(40, &[(9, name)])), (4, 9 * 32), "{name:?}");
        assert_eq!(flag_list(names(33, &[(32, name)])), (5, 32 * 32), "{name:?}");
    }
    assert_eq!(flag_list(names(33, &[(32, &[b'x'; 31])])), (0, 0));
}

#[test]
fn entry_that_repeats_a_name() {
    assert_eq!(debug_list(names(40, &[(2, b"drv"), (5, b"link"), (30, b"drv"), (31, b"drv")])), (4, 30 * 32));
    assert_eq!(flag_list(names(33, &[(0, b"drv"), (1, b"drv")])), (5, 32));
    assert_eq!(flag_list(names(33, &[(0, b"drv"), (7, b"link"), (8, b"links")])), (0, 0));
}

#[test]
fn entry_513_is_at_fault() {
    assert_eq!(debug_list(names(513, &[])), (4, 512 * 32));
    assert_eq!(flag_list(names(600, &[(520, b"a\0b")])), (5, 512 * 32));
    assert_eq!(flag_list(names(600, &[(511, b"a\0b")])), (5, 511 * 32));
    let with_512 = |setup: &mut Setup| {
        setup.flag_names = names(512, &[]);
        setup.set_words(&[0; 3 * 18]);
    };
    assert_eq!(told(with_512), (0, 0));
}

#[test]
fn settings_of_another_length_end_too_early_or_too_late() {
    for length in [0, 1, 4, 47] {
        assert_eq!(told(|setup| setup.settings.truncate(length)), (6, length as u64));
    }
    for length in [49, 52, 96, 1000] {
        assert_eq!(told(|setup| setup.settings.resize(length, 0xFF)), (6, 48));
    }
}

#[test]
fn settings_of_another_length_are_told_before_a_bit_past_n() {
    assert_eq!(told(|setup| setup.settings = vec![0xFF; 44]), (6, 44));
    assert_eq!(told(|setup| setup.settings = vec![0xFF; 52]), (6, 48));
}

#[test]
fn word_with_a_bit_at_or_past_n() {
    let full = [u32::MAX, 0xFF, u32::MAX, 1].repeat(3);
    assert_eq!(told(|setup| setup.set_words(&full)), (0, 0));
    for (word, bit) in [(1, 8), (1, 31), (3, 1), (5, 8), (7, 31), (9, 20), (11, 1)] {
        let mut words = full.clone();
        words[word] |= 1 << bit;
        assert_eq!(told(|setup| setup.set_words(&words)), (6, 4 * word as u64), "{word} {bit}");
        words[11] = u32::MAX;
        assert_eq!(told(|setup| setup.set_words(&words)), (6, 4 * word as u64), "{word} {bit}");
    }
}

#[test]
fn parts_are_told_in_their_order() {
    type Damage = fn(&mut Setup);
    let faults: [(Damage, u64); 6] = [
        (|setup| setup.family = 15, 0),
        (|setup| setup.admin = 2, 0),
        (|setup| setup.roll[42] = 2, 42),
        (|setup| setup.debug_names[32 * 39 + 1] = b'x', 32 * 39),
        (|setup| setup.flag_names.truncate(32 * 33 - 1), 32 * 32),
        (|setup| setup.settings.truncate(47), 47),
    ];
    let mut setup = right_box();
    for (earlier, (fault, place)) in faults.into_iter().enumerate().rev() {
        fault(&mut setup);
        assert_eq!(setup.check(), (earlier as u32 + 1, place));
    }
}
