//! Readings 1 to 9: the box, the order at the start of a call, the step.

mod common;
use common::*;

/// A request that is answered in every right box used here.
fn request() -> Vec<u8> {
    message(DEBUG_GET, REQUEST, &[by_index(3)])
}

fn number_of(change: impl FnOnce(&mut Setup)) -> u32 {
    let mut setup = Setup::document();
    change(&mut setup);
    setup.call(&request()).refusal
}

fn with_roll(ports: &[Vec<u8>]) -> u32 {
    number_of(|setup| {
        setup.roll = ports.concat();
        setup.set_words(&[0u32, 0, 1, 2].repeat(ports.len()));
    })
}

fn with_flag_names(list: Vec<u8>) -> u32 {
    number_of(|setup| setup.flag_names = list)
}

#[test]
fn family_runs_from_16_to_65535_and_is_never_cut() {
    for (family, number) in [(0, 1), (15, 1), (16, 5), (65_535, 5), (65_536, 1), (65_536 + 25, 1), (u32::MAX, 1)] {
        assert_eq!(number_of(|setup| setup.family = family), number, "{family}");
    }
}

#[test]
fn admin_is_0_or_1() {
    for (admin, number) in [(0, 0), (1, 0), (2, 1), (256, 1), (u32::MAX, 1)] {
        assert_eq!(number_of(|setup| setup.admin = admin), number);
    }
}

#[test]
fn roll_records_are_whole_and_of_kind_1() {
    assert_eq!(with_roll(&[port(3, b"sw0"), port(4, b"sw1")]), 0);
    let mut unknown = port(4, b"sw1");
    unknown[0] = 2;
    assert_eq!(with_roll(&[port(3, b"sw0"), unknown]), 1);
    assert_eq!(number_of(|setup| setup.roll.truncate(20)), 1);
    assert_eq!(number_of(|setup| setup.roll.push(1)), 1);
    assert_eq!(with_roll(&[]), 1);
}

#[test]
fn roll_holds_at_most_64_ports() {
    let ports: Vec<_> =
        (0..65).map(|port_number| port(3 + port_number, format!("p{port_number}").as_bytes())).collect();
    assert_eq!(with_roll(&ports[..64]), 0);
    assert_eq!(with_roll(&ports), 1);
}

#[test]
fn port_index_is_1_to_2147483647_and_stands_once() {
    for (index, number) in [(0, 1), (1, 0), (0x7FFF_FFFF, 0), (0x8000_0000, 1), (u32::MAX, 1), (3, 1)] {
        assert_eq!(with_roll(&[port(3, b"sw0"), port(index, b"sw1")]), number);
    }
}

#[test]
fn port_name_has_1_to_15_bytes_then_nuls_and_stands_once() {
    let names: [(&[u8], u32); 6] =
        [(b"", 1), (b"fifteen-letters", 0), (b"sixteen-letters!", 1), (b"a\0b", 1), (b"sw0", 1), (b"sw", 0)];
    for (name, number) in names {
        assert_eq!(with_roll(&[port(3, b"sw0"), port(4, name)]), number, "{name:?}");
    }
}

#[test]
fn name_list_is_1_to_512_entries_of_32_bytes() {
    let with_bits = |bits: usize| {
        number_of(|setup| {
            setup.flag_names = names(bits, &[]);
            setup.set_words(&vec![0; 2 + bits.div_ceil(32)]);
        })
    };
    assert_eq!([0, 1, 512, 513].map(with_bits), [1, 0, 0, 1]);
    assert_eq!(with_flag_names(vec![0; 40 * 32 - 1]), 1);
    assert_eq!(with_flag_names(vec![0; 40 * 32 + 1]), 1);
}

#[test]
fn bit_name_has_at_most_31_bytes_then_nuls() {
    assert_eq!(with_flag_names(names(40, &[(3, &[b'x'; 31])])), 0);
    assert_eq!(with_flag_names(names(40, &[(3, &[b'x'; 32])])), 1);
    assert_eq!(with_flag_names(names(40, &[(3, b"a\0b")])), 1);
    assert_eq!(with_flag_names(names(40, &[(3, b"\0b")])), 1);
    assert_eq!(with_flag_names(names(40, &[(39, b"12345678\x0012345678")])), 1);
}

#[test]
fn bit_names_are_distinct_in_one_list_but_may_stand_in_both() {
    assert_eq!(with_flag_names(names(40, &[(3, b"lldp"), (39, b"lldp")])), 1);
    assert_eq!(number_of(|setup| setup.debug_names = names(40, &[(7, b"lldp")])), 0);
}

#[test]
fn each_list_has_its_own_number_of_bits() {
    let mut setup = Setup::document();
    setup.debug_names = names(33, &[]);
    setup.flag_names = names(1, &[]);
    setup.set_words(&[0, 1, 1]);
    assert_eq!(setup.call(&request()).refusal, 0);
    setup.set_words(&[0, 2, 1]);
    assert_eq!(setup.call(&request()).refusal, 1);
    setup.set_words(&[0, 1, 2]);
    assert_eq!(setup.call(&request()).refusal, 1);
}

#[test]
fn settings_are_exactly_the_words_of_all_ports() {
    for bytes in [0, 4, 12, 15, 17, 20] {
        assert_eq!(number_of(|setup| setup.settings.resize(bytes, 0)), 1, "{bytes}");
    }
    for word in [1, 3] {
        assert_eq!(number_of(|setup| setup.settings[4 * word + 1] = 1), 1);
    }
}

#[test]
fn box_goes_before_page_and_page_before_datagram() {
    let mut setup = Setup::document();
    let long = vec![0; 32_769];
    setup.page.truncate(32_767);
    setup.admin = 2;
    assert_eq!(setup.silent(&long, 0), 1);
    setup.admin = 1;
    assert_eq!(setup.silent(&long, 0), 2);
    setup.page.push(0xA5);
    assert_eq!(setup.silent(&long, 0), 3);
    assert_eq!(setup.silent(&long, 32_769), 3);
}

#[test]
fn end_goes_after_a_position_past_the_end_and_before_bytes_left() {
    let mut setup = Setup::document();
    assert_eq!(setup.call_at(&[], 0), reader::Answer { kind: 0, refusal: 0, next: 0, next_place: 0, written: 0 });
    assert_eq!(setup.silent(&[], 1), 3);
    assert_eq!(setup.silent(&[0; 20], 21), 3);
    assert_eq!(setup.silent(&[0; 20], u64::MAX), 3);
    assert_eq!(setup.silent(&[0; 20], 1 << 32), 3);
    assert_eq!(
        setup.call_at(&[0; 20], 20),
        reader::Answer { kind: 0, refusal: 0, next: 20, next_place: 0, written: 0 }
    );
    assert_eq!(setup.silent(&[0; 20], 5), 3);
    assert_eq!(setup.silent(&[0; 20], 4), 4);
    assert_eq!(setup.call_at(&vec![0; 32_768], 32_768).kind, reader::END);
}

#[test]
fn message_length_is_16_to_what_is_left() {
    let mut setup = Setup::document();
    let mut datagram = message_of(25, REQUEST, &[0; 8]);
    for (length, number) in [(0, 4), (15, 4), (16, 6), (24, 7), (25, 4), (u32::MAX, 4)] {
        datagram[..4].copy_from_slice(&length.to_le_bytes());
        assert_eq!(setup.call(&datagram).refusal, number, "{length}");
    }
}

#[test]
fn skipping_goes_after_4_and_before_5_and_6() {
    let mut setup = Setup::document();
    for (kind, flags) in [(15, REQUEST), (0, REQUEST), (25, 0), (26, 0xFFFE)] {
        let answer = setup.call(&message_of(kind, flags, &[7]));
        assert_eq!(answer, reader::Answer { kind: reader::SKIPPED, refusal: 0, next: 17, next_place: 0, written: 0 });
        let mut cut = message_of(kind, flags, &[]);
        cut[0] = 15;
        assert_eq!(setup.call(&cut).refusal, 4);
    }
    assert_eq!(setup.call(&message_of(16, REQUEST, &[7])).refusal, 5);
    assert_eq!(setup.call(&message_of(25, REQUEST, &[7])).refusal, 6);
}

#[test]
fn step_rounds_the_length_and_not_the_place_and_stops_at_the_end() {
    let mut setup = Setup::document();
    let message = message_of(26, REQUEST, &[0]);
    let datagram = [vec![0xEE; 3], message.clone(), vec![0; 8]].concat();
    let answer = setup.call_at(&datagram, 3);
    assert_eq!((answer.refusal, answer.next), (5, 23));
    for after in 0..4 {
        let datagram = [vec![0xEE; 3], message.clone(), vec![0; after]].concat();
        assert_eq!(setup.call_at(&datagram, 3).next, (20 + after as u64).min(23));
    }
}

#[test]
fn program_goes_on_after_refusals_and_stops_at_3_and_4() {
    let get = message(PRIVFLAGS_GET, REQUEST, &[by_index(3)]);
    let one = reader::run(&get);
    let skipped = message_of(2, REQUEST, &[]);
    let refused = message_of(26, REQUEST, &[]);
    let error = reader::run(&refused);
    assert_eq!((one.len(), error.len()), (84, 36));
    let both = reader::run(&[refused.clone(), skipped.clone(), get.clone()].concat());
    assert_eq!(both, [error.clone(), one.clone()].concat());
    assert_eq!(reader::run(&[get.clone(), vec![1; 15]].concat()), one);
    assert_eq!(reader::run(&[get.clone(), vec![0; 16], get.clone()].concat()), one);
    assert_eq!(reader::run(&[]), []);
}

#[test]
fn program_writes_nothing_for_more_than_32768_bytes() {
    let get = message(PRIVFLAGS_GET, REQUEST, &[by_index(3)]);
    let mut datagram = get.repeat(40);
    datagram.resize(32_769, 0);
    assert_eq!(reader::run(&datagram), []);
    datagram.pop();
    assert_eq!(reader::run(&datagram).len(), 40 * 84);
}

#[test]
fn program_keeps_its_settings_from_message_to_message() {
    let list = nest(2, &[nest(BITS, &[bit_called(b"lldp\0", true), bit_at(0, false)])]);
    let set = message(PRIVFLAGS_SET, REQUEST, &[nest(1, &[attribute(2, b"sw0\0")]), list]);
    let get = message(PRIVFLAGS_GET, REQUEST, &[nest(1, &[number(1, 3), number(3, 1)])]);
    let reply = reader::run(&[set, get].concat());
    assert_eq!(reply[60..], hex("08 00 00 00 02 00 00 00"));
}
