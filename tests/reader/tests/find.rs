//! The search for a bit name by hand (request C-14): the bit told, and how many entries were compared further than in
//! length and last byte.

mod common;
use common::names;
use reader::{find, NOT_FOUND};

/// A list of these names, in order.
fn list(held: &[&[u8]]) -> Vec<u8> {
    let at: Vec<_> = held.iter().copied().enumerate().collect();
    names(held.len(), &at)
}

/// What is told of a name in a list of these names.
fn told(held: &[&[u8]], name: &[u8]) -> (u32, u64) {
    let (number, found, compared) = find(&list(held), name);
    assert_eq!(number, 0, "{held:?}");
    (found, compared)
}

/// What is told of the name "lldp" in a list that is refused.
fn refused(names: &[u8]) {
    assert_eq!(find(names, b"lldp"), (1, 0, 0));
}

#[test]
fn the_hit_is_counted() {
    assert_eq!(told(&[b"lldp"], b"lldp"), (0, 1));
    assert_eq!(told(&[b"a"], b"a"), (0, 1));
    assert_eq!(told(&[b"", b"eee", b"lldp"], b"lldp"), (2, 1));
}

#[test]
fn entries_before_the_hit_that_agree_are_counted() {
    assert_eq!(told(&[b"port-1", b"trunk1", b"gate-1"], b"gate-1"), (2, 3));
    assert_eq!(told(&[b"port-1", b"port-2", b"gate-1"], b"gate-1"), (2, 2));
}

#[test]
fn entries_behind_the_hit_are_not_counted() {
    assert_eq!(told(&[b"port-1", b"trunk1", b"gate-1"], b"port-1"), (0, 1));
    assert_eq!(told(&[b"port-1", b"trunk1", b"gate-1"], b"trunk1"), (1, 2));
}

#[test]
fn length_alone_is_not_counted() {
    assert_eq!(told(&[b"lldq", b"lldp"], b"lldp"), (1, 1));
    assert_eq!(told(&[b"lldq", b"lldr"], b"lldp"), (NOT_FOUND, 0));
}

#[test]
fn last_byte_alone_is_not_counted() {
    assert_eq!(told(&[b"p", b"ldp", b"llldp", b"lldp"], b"lldp"), (3, 1));
    assert_eq!(told(&[b"p", b"ldp", b"llldp"], b"lldp"), (NOT_FOUND, 0));
}

#[test]
fn the_first_byte_means_nothing() {
    assert_eq!(told(&[b"abcz", b"xbcd"], b"abcd"), (NOT_FOUND, 1));
}

#[test]
fn an_unknown_name_is_compared_with_all_that_agree() {
    assert_eq!(told(&[b"port-1", b"eee", b"trunk1", b"", b"port-2", b"gate-1"], b"mast-1"), (NOT_FOUND, 3));
    assert_eq!(told(&[b"eee", b"lldp"], b"mast-1"), (NOT_FOUND, 0));
}

#[test]
fn an_empty_name_is_compared_with_nothing() {
    assert_eq!(told(&[b""], b""), (NOT_FOUND, 0));
    assert_eq!(told(&[b"", b"lldp", b""], b""), (NOT_FOUND, 0));
}

#[test]
fn empty_entries_are_never_counted() {
    assert_eq!(told(&[b"", b"", b"a"], b"a"), (2, 1));
    assert_eq!(told(&[b"", b""], b"a"), (NOT_FOUND, 0));
    assert_eq!(told(&[b"", b""], b"\0"), (NOT_FOUND, 0));
}

#[test]
fn a_name_may_have_31_bytes() {
    let (one, other) = ([b'n'; 31], [&[b'm'; 30][..], b"n"].concat());
    assert_eq!(told(&[&other, &one], &one), (1, 2));
    assert_eq!(told(&[&other, &one], &other), (0, 1));
    assert_eq!(told(&[&other], &one), (NOT_FOUND, 1));
}

#[test]
fn longer_names_are_compared_with_nothing() {
    for length in [32, 33, 63, 64, 31 + 256, 1000] {
        assert_eq!(told(&[&[b'n'; 31], b"n"], &vec![b'n'; length]), (NOT_FOUND, 0), "{length}");
    }
}

#[test]
fn a_name_that_begins_with_a_nul_is_empty() {
    for name in [&b"\0"[..], b"\0\0\0\0", b"\0ldp", b"\0p"] {
        assert_eq!(told(&[b"lldp", b"", b"ap", b"p"], name), (NOT_FOUND, 0), "{name:?}");
    }
}

#[test]
fn a_name_that_ends_in_a_nul_agrees_with_nothing() {
    for name in [&b"lldp\0"[..], b"lld\0", b"lldp\0\0\0\0"] {
        assert_eq!(told(&[b"lld", b"lldp", b"lldpd", b""], name), (NOT_FOUND, 0), "{name:?}");
    }
    assert_eq!(told(&[b"lldp"], &names(1, &[(0, b"lldp")])), (NOT_FOUND, 0));
}

#[test]
fn a_nul_in_between_is_compared_and_not_found() {
    assert_eq!(told(&[b"lldp", b"l", b"trip", b"eee"], b"l\0dp"), (NOT_FOUND, 2));
    assert_eq!(told(&[b"lldp", b"lld"], b"lld\0p"), (NOT_FOUND, 0));
}

#[test]
fn bytes_are_compared_as_they_are() {
    assert_eq!(told(&[b"\x80\xff", b"\x00"], b"\x80\xff"), (0, 1));
    assert_eq!(told(&[b"\x80\x7f", b"\x01\xff"], b"\x80\xff"), (NOT_FOUND, 1));
    assert_eq!(told(&[b"LLDP"], b"lldp"), (NOT_FOUND, 0));
}

#[test]
fn a_list_may_have_512_entries() {
    let held: Vec<_> = (0..512).map(|bit| format!("n{bit:03}x").into_bytes()).collect();
    let held: Vec<_> = held.iter().map(Vec::as_slice).collect();
    assert_eq!(told(&held, b"n000x"), (0, 1));
    assert_eq!(told(&held, b"n511x"), (511, 512));
    assert_eq!(told(&held, b"n512x"), (NOT_FOUND, 512));
}

#[test]
fn a_list_without_whole_entries_is_refused() {
    refused(&[]);
    let right = list(&[b"lldp", b"eee"]);
    for length in [1, 31, 33, 63] {
        refused(&right[..length]);
    }
    refused(&[right, vec![0]].concat());
}

#[test]
fn a_list_of_513_entries_is_refused() {
    refused(&names(513, &[(0, b"lldp")]));
    refused(&names(1024, &[]));
}

#[test]
fn a_list_with_an_entry_that_is_no_name_is_refused() {
    for (place, byte) in [(31, b'x'), (5, b'x'), (16, 1), (32 + 31, b'x'), (32 + 9, 1)] {
        let mut broken = list(&[b"lldp", b"eee"]);
        broken[place] = byte;
        refused(&broken);
    }
    refused(&[b'x'; 32]);
}

#[test]
fn a_list_with_a_name_twice_is_refused() {
    refused(&list(&[b"lldp", b"eee", b"eee"]));
    refused(&list(&[b"lldp", b"lldp"]));
}
