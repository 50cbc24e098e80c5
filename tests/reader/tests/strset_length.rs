//! Refusal 25 of STRSET_GET (request C-13): the longest reply has 32,768 bytes, its ACK counted.

mod common;
use common::strset::*;
use common::*;

/// Flags of 512 names of 28 letters, so many message classes, of which the first so many have names of four letters:
/// for port 3 "sw0" and both ids the reply has 92 + 512 * 48 + 20 * classes + 4 * named bytes.
fn long(classes: usize, named: usize) -> Setup {
    let mut setup = lists();
    setup.roll = port(3, b"sw0");
    setup.flag_names = (0..512).flat_map(|bit| names(1, &[(0, format!("{bit:028}").as_bytes())])).collect();
    let called = |bit| if bit < named { format!("{bit:04}") } else { String::new() };
    setup.debug_names = (0..classes).flat_map(|bit| names(1, &[(0, called(bit).as_bytes())])).collect();
    setup.settings = vec![0; 4 * (16 + classes.div_ceil(32))];
    setup
}

/// A request about port 3 with these message flags, ids and further attributes.
fn asked(flags: u16, listed: &[u32], more: &[Vec<u8>]) -> Vec<u8> {
    message(STRSET_GET, REQUEST | flags, &[by_index(3), ids(listed), more.concat()])
}

/// The bytes written for both sets in either order, the ids repeated too; the refusal number where it is refused.
fn written(setup: &mut Setup, flags: u16) -> Result<usize, u32> {
    let lists: [&[u32]; 3] = [&[2, 10], &[10, 2], &[2, 10, 10, 2, 2]];
    let [one, other, repeated] = lists.map(|listed| match answered(setup, &asked(flags, listed, &[])) {
        (0, reply) => Ok(reply.len()),
        (refusal, _) => Err(refusal),
    });
    assert!(one == other && other == repeated);
    one
}

#[test]
fn longest_reply_without_an_ack_has_32_768_bytes() {
    assert_eq!(written(&mut long(405, 0), 0), Ok(32_768));
    assert_eq!(written(&mut long(404, 5), 0), Ok(32_768));
    assert_eq!(written(&mut long(405, 1), 0), Err(25));
    assert_eq!(written(&mut long(406, 0), 0), Err(25));
    assert_eq!(written(&mut long(404, 4), 0), Ok(32_764));
}

#[test]
fn longest_reply_with_its_ack_has_32_732_bytes_before_it() {
    assert_eq!(written(&mut long(403, 1), ACK), Ok(32_768));
    assert_eq!(written(&mut long(403, 0), ACK), Ok(32_764));
    assert_eq!(written(&mut long(403, 2), ACK), Err(25));
    assert_eq!(written(&mut long(403, 2), 0), Ok(32_736));
    assert_eq!(written(&mut long(405, 0), ACK), Err(25));
}

#[test]
fn longest_reply_is_whole() {
    let (refusal, reply) = answered(&mut long(403, 1), &asked(ACK, &[2, 10], &[]));
    assert_eq!((refusal, reply.len()), (0, 32_768));
    let head = "DC 7F 00 00 19 00 00 00 07 00 00 00 09 00 00 00 01 01 00 00 \
        14 00 01 80 08 00 01 00 03 00 00 00 08 00 02 00 73 77 30 00 \
        B4 7F 02 80 18 60 01 80 08 00 01 00 02 00 00 00 08 00 02 00 00 02 00 00 04 60 03 80";
    assert_eq!(reply[..68], hex(head));
    let classes = "98 1F 01 80 08 00 01 00 0A 00 00 00 08 00 02 00 93 01 00 00 84 1F 03 80 \
        18 00 01 80 08 00 01 00 00 00 00 00 09 00 02 00 30 30 30 30 00 00 00 00 \
        14 00 01 80 08 00 01 00 01 00 00 00 05 00 02 00 00 00 00 00";
    assert_eq!(reply[24_644..24_712], hex(classes));
    let end = "14 00 01 80 08 00 01 00 92 01 00 00 05 00 02 00 00 00 00 00 \
        24 00 00 00 02 00 00 01 07 00 00 00 09 00 00 00 00 00 00 00 3C 00 00 00 19 00 05 00 07 00 00 00 09 00 00 00";
    assert_eq!(reply[32_712..], hex(end));
}

#[test]
fn refusal_25_has_errno_90_and_no_detail() {
    let without = "24 00 00 00 02 00 00 01 07 00 00 00 09 00 00 00 A6 FF FF FF \
        3C 00 00 00 19 00 01 00 07 00 00 00 09 00 00 00";
    assert_eq!(answered(&mut long(405, 1), &asked(0, &[10, 2], &[])), (25, hex(without)));
    let with_ack = "24 00 00 00 02 00 00 01 07 00 00 00 09 00 00 00 A6 FF FF FF \
        3C 00 00 00 19 00 05 00 07 00 00 00 09 00 00 00";
    assert_eq!(answered(&mut long(403, 2), &asked(ACK, &[2, 10], &[])), (25, hex(with_ack)));
}

#[test]
fn longer_page_lengthens_no_reply() {
    for (classes, named, flags, expected) in [(405, 1, 0, Err(25)), (403, 2, ACK, Err(25)), (405, 0, 0, Ok(32_768))] {
        let mut setup = long(classes, named);
        setup.page = vec![0; 70_000];
        assert_eq!(written(&mut setup, flags), expected);
    }
}

#[test]
fn longest_lists_are_25_together_and_done_alone() {
    let mut setup = long(512, 0);
    setup.debug_names = (0..512).flat_map(|bit| names(1, &[(0, format!("{bit:031}").as_bytes())])).collect();
    assert_eq!(written(&mut setup, 0), Err(25));
    assert_eq!(answered(&mut setup, &asked(0, &[2], &[])).1.len(), 24_644);
    assert_eq!(answered(&mut setup, &asked(ACK, &[10], &[])).1.len(), 24_680);
    assert_eq!(answered(&mut setup, &request(&[no_port()])).1.len(), 24_624);
    assert_eq!(answered(&mut setup, &request(&[by_index(3)])).1.len(), 24_644);
    let (refusal, reply) = answered(&mut setup, &asked(ACK, &[2, 10], &[counts_only()]));
    assert_eq!((refusal, reply.len()), (0, 120));
}

#[test]
fn longer_port_name_lengthens_the_reply() {
    let mut setup = long(405, 0);
    setup.roll = port(3, b"swt");
    assert_eq!(written(&mut setup, 0), Ok(32_768));
    setup.roll = port(3, b"swt0");
    assert_eq!(written(&mut setup, 0), Err(25));
}

#[test]
fn every_fault_of_the_list_goes_before_25() {
    let setup = &mut long(512, 512);
    assert_eq!(answered(setup, &asked(0, &[2, 10], &[])).0, 25);
    assert_eq!(answered(setup, &asked(0, &[2, 10, 77], &[])).0, 24);
    assert_eq!(answered(setup, &asked(0, &[2, 10], &[vec![0]])).0, 10);
    let missing = request(&[by_index(3), list(&[set(2), set(10), nest(1, &[])])]);
    assert_eq!(answered(setup, &missing).0, 13);
    let cut = request(&[by_index(3), list(&[set(2), set(10), nest(1, &[vec![0]])])]);
    assert_eq!(answered(setup, &cut).0, 10);
    assert_eq!(answered(setup, &message(STRSET_GET, REQUEST | 0x300, &[by_index(3), ids(&[2, 10])])).0, 8);
    assert_eq!(answered(setup, &request(&[by_index(4), ids(&[2, 10])])).0, 16);
    assert_eq!(answered(setup, &request(&[no_port(), ids(&[10, 2])])).0, 24);
}
