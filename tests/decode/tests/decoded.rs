//! What the decoder prints, and that it prints something for any bytes.

use decode::decode;

fn bytes(hex: &str) -> Vec<u8> {
    hex.split_whitespace().map(|byte| u8::from_str_radix(byte, 16).unwrap()).collect()
}

const REPLY: &str = "44 00 00 00 19 00 00 00 07 00 00 00 09 00 00 00 0E 01 00 00 14 00 01 80 08 00 01 00 03 00 00 00 \
    08 00 02 00 73 77 30 00 1C 00 02 80 04 00 01 00 08 00 02 00 28 00 00 00 0C 00 04 00 01 00 00 00 02 00 00 00";

#[test]
fn reply_is_a_tree_with_names() {
    let expected = "\
message at 0: length 68, type 25, flags 0x0000, sequence 7, port id 9
  command 14 PRIVFLAGS_GET_REPLY, version 1
  @20 1 HEADER, nest of 16 bytes
    @24 1 INDEX: 3
    @32 2 NAME: \"sw0\"
  @40 2 BITSET, nest of 24 bytes
    @44 1 NOMASK: flag
    @48 2 SIZE: 40
    @56 4 VALUE: 00000001 00000002
";
    assert_eq!(decode(&bytes(REPLY), Some(25)), expected);
}

#[test]
fn plain_reply_has_types_and_bytes() {
    let expected = "\
message at 0: length 68, type 25, flags 0x0000, sequence 7, port id 9
  command 14, version 1
  @20 1, nest of 16 bytes
    @24 1: 03 00 00 00
    @32 2: 73 77 30 00
  @40 2, nest of 24 bytes
    @44 1: empty
    @48 2: 28 00 00 00
    @56 4: 01 00 00 00 02 00 00 00
";
    assert_eq!(decode(&bytes(REPLY), None), expected);
    assert_eq!(decode(&bytes(REPLY), Some(26)), expected);
}

#[test]
fn error_message_tells_errno_and_attributes() {
    let error = "34 00 00 00 02 00 00 03 07 00 00 00 09 00 00 00 EA FF FF FF \
        30 00 00 00 19 00 01 00 07 00 00 00 09 00 00 00 08 00 05 00 05 00 00 00 08 00 06 00 20 00 00 00";
    let expected = "\
message at 0: length 52, type 2, flags 0x0300, sequence 7, port id 9
  error -22 EINVAL
  about: length 48, type 25, flags 0x0001, sequence 7, port id 9
  @36 5 MISS_TYPE: 5
  @44 6 MISS_NEST: 32
";
    assert_eq!(decode(&bytes(error), Some(25)), expected);
}

#[test]
fn name_lists_and_the_request_for_them_have_names() {
    let messages = "\
        2C 00 00 00 19 00 01 00 07 00 00 00 09 00 00 00 01 01 00 00 04 00 01 80 \
        10 00 02 80 0C 00 01 80 08 00 01 00 0A 00 00 00 04 00 03 00 \
        44 00 00 00 19 00 00 00 07 00 00 00 09 00 00 00 01 01 00 00 30 00 02 80 2C 00 01 80 08 00 01 00 0A 00 00 00 \
        08 00 02 00 01 00 00 00 18 00 03 80 14 00 01 80 08 00 01 00 00 00 00 00 05 00 02 00 00 00 00 00 \
        24 00 00 00 02 00 00 01 07 00 00 00 09 00 00 00 A6 FF FF FF 2C 00 00 00 19 00 01 00 07 00 00 00 09 00 00 00";
    let expected = "\
message at 0: length 44, type 25, flags 0x0001, sequence 7, port id 9
  command 1 STRSET_GET, version 1
  @20 1 HEADER, nest of 0 bytes
  @24 2 STRINGSETS, nest of 12 bytes
    @28 1 STRINGSET, nest of 8 bytes
      @32 1 ID: 10
  @40 3 COUNTS_ONLY: flag
message at 44: length 68, type 25, flags 0x0000, sequence 7, port id 9
  command 1 STRSET_GET_REPLY, version 1
  @20 2 STRINGSETS, nest of 44 bytes
    @24 1 STRINGSET, nest of 40 bytes
      @28 1 ID: 10
      @36 2 COUNT: 1
      @44 3 STRINGS, nest of 20 bytes
        @48 1 STRING, nest of 16 bytes
          @52 1 INDEX: 0
          @60 2 VALUE: \"\"
message at 112: length 36, type 2, flags 0x0100, sequence 7, port id 9
  error -90 EMSGSIZE
  about: length 44, type 25, flags 0x0001, sequence 7, port id 9
";
    assert_eq!(decode(&bytes(messages), Some(25)), expected);
}

#[test]
fn dump_is_told_and_done_ends_it() {
    let messages = "\
        18 00 00 00 19 00 05 03 07 00 00 00 09 00 00 00 0D 01 00 00 04 00 01 80 \
        14 00 00 00 19 00 02 00 07 00 00 00 09 00 00 00 0E 01 00 00 \
        14 00 00 00 03 00 02 00 07 00 00 00 09 00 00 00 00 00 00 00 \
        10 00 00 00 03 00 00 00 07 00 00 00 09 00 00 00";
    let expected = "\
message at 0: length 24, type 25, flags 0x0305 DUMP, sequence 7, port id 9
  command 13 PRIVFLAGS_GET, version 1
  @20 1 HEADER, nest of 0 bytes
message at 24: length 20, type 25, flags 0x0002 MULTI, sequence 7, port id 9
  command 14 PRIVFLAGS_GET_REPLY, version 1
message at 44: length 20, type 3, flags 0x0002 MULTI, sequence 7, port id 9
  DONE 0
message at 64: length 16, type 3, flags 0x0000, sequence 7, port id 9
";
    assert_eq!(decode(&bytes(messages), Some(25)), expected);
}

#[test]
fn bad_lengths_and_stray_bytes_are_shown() {
    let mut datagram = bytes(REPLY);
    datagram[22] = 0xFF;
    assert!(decode(&datagram, Some(25)).contains("@20 255, nest"));
    datagram[20] = 3;
    assert!(decode(&datagram, Some(25)).contains("@20 bad length 3 of 48 left"));
    assert!(decode(&datagram[..67], Some(25)).contains("bad length 68, 67 bytes left"));
    assert!(decode(&datagram[..15], Some(25)).starts_with("15 bytes left at 0"));
    assert_eq!(decode(&[], Some(25)), "");
}

#[test]
fn bytes_of_any_kind_are_printed() {
    let mut state = 1u64;
    let mut next = || {
        state = state.wrapping_mul(6_364_136_223_846_793_005).wrapping_add(1_442_695_040_888_963_407);
        (state >> 33) as usize
    };
    for _ in 0..20_000 {
        let mut datagram = bytes(REPLY).repeat(2);
        for _ in 0..next() % 6 {
            let place = next() % datagram.len();
            datagram[place] = next() as u8;
        }
        datagram.truncate(next() % (datagram.len() + 1));
        for family in [Some(25), None] {
            assert_eq!(decode(&datagram, family).is_empty(), datagram.is_empty());
        }
    }
}

#[test]
fn nests_as_deep_as_they_can_be_are_printed() {
    let mut datagram = bytes("F0 FF 00 00 19 00 01 00 00 00 00 00 00 00 00 00 07 01 00 00");
    for depth in 0..16_370u32 {
        datagram.extend(((65_480 - 4 * depth) as u16).to_le_bytes());
        datagram.extend([1, 0x80]);
    }
    datagram.resize(0xFFF0, 0);
    assert!(decode(&datagram, Some(25)).len() > 100);
}
