//! Names in lists and payloads against the rules written out byte by byte.

mod common;
use common::*;

/// A small generator of numbers.
struct Numbers(u64);

impl Numbers {
    fn below(&mut self, bound: usize) -> usize {
        self.0 = self.0.wrapping_mul(6_364_136_223_846_793_005).wrapping_add(1_442_695_040_888_963_407);
        (self.0 >> 33) as usize % bound
    }

    /// Bytes of which some are NUL, and some have only their highest bit.
    fn bytes(&mut self, length: usize) -> Vec<u8> {
        let alphabet = [0, 1, 0x7F, 0x80, 0x81, 0xFF, b'a', b'a', b'a'];
        (0..length).map(|_| alphabet[self.below(alphabet.len())]).collect()
    }

    /// Mostly a run of bytes that aren't NUL and then NULs.
    fn block(&mut self, length: usize) -> Vec<u8> {
        let mut bytes: Vec<u8> = self.bytes(length).iter().map(|byte| (*byte).max(1)).collect();
        let end = self.below(length + 1);
        bytes[end..].fill(0);
        if self.below(4) == 0 {
            let place = self.below(length);
            bytes[place] = self.below(2) as u8;
        }
        bytes
    }
}

/// So many bytes that aren't NUL, or none, then NULs only, of which there is one at least.
fn is_entry(bytes: &[u8]) -> bool {
    let length = bytes.iter().take_while(|byte| **byte != 0).count();
    length < bytes.len() && bytes[length..].iter().all(|byte| *byte == 0)
}

#[test]
fn lists_are_right_exactly_when_their_entries_are_and_no_name_is_repeated() {
    let mut numbers = Numbers(1);
    let mut right = 0;
    for _ in 0..50_000 {
        let mut entries: Vec<Vec<u8>> = (0..1 + numbers.below(3)).map(|_| numbers.block(32)).collect();
        if numbers.below(4) == 0 {
            entries.push(entries[0].clone());
        }
        let distinct =
            (0..entries.len()).all(|one| (0..one).all(|two| entries[one][0] == 0 || entries[one] != entries[two]));
        let expected = entries.iter().all(|entry| is_entry(entry)) && distinct;
        let (number, _) = reader::normalise(&nest(BITS, &[]), &entries.concat(), &mut [0; 144]);
        assert_eq!(number == 1, !expected, "{entries:x?}");
        right += u32::from(expected);
    }
    assert!((5_000..45_000).contains(&right));
}

#[test]
fn port_names_are_right_exactly_when_their_bytes_are() {
    let mut numbers = Numbers(2);
    for _ in 0..50_000 {
        let name = numbers.block(16);
        let mut setup = Setup::document();
        setup.page = Vec::new();
        setup.roll = [vec![1, 3, 0, 0, 0], name.clone()].concat();
        let expected = if is_entry(&name) && name[0] != 0 { 2 } else { 1 };
        assert_eq!(setup.call(&[]).refusal, expected, "{name:x?}");
    }
}

#[test]
fn name_payloads_end_in_their_only_nul_and_match_the_equal_entry() {
    let mut numbers = Numbers(3);
    let mut counts = [0; 3];
    for _ in 0..50_000 {
        let length = numbers.below(36);
        let mut payload = numbers.block(length + 1);
        payload.truncate(if numbers.below(2) == 0 { length } else { payload.len() });
        let mut entry = numbers.block(32);
        entry[31] = 0;
        if numbers.below(2) == 0 {
            let text = payload.split(|byte| *byte == 0).next().unwrap_or(&[]);
            entry = [text, &[0; 32]].concat()[..32].to_vec();
        }
        if !is_entry(&entry) {
            continue;
        }
        let after = vec![attribute(3, &[]); numbers.below(9)].concat();
        let contents = nest(BITS, &[bit(&[unpadded_if_last(&payload, after.is_empty()), after])]);
        let fits =
            (1..=32).contains(&payload.len()) && payload.iter().position(|byte| *byte == 0) == Some(payload.len() - 1);
        let equal = fits && payload.len() > 1 && [payload.clone(), vec![0; 32]].concat()[..32] == entry;
        let expected = if !fits {
            12
        } else if equal {
            0
        } else {
            21
        };
        let (number, _) = reader::normalise(&contents, &entry, &mut [0; 144]);
        assert_eq!(number, expected, "{payload:x?} {entry:x?}");
        counts[usize::from(fits) + usize::from(equal)] += 1;
    }
    assert!(counts.iter().all(|count| *count > 1_000), "{counts:?}");
}

/// A NAME, without padding where nothing follows.
fn unpadded_if_last(payload: &[u8], last: bool) -> Vec<u8> {
    if last {
        unpadded(2, payload)
    } else {
        attribute(2, payload)
    }
}
