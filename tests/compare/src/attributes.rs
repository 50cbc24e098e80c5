//! Attributes read once more, apart from the reader.

/// Type, bits aside, and payload of each attribute of a parent that was walked without a fault.
pub fn attributes(mut bytes: &[u8]) -> Vec<(u16, &[u8])> {
    let mut found = Vec::new();
    while let [low, high, kind, bits, ..] = *bytes {
        let length = usize::from(u16::from_le_bytes([low, high]));
        found.push((u16::from_le_bytes([kind, bits & 0x3F]), &bytes[4..length]));
        bytes = &bytes[length.next_multiple_of(4).min(bytes.len())..];
    }
    found
}

/// The payload of the last attribute of a type.
pub fn last<'a>(found: &[(u16, &'a [u8])], kind: u16) -> Option<&'a [u8]> {
    found.iter().rev().find(|(other, _)| *other == kind).map(|(_, payload)| *payload)
}
