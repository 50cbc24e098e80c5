//! Names as fixed blocks of 64-bit words: bytes that aren't NUL, then NULs only.

/// Payload bytes of a port name, NUL included, and its words.
pub const PORT_NAME: usize = 16;
pub const PORT_WORDS: usize = PORT_NAME / 8;
/// Payload bytes of a bit name, NUL included, and its words.
pub const BIT_NAME: usize = 32;
pub const BIT_WORDS: usize = BIT_NAME / 8;

/// A name padded with NULs, eight bytes a word, lowest first.
pub type Block<const WORDS: usize> = [u64; WORDS];

/// The highest bit of each byte of a word.
const HIGH: u64 = 0x8080_8080_8080_8080;

/// The first `8 * WORDS` bytes as words; bytes that are absent count as NUL.
#[inline]
pub fn block<const WORDS: usize>(bytes: &[u8]) -> Block<WORDS> {
    let mut words = [0; WORDS];
    for (word, chunk) in words.iter_mut().zip(bytes.as_chunks::<8>().0) {
        *word = u64::from_le_bytes(*chunk);
    }
    words
}

/// A payload of at most `8 * WORDS` bytes as a block; what stands after it in the message doesn't count.
#[inline]
pub fn block_at<const WORDS: usize>(message: &[u8], start: usize, length: usize) -> Block<WORDS> {
    if let Some(bytes) = message.get(start..start + 8 * WORDS) {
        let mut words = block(bytes);
        for (place, word) in words.iter_mut().enumerate() {
            *word &= low_bytes(length.saturating_sub(8 * place));
        }
        return words;
    }
    let mut padded = [0; BIT_NAME];
    padded[..length].copy_from_slice(&message[start..start + length]);
    block(&padded)
}

/// A word whose lowest so many bytes are full.
#[inline]
fn low_bytes(count: usize) -> u64 {
    match count {
        0..8 => (1 << (8 * count)) - 1,
        _ => u64::MAX,
    }
}

/// The highest bit of each byte that isn't NUL.
#[inline]
fn marks(word: u64) -> u64 {
    (((word & !HIGH) + !HIGH) | word) & HIGH
}

/// Whether a block is bytes that aren't NUL, or none, then at least one NUL and nothing else.
#[inline]
pub fn is_name<const WORDS: usize>(block: &Block<WORDS>) -> bool {
    let mut after_nul = 0;
    let mut before = 0x80;
    for word in block {
        let marks = marks(*word);
        after_nul |= marks & !(marks << 8 | before);
        before = marks >> 56;
    }
    after_nul == 0 && before == 0
}

/// How many bytes of a name aren't NUL.
#[inline]
pub fn length<const WORDS: usize>(name: &Block<WORDS>) -> usize {
    let count = |word: &u64| (marks(*word) >> 7).wrapping_mul(0x0101_0101_0101_0101) >> 56;
    name.iter().map(count).sum::<u64>() as usize
}

/// Whether two blocks are equal, told from their words in registers.
#[inline]
pub fn same<const WORDS: usize>(one: &Block<WORDS>, other: &Block<WORDS>) -> bool {
    one.iter().zip(other).fold(0, |differing, (one, other)| differing | (one ^ other)) == 0
}

/// Whether a name's payload ends in its only NUL and has 1 to `8 * WORDS` bytes ("Payloads").
#[inline]
pub fn is_payload<const WORDS: usize>(message: &[u8], start: usize, end: usize) -> bool {
    let one_nul = match &message[start..end] {
        [0] => true,
        [.., before, 0] => *before != 0,
        _ => false,
    };
    let length = end - start;
    one_nul && length <= 8 * WORDS && is_name::<WORDS>(&block_at(message, start, length))
}

/// A hash of the block; the highest bits are the best mixed.
#[inline]
pub fn hash<const WORDS: usize>(block: &Block<WORDS>) -> u64 {
    const FACTORS: [u64; 4] =
        [0x9E37_79B9_7F4A_7C15, 0xC2B2_AE3D_27D4_EB4F, 0xD6E8_FEB8_6659_FD93, 0xA076_1D64_78BD_642F];
    let products = block.iter().zip(FACTORS).map(|(word, factor)| word.wrapping_mul(factor));
    products.fold(0, u64::wrapping_add)
}
