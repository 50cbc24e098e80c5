//! A payload as text.

use super::bytes_text;
use super::policy::Shape;

/// The payload in its shape, or as bytes where it hasn't got it.
pub fn text(payload: &[u8], shape: Shape) -> String {
    match shape {
        Shape::Number => number(payload).unwrap_or_else(|| odd(payload)),
        Shape::Flag if payload.is_empty() => "flag".to_string(),
        Shape::Flag => odd(payload),
        Shape::Name => name(payload).unwrap_or_else(|| odd(payload)),
        Shape::Words => words(payload),
        Shape::Unknown if payload.is_empty() => "empty".to_string(),
        Shape::Unknown => bytes_text(payload),
    }
}

/// Bytes that aren't what they should be.
fn odd(payload: &[u8]) -> String {
    format!("{} bytes: {}", payload.len(), bytes_text(payload)).trim_end().to_string()
}

fn number(payload: &[u8]) -> Option<String> {
    let four: [u8; 4] = payload.try_into().ok()?;
    Some(u32::from_le_bytes(four).to_string())
}

/// A name with its one NUL.
fn name(payload: &[u8]) -> Option<String> {
    let (last, name) = payload.split_last()?;
    let whole = *last == 0 && !name.contains(&0);
    whole.then(|| format!("\"{}\"", name.escape_ascii()))
}

/// Words of a bitmap, lowest first, and the bytes after them; long runs are cut.
fn words(payload: &[u8]) -> String {
    const SHOWN: usize = 16;
    let (words, rest) = payload.as_chunks::<4>();
    let mut parts: Vec<String> =
        words.iter().take(SHOWN).map(|word| format!("{:08x}", u32::from_le_bytes(*word))).collect();
    if words.len() > SHOWN {
        parts.push(format!("and {} words more", words.len() - SHOWN));
    }
    if !rest.is_empty() {
        parts.push(format!("and bytes {}", bytes_text(rest)));
    }
    match parts.is_empty() {
        true => "empty".to_string(),
        false => parts.join(" "),
    }
}
