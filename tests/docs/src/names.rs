//! What a document has in backquotes.

/// Whether a character may stand in a name of the definitions, the code or a file.
pub fn in_name(c: char) -> bool {
    c.is_alphanumeric() || "_-".contains(c)
}

/// The names in a text, cut at every character that no name has.
pub fn words(text: &str) -> impl Iterator<Item = &str> {
    text.split(|c| !in_name(c)).filter(|word| !word.is_empty())
}

/// The pieces in single backquotes, blocks of code left out, each with the number of its line.
pub fn quoted(page: &str) -> Vec<(usize, &str)> {
    let mut found = Vec::new();
    let mut block = false;
    for (at, line) in page.lines().enumerate() {
        if line.starts_with("```") {
            block = !block;
        } else if !block && !line.starts_with("    ") {
            found.extend(line.split('`').skip(1).step_by(2).map(|piece| (at + 1, piece)));
        }
    }
    found
}

/// Whether a piece is one name, path or qualified name, and not a line of a shell, bytes or a signature.
pub fn is_name(piece: &str) -> bool {
    let plain = |c: char| in_name(c) || "./:·".contains(c);
    piece.chars().all(plain) && piece.contains(|c: char| c.is_alphabetic()) && !piece.starts_with('-')
}
