//! The documents use no word that only somebody who was there could know.

use docs::tree;

const LACKING: [&str; 7] =
    ["the paper", "this paper", "source document", "document 001", "12 minutes", "our other family", "later request"];

#[test]
fn no_word_that_a_stranger_lacks() {
    let mut wrong = Vec::new();
    for (page, text) in tree::documents() {
        for (at, line) in text.lines().enumerate() {
            let plain = line.to_lowercase();
            wrong.extend(
                LACKING
                    .iter()
                    .filter(|word| plain.contains(**word))
                    .map(|word| format!("{page}:{}: \"{word}\"", at + 1)),
            );
        }
    }
    assert!(wrong.is_empty(), "{}", wrong.join("\n"));
}

#[test]
fn every_page_leads_to_the_protocol() {
    for page in
        ["README.md", "docs/PROMISES.md", "docs/DECISIONS.md", "docs/PLAN.md", "docs/READING.md", "docs/NETLINK.md"]
    {
        assert!(tree::read(page).contains("PROTOCOL.md"), "{page} does not lead to docs/PROTOCOL.md");
    }
}

/// The files of definitions that a page names: `crate` File, File .., in a sentence or in a row of a table.
fn named(page: &str) -> Vec<(String, String)> {
    let mut found = Vec::new();
    let mut holder = String::new();
    for piece in page.replace("` | ", "` ").split('`') {
        if tree::root().join(format!("crates/{piece}/specs")).exists() {
            holder = piece.to_string();
        } else {
            let words = piece.split(|c: char| !c.is_alphanumeric()).filter(|word| word.starts_with(char::is_uppercase));
            found.extend(words.map(|word| (holder.clone(), word.to_string())));
        }
    }
    found
}

#[test]
fn every_file_of_definitions_has_its_place_in_the_reading_order() {
    let named = named(&tree::read("docs/READING.md"));
    let mut missing = Vec::new();
    for path in
        tree::files("crates").iter().filter(|path| path.parent().is_some_and(|folder| folder.ends_with("specs")))
    {
        let file = path.file_stem().expect("a file's name").to_string_lossy().into_owned();
        let inside = path.strip_prefix(tree::root().join("crates")).expect("a file of a crate");
        let holder = inside.iter().next().expect("a crate").to_string_lossy().into_owned();
        let theorems = holder == "demands" && file != "CallCase";
        if file != "Lib" && !theorems && !named.contains(&(holder.clone(), file.clone())) {
            missing.push(format!("{holder} {file}"));
        }
    }
    assert!(missing.is_empty(), "not in docs/READING.md: {}", missing.join(", "));
}
