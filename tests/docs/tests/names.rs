//! The documents name no file, definition, law or function that does not exist.

use docs::{names, tree};
use std::collections::HashSet;

fn none(wrong: &[String]) {
    assert!(wrong.is_empty(), "{}", wrong.join("\n"));
}

/// Every name that stands in a source, and the names of all files and folders.
fn known() -> HashSet<String> {
    let mut found = HashSet::new();
    for (path, text) in tree::sources() {
        found.extend(names::words(&text).map(str::to_string));
        let inside = path.strip_prefix(tree::root()).expect("a file of the repository").to_path_buf();
        for part in inside.iter().map(|part| part.to_string_lossy().into_owned()) {
            found.extend(part.split('.').map(str::to_string));
            found.insert(part);
        }
    }
    found.extend(names::words(&tree::read("crates.txt")).map(str::to_string));
    found.extend(names::words(&tree::read("Makefile")).map(str::to_string));
    found.extend(names::words(&tree::read("install.mk")).map(str::to_string));
    found
}

/// Whether a path names a file or folder: as it stands, in docs/, a crate's definitions or proofs without their ending, or a must-fail edit.
fn exists(path: &str) -> bool {
    let root = tree::root();
    let edit = path.split_once('/').map(|(crate_name, label)| format!("crates/{crate_name}/must-fail/{label}.edit"));
    let mut forms = vec![
        path.to_string(),
        format!("docs/{path}"),
        format!("crates/{path}"),
        format!("crates/{path}.antt"),
        format!("tests/{path}"),
    ];
    forms.extend(edit);
    forms.iter().any(|form| root.join(form).exists())
}

/// Paths of what is built, of other projects' headers, and with a word in capitals in a part's place are not looked for.
fn is_elsewhere(path: &str) -> bool {
    let placeholder = |part: &str| !part.is_empty() && part.chars().all(|c| c.is_ascii_uppercase()) && part != "README";
    path.starts_with("target/") || path.starts_with("linux/") || path.split(['/', '.']).any(placeholder)
}

#[test]
fn every_path_exists() {
    let mut wrong = Vec::new();
    for (page, text) in tree::documents() {
        for (line, piece) in names::quoted(&text) {
            if names::is_name(piece) && piece.contains('/') && !is_elsewhere(piece) && !exists(piece) {
                wrong.push(format!("{page}:{line}: no file {piece}"));
            }
        }
    }
    none(&wrong);
}

#[test]
fn every_name_stands_in_a_source() {
    let known = known();
    let mut wrong = Vec::new();
    for (page, text) in tree::documents() {
        for (line, piece) in names::quoted(&text) {
            if names::is_name(piece) && !piece.contains('/') {
                let all = names::words(piece).all(|word| known.contains(word));
                if !all && !known.contains(piece) {
                    wrong.push(format!("{page}:{line}: {piece} stands in no source"));
                }
            }
        }
    }
    none(&wrong);
}

/// The theorems that a page has in bold, without blanks or capitals: names of laws.
fn laws(text: &str) -> Vec<&str> {
    let plain =
        |piece: &&str| piece.contains(['-', '_']) && piece.chars().all(|c| c.is_ascii_lowercase() || "-_".contains(c));
    text.split("**").skip(1).step_by(2).filter(plain).collect()
}

#[test]
fn every_theorem_in_bold_is_stated() {
    let proofs: Vec<String> = tree::sources()
        .into_iter()
        .filter(|(path, _)| path.extension().is_some_and(|e| e == "antt"))
        .map(|(_, text)| text)
        .collect();
    let stated = |law: &str| {
        proofs.iter().any(|text| text.lines().any(|line| line.trim_start().starts_with(&format!("pub {law} :"))))
    };
    let mut wrong = Vec::new();
    for (page, text) in tree::documents() {
        wrong.extend(laws(&text).iter().filter(|law| !stated(law)).map(|law| format!("{page}: no law {law}")));
    }
    none(&wrong);
}

/// Where a piece of a table says which file holds names: `crate/proofs/File`: names, or `crate` File, File: names.
fn places(segment: &str) -> Option<(Vec<String>, &str)> {
    let (place, rest) = segment.split_once(": ")?;
    let pieces: Vec<&str> = place.split('`').collect();
    let [.., name, files] = &pieces[..] else { return None };
    if is_elsewhere(name) || name.ends_with('/') {
        return None;
    }
    if name.contains("/proofs/") && files.is_empty() {
        return Some((vec![format!("crates/{name}.antt")], rest));
    }
    let titled =
        |file: &str| file.chars().next().is_some_and(char::is_uppercase) && file.chars().all(char::is_alphanumeric);
    let files: Vec<&str> = files.trim().split(", ").collect();
    let is_place = files.iter().all(|file| titled(file)) && tree::root().join(format!("crates/{name}/specs")).exists();
    is_place.then(|| (files.iter().map(|file| format!("crates/{name}/specs/{file}.antt")).collect(), rest))
}

/// The name at the start of a piece, in backquotes or in bold.
fn marked(piece: &str) -> Option<&str> {
    let mark = if piece.starts_with('`') { "`" } else { "**" };
    piece.strip_prefix(mark).and_then(|rest| rest.split(mark).next())
}

/// The names of a list: one after the other, with commas between them.
fn listed(rest: &str) -> Vec<&str> {
    rest.split(", ").map_while(|piece| marked(piece.trim())).filter(|name| name.chars().all(names::in_name)).collect()
}

#[test]
fn names_stand_in_the_file_that_a_table_gives_for_them() {
    let mut held = 0;
    let mut wrong = Vec::new();
    for (page, text) in tree::documents() {
        for segment in text.split(['|', ';', '(', ')', '\n']) {
            let Some((files, rest)) = places(segment) else { continue };
            let texts: Vec<String> = files.iter().map(|file| tree::read(file)).collect();
            for name in listed(rest) {
                held += 1;
                if !texts.iter().any(|text| names::words(text).any(|word| word == name)) {
                    wrong.push(format!("{page}: {name} is not in {}", files.join(", ")));
                }
            }
        }
    }
    none(&wrong);
    assert!(held > 150, "only {held} names were held against a file");
}

#[test]
fn links_lead_to_files() {
    let mut wrong = Vec::new();
    for (page, text) in tree::documents() {
        let folder = page.rfind('/').map_or("", |end| &page[..=end]);
        let links = text.split("](").skip(1).filter_map(|rest| rest.split(')').next());
        let lost = links.filter(|link| !tree::root().join(format!("{folder}{link}")).exists());
        wrong.extend(lost.map(|link| format!("{page}: no file {link}")));
    }
    none(&wrong);
}
