//! The files of the repository.

use std::fs;
use std::path::{Path, PathBuf};

/// The folder that the repository stands in.
pub fn root() -> PathBuf {
    Path::new(env!("CARGO_MANIFEST_DIR")).join("../..").canonicalize().expect("the repository's folder")
}

pub fn read(path: &str) -> String {
    fs::read_to_string(root().join(path)).unwrap_or_else(|error| panic!("{path}: {error}"))
}

/// All files under a folder, what cargo and rt build left out.
pub fn files(folder: &str) -> Vec<PathBuf> {
    let mut found = Vec::new();
    let mut folders = vec![root().join(folder)];
    while let Some(next) = folders.pop() {
        for entry in fs::read_dir(&next).unwrap_or_else(|error| panic!("{}: {error}", next.display())) {
            let path = entry.expect("an entry of a folder").path();
            if path.is_file() {
                found.push(path);
            } else if path.is_dir() && !path.ends_with("target") && !path.ends_with("out") {
                folders.push(path);
            }
        }
    }
    found.sort();
    found
}

/// README.md and every page under docs/, by name; but for PORT.md and DESIGN-PASS.md, which have names and files of before beside those of today.
pub fn documents() -> Vec<(String, String)> {
    let mut pages = vec!["README.md".to_string()];
    let today = |path: &PathBuf| {
        path.extension().is_some_and(|found| found == "md")
            && !path.ends_with("docs/PORT.md")
            && !path.ends_with("docs/DESIGN-PASS.md")
    };
    for path in files("docs").into_iter().filter(today) {
        pages.push(path.strip_prefix(root()).expect("a file of the repository").to_string_lossy().into_owned());
    }
    pages.into_iter().map(|page| (page.clone(), read(&page))).collect()
}

/// The text of every file of the sources, the documents left out; the bytes of those that are no text are passed over.
pub fn sources() -> Vec<(PathBuf, String)> {
    let folders = ["crates", "tests", "include", "examples", "bench", "tools"];
    let own = Path::new(env!("CARGO_MANIFEST_DIR"));
    folders
        .iter()
        .flat_map(|folder| files(folder))
        .filter(|path| !path.starts_with(own.canonicalize().expect("this crate's folder")))
        .filter_map(|path| fs::read_to_string(&path).ok().map(|text| (path, text)))
        .collect()
}
