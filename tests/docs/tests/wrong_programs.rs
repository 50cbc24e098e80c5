//! docs/PROMISES.md lists the bends of tests/bent, all of them and no other, and names every must-fail edit with its crate.

use docs::{names, tree};
use std::collections::BTreeSet;

/// The names of the patches.
fn patches() -> BTreeSet<String> {
    let files =
        tree::files("tests/bent").into_iter().filter(|path| path.extension().is_some_and(|found| found == "patch"));
    files.map(|path| path.file_stem().expect("a name").to_string_lossy().into_owned()).collect()
}

#[test]
fn the_list_of_bends_is_that_of_the_folder() {
    let page = tree::read("docs/PROMISES.md");
    let (_, list) = page.split_once("`make bent`").expect("the list of bends");
    let (list, _) = list.split_once("\n\n").expect("its end");
    let listed = names::quoted(list).into_iter().map(|(_, name)| name.to_string()).collect::<BTreeSet<_>>();
    assert_eq!(listed, patches());
}

#[test]
fn every_must_fail_edit_is_named() {
    let page = tree::read("docs/PROMISES.md");
    let edits = tree::files("crates").into_iter().filter(|path| path.extension().is_some_and(|found| found == "edit"));
    let names = edits.map(|path| {
        let part =
            |steps| path.ancestors().nth(steps).and_then(|path| path.file_stem()).expect("a name").to_string_lossy();
        format!("`{}/{}`", part(2), part(0))
    });
    let missing: Vec<String> = names.filter(|name| !page.contains(name)).collect();
    assert!(missing.is_empty(), "{missing:?}");
}
