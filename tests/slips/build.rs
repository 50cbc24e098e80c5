//! Makes one altered copy of the reader's source for each file in `edits/`.
//!
//! An edit file has a line `what:` and then, once or more, `file:`, `old:` and `new:`: the one line of the reader's
//! file that reads `old`, indentation aside, becomes `new`.

use std::path::{Path, PathBuf};
use std::{env, fs};

/// One altered reader.
struct Slip {
    name: String,
    what: String,
    edits: Vec<Edit>,
}

#[derive(Default)]
struct Edit {
    file: String,
    old: String,
    new: String,
}

fn main() {
    let here = PathBuf::from(env::var_os("CARGO_MANIFEST_DIR").expect("set by cargo"));
    let out = PathBuf::from(env::var_os("OUT_DIR").expect("set by cargo"));
    let source = here.join("../reader/src");
    println!("cargo:rerun-if-changed=edits");
    println!("cargo:rerun-if-changed=../reader/src");
    let mut slips: Vec<Slip> = files(&here.join("edits")).iter().map(|path| read(path)).collect();
    slips.sort_by(|one, other| one.name.cmp(&other.name));
    for slip in &slips {
        copy(&source, &out.join(&slip.name), slip);
    }
    fs::write(out.join("slips.rs"), module_list(&out, &slips)).expect("OUT_DIR can be written");
}

fn files(folder: &Path) -> Vec<PathBuf> {
    let entries = fs::read_dir(folder).expect("the folder is there");
    entries.map(|entry| entry.expect("the folder can be read").path()).collect()
}

/// Reads an edit file.
fn read(path: &Path) -> Slip {
    let name = path.file_stem().expect("a file has a name").to_string_lossy().into_owned();
    let text = fs::read_to_string(path).expect("an edit file is text");
    let mut slip = Slip { name, what: String::new(), edits: Vec::new() };
    for line in text.lines() {
        let (key, rest) = line.split_once(':').unwrap_or_else(|| panic!("{}: no key in `{line}`", slip.name));
        let rest = rest.trim().to_string();
        match (key, slip.edits.last_mut()) {
            ("what", _) => slip.what = rest,
            ("file", _) => slip.edits.push(Edit { file: rest, ..Edit::default() }),
            ("old", Some(edit)) => edit.old = rest,
            ("new", Some(edit)) => edit.new = rest,
            _ => panic!("{}: unknown key `{key}`", slip.name),
        }
    }
    assert!(!slip.edits.is_empty(), "{}: nothing is altered", slip.name);
    slip
}

/// Copies the reader's source, altered.
fn copy(source: &Path, target: &Path, slip: &Slip) {
    fs::create_dir_all(target).expect("OUT_DIR can be written");
    for path in files(source) {
        let file = path.file_name().expect("a file has a name").to_string_lossy().into_owned();
        let mut text = fs::read_to_string(&path).expect("the reader's source is text");
        for edit in slip.edits.iter().filter(|edit| edit.file == file) {
            text = alter(&text, edit, &slip.name);
        }
        fs::write(target.join(file), text).expect("OUT_DIR can be written");
    }
}

/// Puts the new line in the old one's place, which must be the only one.
fn alter(text: &str, edit: &Edit, name: &str) -> String {
    let count = text.lines().filter(|line| line.trim() == edit.old).count();
    assert_eq!(count, 1, "{name}: `{}` stands {count} times in {}", edit.old, edit.file);
    let lines = text.lines().map(|line| if line.trim() == edit.old { &edit.new } else { line });
    lines.collect::<Vec<_>>().join("\n")
}

/// The copies as modules, and a list of them.
fn module_list(out: &Path, slips: &[Slip]) -> String {
    let mut text = String::new();
    for Slip { name, .. } in slips {
        let path = out.join(name).join("lib.rs");
        text += &format!("#[allow(warnings, clippy::all)]\n#[path = {path:?}]\nmod {name};\n");
    }
    text += "/// All altered readers.\npub const SLIPS: &[Slip] = &[\n";
    for Slip { name, what, .. } in slips {
        text += &format!("    slip!({name}, {what:?}),\n");
    }
    text + "];\n"
}
