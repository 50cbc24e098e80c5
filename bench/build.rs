//! Links the archive that ETHNL_LIB names; with the feature `before`, copies of it and of the one that ETHNL_BEFORE names.

use std::collections::BTreeSet;
use std::path::PathBuf;
use std::process::Command;

fn main() {
    let library = archive("ETHNL_LIB");
    if std::env::var_os("CARGO_FEATURE_BEFORE").is_none() {
        link(&library);
        return;
    }
    let before = archive("ETHNL_BEFORE");
    link(&copy(&library, "libnow.a", ""));
    link(&copy(&before, "libbefore.a", &renamings(&before)));
}

fn archive(variable: &str) -> String {
    println!("cargo:rerun-if-env-changed={variable}");
    let archive = std::env::var(variable).unwrap_or_else(|_| panic!("{variable} names the archive; bench/run sets it"));
    println!("cargo:rerun-if-changed={archive}");
    archive
}

fn link(archive: &str) {
    println!("cargo:rustc-link-arg={archive}");
}

/// A copy with these symbols renamed. Each function begins at a cache line, since where it lies in one moves its time.
fn copy(archive: &str, name: &str, renamings: &str) -> String {
    let out = PathBuf::from(std::env::var_os("OUT_DIR").expect("cargo sets OUT_DIR"));
    let (list, copy) = (out.join("renamings"), out.join(name));
    std::fs::write(&list, renamings).expect("OUT_DIR can be written");
    let mut objcopy = Command::new("objcopy");
    objcopy.arg("--set-section-alignment=.text.*=64").arg(format!("--redefine-syms={}", list.display()));
    let status = objcopy.arg(archive).arg(&copy).status().expect("objcopy, from binutils, is there");
    assert!(status.success(), "objcopy copies {archive}");
    copy.display().to_string()
}

/// `before_` in front of each symbol that the archive defines, since both archives export the same ones. What it takes
/// from elsewhere, such as memcpy, keeps its name.
fn renamings(archive: &str) -> String {
    let nm = Command::new("nm").args(["--extern-only", "--defined-only", archive]).output();
    let lines = String::from_utf8(nm.expect("nm, from binutils, is there").stdout).expect("nm writes text");
    // A symbol's line is its value, a letter and itself; members of an archive may define the same one.
    let symbol = |line: &str| match line.split(' ').collect::<Vec<_>>()[..] {
        [_, _, symbol] => Some(symbol.to_string()),
        _ => None,
    };
    let symbols: BTreeSet<String> = lines.lines().filter_map(symbol).collect();
    symbols.iter().map(|symbol| format!("{symbol} before_{symbol}\n")).collect()
}
