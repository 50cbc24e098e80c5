//! `decode [--family NUMBER | --plain]`: standard input is one datagram.

use std::env;
use std::io::{self, Read, Write};
use std::process::ExitCode;

/// The family of document 01's own box.
const FAMILY: u16 = 25;

fn main() -> ExitCode {
    let Some(family) = arguments() else {
        eprintln!("usage: decode [--family NUMBER | --plain] < datagram");
        return ExitCode::from(2);
    };
    let mut datagram = Vec::new();
    if let Err(error) = io::stdin().read_to_end(&mut datagram) {
        eprintln!("decode: {error}");
        return ExitCode::FAILURE;
    }
    let text = decode::decode(&datagram, family);
    match io::stdout().write_all(text.as_bytes()) {
        Ok(()) => ExitCode::SUCCESS,
        Err(_) => ExitCode::FAILURE,
    }
}

/// The family to name, none for `--plain`; nothing if the command line isn't well formed.
fn arguments() -> Option<Option<u16>> {
    let words: Vec<String> = env::args().skip(1).collect();
    match words.iter().map(String::as_str).collect::<Vec<_>>().as_slice() {
        [] => Some(Some(FAMILY)),
        ["--plain"] => Some(None),
        ["--family", number] => number.parse().ok().map(Some),
        _ => None,
    }
}
