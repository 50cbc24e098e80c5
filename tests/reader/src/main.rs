//! The program of document 01: standard input is one datagram, the answers go to standard output.

use std::io::{self, Read, Write};

fn main() -> io::Result<()> {
    let mut datagram = Vec::new();
    io::stdin().read_to_end(&mut datagram)?;
    io::stdout().write_all(&reader::run(&datagram))
}
