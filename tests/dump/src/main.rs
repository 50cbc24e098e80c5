//! `dump --cases N --seed S`: cases and the reader's answers on standard output, in the form that `tests/c/exact.c` reads.
//!
//! Numbers are little-endian; a run of bytes stands after its length as a u32. A case begins with a u32:
//! 1 handle: family, admin (u32); roll, debug names, flag names, settings, datagram (bytes); position, place (u64); length
//!   of the page (u32); then the answer: kind, refusal (u32), next, next place (u64), what was written, settings
//!   afterwards (bytes).
//! 2 normalise: contents, names (bytes); length of the page (u32); then the number (u32) and the form (bytes).
//! 3 check_box: family, admin (u32); roll, debug names, flag names, settings (bytes); then the part at fault (u32) and the
//!   offset (u64).
//! 4 find: names, name (bytes); then the number, the bit found (u32) and the count of entries compared further (u64).
//! 0 no more cases.

use cases::{Case, CheckBoxCase, FindCase, HandleCase, NormaliseCase};
use std::env;
use std::io::{self, BufWriter, Write};
use std::process::ExitCode;

fn main() -> ExitCode {
    let Some((cases, seed)) = arguments() else {
        eprintln!("usage: dump [--cases N] [--seed S]");
        return ExitCode::from(2);
    };
    match dump(&mut BufWriter::new(io::stdout().lock()), cases, seed) {
        Ok(()) => ExitCode::SUCCESS,
        Err(error) => {
            eprintln!("dump: {error}");
            ExitCode::FAILURE
        }
    }
}

/// The number of cases and the seed, if the command line is well formed.
fn arguments() -> Option<(u64, u64)> {
    let (mut cases, mut seed) = (20_000, 1);
    let mut words = env::args().skip(1);
    while let Some(word) = words.next() {
        let number = words.next()?.parse().ok()?;
        match word.as_str() {
            "--cases" => cases = number,
            "--seed" => seed = number,
            _ => return None,
        }
    }
    Some((cases, seed))
}

fn dump(out: &mut impl Write, cases: u64, seed: u64) -> io::Result<()> {
    for number in 0..cases {
        match cases::case(seed, number) {
            Case::Handle(case) => handled(out, case)?,
            Case::Normalise(case) => normalised(out, case)?,
            Case::CheckBox(case) => checked(out, &case)?,
            Case::Find(case) => searched(out, &case)?,
        }
    }
    put_u32(out, 0)?;
    out.flush()
}

fn put_u32(out: &mut impl Write, number: u32) -> io::Result<()> {
    out.write_all(&number.to_le_bytes())
}

fn put_bytes(out: &mut impl Write, bytes: &[u8]) -> io::Result<()> {
    put_u32(out, bytes.len() as u32)?;
    out.write_all(bytes)
}

fn handled(out: &mut impl Write, mut case: HandleCase) -> io::Result<()> {
    put_u32(out, 1)?;
    put_u32(out, case.family)?;
    put_u32(out, case.admin)?;
    for bytes in [&case.roll, &case.debug_names, &case.flag_names, &case.settings, &case.datagram] {
        put_bytes(out, bytes)?;
    }
    out.write_all(&case.position.to_le_bytes())?;
    out.write_all(&case.place.to_le_bytes())?;
    put_u32(out, case.page.len() as u32)?;
    let answer = reader::handle(
        case.family,
        case.admin,
        &case.roll,
        &case.debug_names,
        &case.flag_names,
        &mut case.settings,
        &case.datagram,
        case.position,
        case.place,
        &mut case.page,
    );
    put_u32(out, answer.kind)?;
    put_u32(out, answer.refusal)?;
    out.write_all(&answer.next.to_le_bytes())?;
    out.write_all(&answer.next_place.to_le_bytes())?;
    put_bytes(out, &case.page[..answer.written as usize])?;
    put_bytes(out, &case.settings)
}

fn normalised(out: &mut impl Write, mut case: NormaliseCase) -> io::Result<()> {
    put_u32(out, 2)?;
    put_bytes(out, &case.contents)?;
    put_bytes(out, &case.names)?;
    put_u32(out, case.page.len() as u32)?;
    let (number, written) = reader::normalise(&case.contents, &case.names, &mut case.page);
    put_u32(out, number)?;
    put_bytes(out, &case.page[..written as usize])
}

fn checked(out: &mut impl Write, case: &CheckBoxCase) -> io::Result<()> {
    let CheckBoxCase { family, admin, roll, debug_names, flag_names, settings } = case;
    put_u32(out, 3)?;
    put_u32(out, *family)?;
    put_u32(out, *admin)?;
    for bytes in [roll, debug_names, flag_names, settings] {
        put_bytes(out, bytes)?;
    }
    let (part, offset) = reader::check_box(*family, *admin, roll, debug_names, flag_names, settings);
    put_u32(out, part)?;
    out.write_all(&offset.to_le_bytes())
}

fn searched(out: &mut impl Write, case: &FindCase) -> io::Result<()> {
    put_u32(out, 4)?;
    put_bytes(out, &case.names)?;
    put_bytes(out, &case.name)?;
    let (number, found, compared) = reader::find(&case.names, &case.name);
    put_u32(out, number)?;
    put_u32(out, found)?;
    out.write_all(&compared.to_le_bytes())
}
