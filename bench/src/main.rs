//! `bench [RUNS]`: tables of the time per call, library and reader over the same inputs in the same run.

mod call;
mod exported;
mod lent;
mod library;
mod measure;
mod names;
mod requests;
mod search;
mod tables;

use call::{Call, Made};
use library::Archive;
use std::process::ExitCode;

/// Fewer runs than this give no median worth the name.
const LEAST_RUNS: usize = 7;

fn main() -> ExitCode {
    let runs = std::env::args().nth(1).and_then(|word| word.parse().ok()).unwrap_or(11);
    if runs < LEAST_RUNS {
        eprintln!("bench: at least {LEAST_RUNS} runs");
        return ExitCode::from(2);
    }
    let (mut compared, mut growing, mut search) = (compared(), growing(), search::calls());
    let mut distinct = [64, 512].map(Call::list_check);
    let mut lists = [Call::name_lists(340, false), Call::name_lists(512, true)];
    let (mut dumps, mut parts) = (dumps(), parts());
    let calls = compared
        .iter_mut()
        .chain(&mut growing)
        .chain(&mut search)
        .chain(&mut distinct)
        .chain(&mut lists)
        .chain(&mut dumps)
        .chain(&mut parts);
    if let Some(name) = calls.into_iter().find_map(differs) {
        eprintln!("bench: library and reader differ: {name}");
        return ExitCode::FAILURE;
    }
    println!("Medians of {runs} runs, nanoseconds per call.\n");
    tables::compared(&mut compared, runs);
    tables::search(&mut search, runs);
    tables::distinct(&mut distinct, runs);
    tables::name_lists(&mut lists, runs);
    tables::dumps(&mut dumps, runs);
    tables::growth(&mut growing, runs);
    tables::parts(&mut parts, runs);
    ExitCode::SUCCESS
}

/// The calls that are compared, over a small box and over the largest.
fn compared() -> Vec<Call> {
    let over = |ports, bits| {
        [
            Call::compact_set(ports, bits),
            Call::list_set(40, ports, bits),
            Call::indexed_set(40, ports, bits),
            Call::compact_get(ports, bits),
            Call::verbose_get(ports, bits),
            Call::normalise(512, bits),
        ]
    };
    let checks = [(1, 40), (1, 512), (8, 512), (64, 512)].map(|(ports, bits)| Call::box_check(ports, bits));
    over(1, 40).into_iter().chain(over(64, 512)).chain(checks).collect()
}

/// All ports of the largest box, one by one and at once.
fn dumps() -> Vec<Call> {
    let over = |compact| [Call::gets(compact, 64, 512), Call::dump(compact, 64, 512)];
    [false, true].into_iter().flat_map(over).collect()
}

/// The largest box judged part by part: right, and with a fault that is found soon or late.
fn parts() -> [Call; 4] {
    const ROLL: u32 = 3;
    const FLAG_NAMES: u32 = 5;
    [
        Call::parts("a right box", 0, |_| {}),
        Call::parts("the last flag's name repeated", FLAG_NAMES, |lent| lent.flag_names.copy_within(..32, 511 * 32)),
        Call::parts("the first flag's name bad", FLAG_NAMES, |lent| lent.flag_names[31] = 1),
        Call::parts("the first port's index 0", ROLL, |lent| lent.roll[1..5].fill(0)),
    ]
}

/// Calls over boxes with more and more names and ports, then with longer and longer datagrams.
fn growing() -> Vec<Call> {
    const BITS: [usize; 4] = [64, 128, 256, 512];
    const PORTS: [usize; 5] = [1, 8, 16, 32, 64];
    const ENTRIES: [usize; 5] = [1, 16, 64, 256, 512];
    let by_names = BITS.map(|bits| Call::box_check(1, bits)).into_iter();
    let lists = |bits| [Call::list_set(40, 1, bits), Call::indexed_set(40, 1, bits)];
    let by_names = by_names.chain(BITS.into_iter().flat_map(lists));
    let by_names = by_names.chain(BITS.map(|bits| Call::verbose_get(1, bits)));
    let by_names = by_names.chain(BITS.map(|bits| Call::normalise(bits, bits)));
    let by_ports = PORTS.map(|ports| Call::box_check(ports, 64)).into_iter();
    let by_ports = by_ports.chain(PORTS.map(|ports| Call::compact_get(ports, 64)));
    let by_length = ENTRIES.map(|entries| Call::list_set(entries, 1, 512));
    by_names.chain(by_ports).chain(by_length).collect()
}

/// The call's name, unless library and reader answer it, and alike. Another archive may answer otherwise, but then its time
/// says nothing.
fn differs(call: &mut Call) -> Option<String> {
    let library = answer(call, Made::Library(Archive::Now));
    let alike = library == answer(call, Made::Reader) && library.0 == call.expected();
    call.before = cfg!(feature = "before") && library == answer(call, Made::Library(Archive::Before));
    (!alike).then(|| call.name.clone())
}

/// The kind (or number, or part), the bytes written (or the offset), and the page, which was clear before.
fn answer(call: &mut Call, made: Made) -> (u32, u64, Vec<u8>) {
    call.page.fill(0);
    let (kind, written) = call.make(made);
    (kind, written, call.page.clone())
}
