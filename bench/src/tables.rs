//! The figures as tables in markdown.

use crate::call::{Call, Made};
use crate::library::Archive;
use crate::measure::{against, measure, Before, Times};

const COLUMNS: &str = "| call | ports | names a list | bytes of input | library | reader | ratio |";
const RULE: &str = "|---|---:|---:|---:|---:|---:|---:|";

fn row(call: &Call, times: &Times) -> String {
    let ports = call.lent.roll.len() / 21;
    let names = call.lent.flag_names.len() / 32;
    let Times { library, reader, ratio, .. } = times;
    format!("| {} | {ports} | {names} | {} | {library:.0} | {reader:.0} | {ratio:.2} |", call.name, call.input_bytes())
}

/// Measures the calls and prints a row for each.
fn table(calls: &mut [Call], runs: usize) -> Vec<Times> {
    let times = measure(calls, runs);
    let rows: Vec<String> = calls.iter().zip(&times).map(|(call, times)| row(call, times)).collect();
    if cfg!(feature = "before") {
        beside_before(&rows, &times);
    } else {
        println!("{COLUMNS}\n{RULE}\n{}\n", rows.join("\n"));
    }
    times
}

/// The rows with what the archive of before takes, and the largest ratio to it.
fn beside_before(rows: &[String], times: &[Times]) {
    println!("{COLUMNS} before | to before |\n{RULE}---:|---:|");
    for (row, times) in rows.iter().zip(times) {
        match &times.before {
            Some(Before { time, ratio }) => println!("{row} {time:.0} | {ratio:.2} |"),
            None => println!("{row} | |"),
        }
    }
    let ratios = times.iter().filter_map(|times| times.before.as_ref()).map(|before| before.ratio);
    println!("\nLargest ratio to before: {:.2}.\n", ratios.fold(0.0, f64::max));
}

/// Each call over a small and a large box; then the largest ratio, and what box checks cost per byte.
pub fn compared(calls: &mut [Call], runs: usize) {
    let times = table(calls, runs);
    let largest = times.iter().map(|times| times.ratio).fold(0.0, f64::max);
    println!("Largest ratio: {largest:.2}.");
    per_byte(calls, &times);
}

/// What the largest box costs for each of its bytes, against the smallest.
fn per_byte(calls: &[Call], times: &[Times]) {
    let checks = calls.iter().zip(times).filter(|(call, _)| call.input_bytes() == 0);
    let per_byte: Vec<f64> = checks.map(|(call, times)| times.library / call.lent.bytes() as f64).collect();
    if let [smallest, .., largest] = per_byte[..] {
        let ratio = largest / smallest;
        print!("Box check of the library, nanoseconds per byte of box: ");
        println!("smallest box {smallest:.3}, largest {largest:.3}, {ratio:.2} times.\n");
    }
}

/// What it costs to find bits by their names.
pub fn search(calls: &mut [Call], runs: usize) {
    println!("Search for names:\n");
    table(calls, runs);
}

/// What 512 names cost against 64 of them.
pub fn distinct(calls: &mut [Call], runs: usize) {
    println!("One list of distinct names of 16 bytes:\n");
    let times = table(calls, runs);
    if let [few, .., many] = &times[..] {
        println!("The most against the fewest: {:.2} times.\n", many.library / few.library);
    }
}

/// What it costs to tell both name lists, and to find that they are too long.
pub fn name_lists(calls: &mut [Call], runs: usize) {
    println!("Name lists over the wire, names of 31 bytes:\n");
    table(calls, runs);
}

/// What a whole dump costs against a GET for each port; the calls come in pairs.
pub fn dumps(calls: &mut [Call], runs: usize) {
    println!("All ports, one by one and at once, nanoseconds for all calls together:\n");
    table(calls, runs);
    for pair in calls.chunks_mut(2) {
        if let [gets, dump] = pair {
            let mut times = |made| against(dump, gets, made, runs);
            let (library, reader) = (times(Made::Library(Archive::Now)), times(Made::Reader));
            println!("A {} against the GETs: library {library:.4} times, reader {reader:.4}.", dump.name);
        }
    }
    println!();
}

/// How the cost grows with names, ports and the datagram's length.
pub fn growth(calls: &mut [Call], runs: usize) {
    println!("How it grows with names, with ports, with the length of the datagram:\n");
    table(calls, runs);
}

/// What it costs to tell which part of the largest box is at fault.
pub fn parts(calls: &mut [Call], runs: usize) {
    println!("Which part of a box is at fault, and where:\n");
    table(calls, runs);
}
