//! Every altered reader differs from the reader on some case.

use compare::{outcome, Reader};
use slips::{Slip, SLIPS};
use std::io::{stdout, Write};

const SEED: u64 = 1;
const CASES: u64 = 200_000;

/// Prints a line that the test harness does not hold back.
fn say(line: &str) {
    let _ = writeln!(stdout(), "{line}");
}

#[test]
fn there_are_slips_of_every_kind() {
    let named = |word: &str| SLIPS.iter().filter(|slip| slip.name.contains(word)).count();
    let of_parts = ["check_box", "disagreement", "dump", "place", "strset", "find"].map(named);
    let least = [6, 6, 30, 15, 60, 40];
    assert!(of_parts.iter().zip(least).all(|(count, least)| *count >= least), "{of_parts:?}");
    assert!(SLIPS.len() >= 60 + of_parts.iter().sum::<usize>());
}

#[test]
fn every_slip_is_caught() {
    let mut left: Vec<&Slip> = SLIPS.iter().collect();
    for number in 0..CASES {
        if left.is_empty() {
            break;
        }
        let case = cases::case(SEED, number);
        let right = outcome(&Reader, &case);
        left.retain(|slip| {
            let same = outcome(*slip, &case) == right;
            if !same {
                say(&format!("{:38} caught after {:5} cases: {}", slip.name, number + 1, slip.what));
            }
            same
        });
    }
    say(&format!("{} of {} slips caught, seed {SEED}", SLIPS.len() - left.len(), SLIPS.len()));
    let missed: Vec<_> = left.iter().map(|slip| slip.name).collect();
    assert!(missed.is_empty(), "not caught: {missed:?}");
}
