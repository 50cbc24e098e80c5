//! How often each answer was reached.

use super::{finds, name_lists, Outcome};
use cases::Case;
use std::fmt::{Display, Formatter, Result};

/// The largest refusal number.
const LAST: usize = 25;
/// The numbers that the normaliser can give.
const NORMALISER: [usize; 14] = [0, 1, 2, 3, 10, 11, 12, 13, 18, 19, 20, 21, 22, 23];

/// The largest number of a box's part.
const LAST_PART: usize = 6;
/// The largest number of a search for a name.
const LAST_OF_FIND: usize = 1;

/// Counts of kinds and numbers.
#[derive(Default)]
pub struct Tally {
    kinds: [u64; 4],
    handled: [u64; LAST + 1],
    normalised: [u64; LAST + 1],
    checked: [u64; LAST_PART + 1],
    /// Replies of ports in dumps, and DONE behind them.
    dumped: [u64; 2],
    found: [u64; LAST_OF_FIND + 1],
    /// Ways of a done STRSET_GET.
    listed: [u64; name_lists::WAYS.len()],
    /// Ways of a search for a name.
    searched: [u64; finds::WAYS.len()],
}

/// The names of what is counted of dumps.
const DUMPED: [&str; 2] = ["port's reply in a dump", "DONE of a dump"];
/// Bytes of DONE, which no other done answer has.
const DONE_LENGTH: u64 = 20;

/// Counts one more, if the number is a known one.
fn add(counts: &mut [u64], number: u32) {
    if let Some(count) = counts.get_mut(number as usize) {
        *count += 1;
    }
}

impl Tally {
    /// Counts what a case came to.
    pub fn count(&mut self, case: &Case, outcome: &Outcome) {
        match outcome {
            Outcome::Handled { answer, page, .. } => {
                add(&mut self.kinds, answer.kind);
                add(&mut self.handled, answer.refusal);
                self.dumped[0] += u64::from(answer.next_place > 0);
                self.dumped[1] += u64::from(answer.written == DONE_LENGTH);
                if let Case::Handle(case) = case {
                    name_lists::way(case, answer, page).into_iter().for_each(|way| self.listed[way] += 1);
                }
            }
            Outcome::Normalised { number, .. } => add(&mut self.normalised, *number),
            Outcome::Checked { part, .. } => add(&mut self.checked, *part),
            Outcome::Found { number, found, compared } => {
                add(&mut self.found, *number);
                if let (Case::Find(case), 0) = (case, number) {
                    let ways = finds::ways(case, *found, *compared);
                    self.searched.iter_mut().zip(ways).for_each(|(count, way)| *count += u64::from(way));
                }
            }
        }
    }

    /// Ways of a done STRSET_GET and of a search for a name, with their counts.
    fn ways(&self) -> impl Iterator<Item = (String, u64)> + '_ {
        let listed = name_lists::WAYS.iter().zip(self.listed).map(|(way, count)| (format!("STRSET_GET: {way}"), count));
        let searched = finds::WAYS.iter().zip(self.searched).map(|(way, count)| (format!("find: {way}"), count));
        listed.chain(searched)
    }

    /// What was reached fewer times than it should: kinds, refusals of the handler, numbers of the normaliser, of the
    /// check of a box and of a search for a name, the two messages of dumps, the ways of a done STRSET_GET and of a
    /// search.
    pub fn rare(&self, least: u64) -> Vec<String> {
        let kinds = (0..4).map(|kind| (format!("kind {kind}"), self.kinds[kind]));
        let handled = (0..=LAST).map(|number| (format!("handle {number}"), self.handled[number]));
        let normalised = NORMALISER.map(|number| (format!("normalise {number}"), self.normalised[number]));
        let checked = (0..=LAST_PART).map(|part| (format!("check_box {part}"), self.checked[part]));
        let found = (0..=LAST_OF_FIND).map(|number| (format!("find {number}"), self.found[number]));
        let dumped = (0..2).map(|which| (DUMPED[which].to_string(), self.dumped[which]));
        let all = kinds.chain(handled).chain(normalised).chain(checked).chain(found).chain(dumped).chain(self.ways());
        all.filter(|(_, count)| *count < least).map(|(name, count)| format!("{name}: {count}")).collect()
    }
}

impl Display for Tally {
    fn fmt(&self, out: &mut Formatter) -> Result {
        let [end, skipped, done, refused] = self.kinds;
        writeln!(out, "end {end}, skipped {skipped}, done {done}, refused {refused}")?;
        writeln!(out, "{} {}, {} {}", DUMPED[0], self.dumped[0], DUMPED[1], self.dumped[1])?;
        for (way, count) in self.ways() {
            writeln!(out, "{way} {count}")?;
        }
        writeln!(out, "number    handle normalise check_box      find")?;
        for number in 0..=LAST {
            let normalised = match NORMALISER.contains(&number) {
                true => self.normalised[number].to_string(),
                false => "-".to_string(),
            };
            let told = |counts: &[u64]| counts.get(number).map_or("-".to_string(), u64::to_string);
            let (checked, found) = (told(&self.checked), told(&self.found));
            writeln!(out, "{number:6} {:9} {normalised:>9} {checked:>9} {found:>9}", self.handled[number])?;
        }
        Ok(())
    }
}
