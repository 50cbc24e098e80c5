//! Two implementations of document 01 over the same cases: kind, number, next position, next place, count, every byte
//! of the page and every byte of the settings; part and offset that the check of a box tells, and that the handler
//! refuses by 1 exactly where it tells of a part or the place is above the port count; number, bit and count of a search
//! for a bit name.

mod attributes;
mod finds;
mod implementation;
mod name_lists;
mod outcome;
mod tally;

#[cfg(feature = "normaliser")]
mod library;

pub use attributes::{attributes, last};
pub use implementation::{Implementation, Reader};
#[cfg(feature = "normaliser")]
pub use library::Library;
pub use outcome::{outcome, Outcome};
pub use tally::Tally;

use cases::Case;

/// The first case on which two implementations differ, or the left one's check of the box and its handler do, and what
/// each of them did.
pub struct Difference {
    pub number: u64,
    pub case: Case,
    pub left: Outcome,
    pub right: Outcome,
}

/// Compares so many cases of a seed, counting what the left one answers.
pub fn compare(
    left: &dyn Implementation,
    right: &dyn Implementation,
    seed: u64,
    cases: u64,
    tally: &mut Tally,
) -> Option<Box<Difference>> {
    for number in 0..cases {
        let case = cases::case(seed, number);
        let (left, right) = (outcome(left, &case), outcome(right, &case));
        if left != right || !left.agrees_on_the_box(&case) {
            return Some(Box::new(Difference { number, case, left, right }));
        }
        tally.count(&case, &left);
    }
    None
}
