//! All that a call leaves behind.

use super::Implementation;
use cases::{hex, Case, CheckBoxCase, HandleCase};
use reader::Answer;
use std::fmt::{Display, Formatter, Result};

/// What an implementation did with a case.
#[derive(Clone, Debug, PartialEq, Eq)]
pub enum Outcome {
    /// `part` is the number that the check of the same box gives.
    Handled {
        answer: Answer,
        settings: Vec<u8>,
        page: Vec<u8>,
        part: u32,
    },
    Normalised {
        number: u32,
        written: u64,
        page: Vec<u8>,
    },
    /// `answer` is the handler's to an empty datagram with the same box.
    Checked {
        part: u32,
        offset: u64,
        answer: Answer,
    },
    Found {
        number: u32,
        found: u32,
        compared: u64,
    },
}

impl Outcome {
    /// Whether the handler refuses by 1 exactly where the check of the box tells of a part or the place is none of the
    /// box's.
    pub fn agrees_on_the_box(&self, case: &Case) -> bool {
        match self {
            Outcome::Handled { answer, part, .. } | Outcome::Checked { answer, part, .. } => {
                (answer.refusal == 1) == (*part != 0 || !has_place(case))
            }
            Outcome::Normalised { .. } | Outcome::Found { .. } => true,
        }
    }
}

/// Whether the place of a call is at most the number of its ports, the roll being right.
fn has_place(case: &Case) -> bool {
    match case {
        Case::Handle(HandleCase { roll, place, .. }) => *place <= roll.len() as u64 / 21,
        Case::Normalise(_) | Case::CheckBox(_) | Case::Find(_) => true,
    }
}

/// Runs a case on copies of its settings and page.
pub fn outcome(implementation: &dyn Implementation, case: &Case) -> Outcome {
    match case {
        Case::Handle(case) => {
            let (mut settings, mut page) = (case.settings.clone(), case.page.clone());
            let (part, _) = implementation.check_box(case.into());
            let answer = implementation.handle(case, &mut settings, &mut page);
            Outcome::Handled { answer, settings, page, part }
        }
        Case::Normalise(case) => {
            let mut page = case.page.clone();
            let (number, written) = implementation.normalise(case, &mut page);
            Outcome::Normalised { number, written, page }
        }
        Case::CheckBox(case) => {
            let (part, offset) = implementation.check_box(case.into());
            Outcome::Checked { part, offset, answer: answer_to_nothing(implementation, case) }
        }
        Case::Find(case) => {
            let (number, found, compared) = implementation.find(case);
            Outcome::Found { number, found, compared }
        }
    }
}

/// What the handler answers to an empty datagram.
fn answer_to_nothing(implementation: &dyn Implementation, case: &CheckBoxCase) -> Answer {
    let CheckBoxCase { family, admin, roll, debug_names, flag_names, settings } = case.clone();
    let (mut lent, mut page) = (settings.clone(), vec![0; 32_768]);
    let (datagram, position, place) = (Vec::new(), 0, 0);
    let call = HandleCase {
        family,
        admin,
        roll,
        debug_names,
        flag_names,
        settings,
        datagram,
        position,
        place,
        page: Vec::new(),
    };
    implementation.handle(&call, &mut lent, &mut page)
}

impl Display for Outcome {
    fn fmt(&self, out: &mut Formatter) -> Result {
        match self {
            Outcome::Handled { answer, settings, page, part } => {
                let Answer { kind, refusal, next, next_place, written } = answer;
                writeln!(
                    out,
                    "kind {kind}, refusal {refusal}, next {next}, next place {next_place}, written {written}"
                )?;
                writeln!(out, "part at fault {part}")?;
                writeln!(out, "settings {}", hex(settings))?;
                writeln!(out, "page {}", hex(page))
            }
            Outcome::Normalised { number, written, page } => {
                writeln!(out, "number {number}, written {written}")?;
                writeln!(out, "page {}", hex(page))
            }
            Outcome::Checked { part, offset, answer } => {
                let refusal = answer.refusal;
                writeln!(out, "part at fault {part}, offset {offset}; an empty datagram: refusal {refusal}")
            }
            Outcome::Found { number, found, compared } => {
                writeln!(out, "number {number}, found {found}, compared {compared}")
            }
        }
    }
}
