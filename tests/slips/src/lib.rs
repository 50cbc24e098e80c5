//! Altered readers: each is the reader with one usual mistake or other reading put in (`edits/`).

use cases::{FindCase, GivenBox, HandleCase, NormaliseCase};
use compare::Implementation;
use reader::Answer;

/// One altered reader.
pub struct Slip {
    pub name: &'static str,
    /// What it does otherwise.
    pub what: &'static str,
    handle: fn(&HandleCase, &mut [u8], &mut [u8]) -> Answer,
    normalise: fn(&NormaliseCase, &mut [u8]) -> (u32, u64),
    check_box: fn(GivenBox) -> (u32, u64),
    find: fn(&FindCase) -> (u32, u32, u64),
}

impl Implementation for Slip {
    fn handle(&self, case: &HandleCase, settings: &mut [u8], page: &mut [u8]) -> Answer {
        (self.handle)(case, settings, page)
    }

    fn normalise(&self, case: &NormaliseCase, page: &mut [u8]) -> (u32, u64) {
        (self.normalise)(case, page)
    }

    fn check_box(&self, given: GivenBox) -> (u32, u64) {
        (self.check_box)(given)
    }

    fn find(&self, case: &FindCase) -> (u32, u32, u64) {
        (self.find)(case)
    }
}

/// The slip that a module holds.
macro_rules! slip {
    ($module:ident, $what:literal) => {
        Slip {
            name: stringify!($module),
            what: $what,
            handle: |case, settings, page| {
                let HandleCase { family, admin, roll, debug_names, flag_names, datagram, position, place, .. } = case;
                let answer = $module::handle(
                    *family,
                    *admin,
                    roll,
                    debug_names,
                    flag_names,
                    settings,
                    datagram,
                    *position,
                    *place,
                    page,
                );
                let $module::Answer { kind, refusal, next, next_place, written } = answer;
                Answer { kind, refusal, next, next_place, written }
            },
            normalise: |case, page| $module::normalise(&case.contents, &case.names, page),
            check_box: |given| {
                let GivenBox { family, admin, roll, debug_names, flag_names, settings } = given;
                $module::check_box(family, admin, roll, debug_names, flag_names, settings)
            },
            find: |case| $module::find(&case.names, &case.name),
        }
    };
}

include!(concat!(env!("OUT_DIR"), "/slips.rs"));
