//! What is compared: anything that answers the calls of the handler, of the normaliser, of the check of a box and of the
//! search for a bit name.

use cases::{FindCase, GivenBox, HandleCase, NormaliseCase};
use reader::Answer;

/// An implementation of document 01 and its later requests.
pub trait Implementation {
    /// Answers a call; settings and page are those of the case, to be changed in place.
    fn handle(&self, case: &HandleCase, settings: &mut [u8], page: &mut [u8]) -> Answer;

    /// Gives the number (0 if accepted) and the bytes written.
    fn normalise(&self, case: &NormaliseCase, page: &mut [u8]) -> (u32, u64);

    /// Gives the number of the part at fault (0 if none) and the offset.
    fn check_box(&self, given: GivenBox) -> (u32, u64);

    /// Gives the number (0 if the list is right), the bit found and how many entries were compared further.
    fn find(&self, case: &FindCase) -> (u32, u32, u64);
}

/// The reader of this workspace.
pub struct Reader;

impl Implementation for Reader {
    fn handle(&self, case: &HandleCase, settings: &mut [u8], page: &mut [u8]) -> Answer {
        reader::handle(
            case.family,
            case.admin,
            &case.roll,
            &case.debug_names,
            &case.flag_names,
            settings,
            &case.datagram,
            case.position,
            case.place,
            page,
        )
    }

    fn normalise(&self, case: &NormaliseCase, page: &mut [u8]) -> (u32, u64) {
        reader::normalise(&case.contents, &case.names, page)
    }

    fn check_box(&self, given: GivenBox) -> (u32, u64) {
        let GivenBox { family, admin, roll, debug_names, flag_names, settings } = given;
        reader::check_box(family, admin, roll, debug_names, flag_names, settings)
    }

    fn find(&self, case: &FindCase) -> (u32, u32, u64) {
        reader::find(&case.names, &case.name)
    }
}
