//! The proved library behind its C boundary (`ethnl_handle`, `ethnl_normalise`, `ethnl_check_box`, `ethnl_find`).

use super::Implementation;
use cases::{FindCase, GivenBox, HandleCase, NormaliseCase};
use reader::Answer;

#[cfg(feature = "library")]
extern "C" {
    fn ethnl_handle(
        family: u32,
        admin: u32,
        roll: *const u8,
        roll_len: usize,
        debug_names: *const u8,
        debug_names_len: usize,
        flag_names: *const u8,
        flag_names_len: usize,
        settings: *mut u8,
        settings_len: usize,
        datagram: *const u8,
        datagram_len: usize,
        position: u64,
        place: u64,
        page: *mut u8,
        page_len: usize,
        kind: *mut u32,
        refusal: *mut u32,
        next: *mut u64,
        next_place: *mut u64,
        written: *mut u64,
    );

    fn ethnl_check_box(
        family: u32,
        admin: u32,
        roll: *const u8,
        roll_len: usize,
        debug_names: *const u8,
        debug_names_len: usize,
        flag_names: *const u8,
        flag_names_len: usize,
        settings: *const u8,
        settings_len: usize,
        offset: *mut u64,
    ) -> u32;

    fn ethnl_find(
        names: *const u8,
        names_len: usize,
        name: *const u8,
        name_len: usize,
        found: *mut u32,
        compared: *mut u64,
    ) -> u32;
}

extern "C" {
    fn ethnl_normalise(
        contents: *const u8,
        contents_len: usize,
        names: *const u8,
        names_len: usize,
        page: *mut u8,
        page_len: usize,
        written: *mut u64,
    ) -> u32;
}

/// The library that was linked.
pub struct Library;

impl Implementation for Library {
    #[cfg(not(feature = "library"))]
    fn handle(&self, case: &HandleCase, settings: &mut [u8], page: &mut [u8]) -> Answer {
        super::Reader.handle(case, settings, page)
    }

    #[cfg(feature = "library")]
    fn handle(&self, case: &HandleCase, settings: &mut [u8], page: &mut [u8]) -> Answer {
        // Results begin as values that no answer has, so that one left unwritten shows.
        let (next, next_place) = (u64::MAX - 1, u64::MAX - 1);
        let mut answer = Answer { kind: u32::MAX, refusal: u32::MAX, next, next_place, written: u64::MAX };
        // SAFETY: each pointer comes from a live slice or place and is followed by that slice's length.
        unsafe {
            ethnl_handle(
                case.family,
                case.admin,
                case.roll.as_ptr(),
                case.roll.len(),
                case.debug_names.as_ptr(),
                case.debug_names.len(),
                case.flag_names.as_ptr(),
                case.flag_names.len(),
                settings.as_mut_ptr(),
                settings.len(),
                case.datagram.as_ptr(),
                case.datagram.len(),
                case.position,
                case.place,
                page.as_mut_ptr(),
                page.len(),
                &mut answer.kind,
                &mut answer.refusal,
                &mut answer.next,
                &mut answer.next_place,
                &mut answer.written,
            );
        }
        answer
    }

    fn normalise(&self, case: &NormaliseCase, page: &mut [u8]) -> (u32, u64) {
        let mut written = u64::MAX;
        // SAFETY: each pointer comes from a live slice or place and is followed by that slice's length.
        let number = unsafe {
            ethnl_normalise(
                case.contents.as_ptr(),
                case.contents.len(),
                case.names.as_ptr(),
                case.names.len(),
                page.as_mut_ptr(),
                page.len(),
                &mut written,
            )
        };
        (number, written)
    }

    #[cfg(not(feature = "library"))]
    fn check_box(&self, given: GivenBox) -> (u32, u64) {
        super::Reader.check_box(given)
    }

    #[cfg(feature = "library")]
    fn check_box(&self, given: GivenBox) -> (u32, u64) {
        let GivenBox { family, admin, roll, debug_names, flag_names, settings } = given;
        let mut offset = u64::MAX;
        // SAFETY: each pointer comes from a live slice or place and is followed by that slice's length.
        let part = unsafe {
            ethnl_check_box(
                family,
                admin,
                roll.as_ptr(),
                roll.len(),
                debug_names.as_ptr(),
                debug_names.len(),
                flag_names.as_ptr(),
                flag_names.len(),
                settings.as_ptr(),
                settings.len(),
                &mut offset,
            )
        };
        (part, offset)
    }

    #[cfg(not(feature = "library"))]
    fn find(&self, case: &FindCase) -> (u32, u32, u64) {
        super::Reader.find(case)
    }

    #[cfg(feature = "library")]
    fn find(&self, case: &FindCase) -> (u32, u32, u64) {
        // No list has a bit or a count of this size, and the bit isn't the one that means none.
        let (mut found, mut compared) = (u32::MAX - 1, u64::MAX);
        // SAFETY: each pointer comes from a live slice or place and is followed by that slice's length.
        let number = unsafe {
            ethnl_find(
                case.names.as_ptr(),
                case.names.len(),
                case.name.as_ptr(),
                case.name.len(),
                &mut found,
                &mut compared,
            )
        };
        (number, found, compared)
    }
}
