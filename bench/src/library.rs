//! The linked library behind its C interface (`include/ethnl.h`).

use crate::exported::{before, now};
use crate::lent::Lent;
use reader::Answer;

/// Which of the linked archives: that of ETHNL_LIB, or that of ETHNL_BEFORE.
#[derive(Clone, Copy, PartialEq, Eq)]
pub enum Archive {
    Now,
    Before,
}

/// The answer to a datagram's first message.
pub fn handle(archive: Archive, lent: &mut Lent, datagram: &[u8], place: u64, page: &mut [u8]) -> Answer {
    let mut answer = Answer { kind: 0, refusal: 0, next: 0, next_place: 0, written: 0 };
    let function = match archive {
        Archive::Now => now::ethnl_handle,
        Archive::Before => before::ethnl_handle,
    };
    // SAFETY: each pointer comes from a live slice or place and is followed by that slice's length.
    unsafe {
        function(
            25,
            1,
            lent.roll.as_ptr(),
            lent.roll.len(),
            lent.debug_names.as_ptr(),
            lent.debug_names.len(),
            lent.flag_names.as_ptr(),
            lent.flag_names.len(),
            lent.settings.as_mut_ptr(),
            lent.settings.len(),
            datagram.as_ptr(),
            datagram.len(),
            0,
            place,
            page.as_mut_ptr(),
            page.len(),
            &mut answer.kind,
            &mut answer.refusal,
            &mut answer.next,
            &mut answer.next_place,
            &mut answer.written,
        );
    }
    answer
}

/// The number and the bytes written.
pub fn normalise(archive: Archive, contents: &[u8], names: &[u8], page: &mut [u8]) -> (u32, u64) {
    let mut written = 0;
    let function = match archive {
        Archive::Now => now::ethnl_normalise,
        Archive::Before => before::ethnl_normalise,
    };
    // SAFETY: each pointer comes from a live slice or place and is followed by that slice's length.
    let number = unsafe {
        function(
            contents.as_ptr(),
            contents.len(),
            names.as_ptr(),
            names.len(),
            page.as_mut_ptr(),
            page.len(),
            &mut written,
        )
    };
    (number, written)
}

/// The part at fault and the offset.
pub fn check_box(archive: Archive, lent: &Lent) -> (u32, u64) {
    let mut offset = 0;
    let function = match archive {
        Archive::Now => now::ethnl_check_box,
        Archive::Before => before::ethnl_check_box,
    };
    // SAFETY: each pointer comes from a live slice or place and is followed by that slice's length.
    let part = unsafe {
        function(
            25,
            1,
            lent.roll.as_ptr(),
            lent.roll.len(),
            lent.debug_names.as_ptr(),
            lent.debug_names.len(),
            lent.flag_names.as_ptr(),
            lent.flag_names.len(),
            lent.settings.as_ptr(),
            lent.settings.len(),
            &mut offset,
        )
    };
    (part, offset)
}
