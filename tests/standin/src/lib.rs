//! The reader behind the functions of `include/ethnl.h`, so that a C program can be run over either of the two
//! implementations by naming another archive.

use std::slice::{from_raw_parts, from_raw_parts_mut};

/// As `ethnl_handle` of `include/ethnl.h`.
///
/// # Safety
/// Each pointer is valid for the length after it; what is written overlaps nothing else.
#[no_mangle]
#[allow(clippy::too_many_arguments)]
pub unsafe extern "C" fn ethnl_handle(
    family: u32,
    admin: u32,
    roll: *const u8,
    roll_len: usize,
    debug_names: *const u8,
    debug_names_len: usize,
    flag_names: *const u8,
    flag_names_len: usize,
    settings: *mut u8,
    settings_len: usize,
    datagram: *const u8,
    datagram_len: usize,
    position: u64,
    place: u64,
    page: *mut u8,
    page_len: usize,
    kind: *mut u32,
    refusal: *mut u32,
    next: *mut u64,
    next_place: *mut u64,
    written: *mut u64,
) {
    let answer = reader::handle(
        family,
        admin,
        from_raw_parts(roll, roll_len),
        from_raw_parts(debug_names, debug_names_len),
        from_raw_parts(flag_names, flag_names_len),
        from_raw_parts_mut(settings, settings_len),
        from_raw_parts(datagram, datagram_len),
        position,
        place,
        from_raw_parts_mut(page, page_len),
    );
    *kind = answer.kind;
    *refusal = answer.refusal;
    *next = answer.next;
    *next_place = answer.next_place;
    *written = answer.written;
}

/// As `ethnl_normalise` of `include/ethnl.h`.
///
/// # Safety
/// Each pointer is valid for the length after it; what is written overlaps nothing else.
#[no_mangle]
pub unsafe extern "C" fn ethnl_normalise(
    contents: *const u8,
    contents_len: usize,
    names: *const u8,
    names_len: usize,
    page: *mut u8,
    page_len: usize,
    written: *mut u64,
) -> u32 {
    let (number, count) = reader::normalise(
        from_raw_parts(contents, contents_len),
        from_raw_parts(names, names_len),
        from_raw_parts_mut(page, page_len),
    );
    *written = count;
    number
}

/// As `ethnl_find` of `include/ethnl.h`.
///
/// # Safety
/// Each pointer is valid for the length after it; what is written overlaps nothing else.
#[no_mangle]
pub unsafe extern "C" fn ethnl_find(
    names: *const u8,
    names_len: usize,
    name: *const u8,
    name_len: usize,
    found: *mut u32,
    compared: *mut u64,
) -> u32 {
    let (number, bit, count) = reader::find(from_raw_parts(names, names_len), from_raw_parts(name, name_len));
    *found = bit;
    *compared = count;
    number
}

/// As `ethnl_check_box` of `include/ethnl.h`.
///
/// # Safety
/// Each pointer is valid for the length after it; what is written overlaps nothing else.
#[no_mangle]
#[allow(clippy::too_many_arguments)]
pub unsafe extern "C" fn ethnl_check_box(
    family: u32,
    admin: u32,
    roll: *const u8,
    roll_len: usize,
    debug_names: *const u8,
    debug_names_len: usize,
    flag_names: *const u8,
    flag_names_len: usize,
    settings: *const u8,
    settings_len: usize,
    offset: *mut u64,
) -> u32 {
    let (part, place) = reader::check_box(
        family,
        admin,
        from_raw_parts(roll, roll_len),
        from_raw_parts(debug_names, debug_names_len),
        from_raw_parts(flag_names, flag_names_len),
        from_raw_parts(settings, settings_len),
    );
    *offset = place;
    part
}
