//! The functions that each linked archive exports (`include/ethnl.h`).

macro_rules! exported {
    ($archive:ident, $handle:literal, $normalise:literal, $check_box:literal) => {
        pub mod $archive {
            extern "C" {
                #[link_name = $handle]
                pub fn ethnl_handle(
                    family: u32,
                    admin: u32,
                    roll: *const u8,
                    roll_len: usize,
                    debug_names: *const u8,
                    debug_names_len: usize,
                    flag_names: *const u8,
                    flag_names_len: usize,
                    settings: *mut u8,
                    settings_len: usize,
                    datagram: *const u8,
                    datagram_len: usize,
                    position: u64,
                    place: u64,
                    page: *mut u8,
                    page_len: usize,
                    kind: *mut u32,
                    refusal: *mut u32,
                    next: *mut u64,
                    next_place: *mut u64,
                    written: *mut u64,
                );

                #[link_name = $normalise]
                pub fn ethnl_normalise(
                    contents: *const u8,
                    contents_len: usize,
                    names: *const u8,
                    names_len: usize,
                    page: *mut u8,
                    page_len: usize,
                    written: *mut u64,
                ) -> u32;

                #[link_name = $check_box]
                pub fn ethnl_check_box(
                    family: u32,
                    admin: u32,
                    roll: *const u8,
                    roll_len: usize,
                    debug_names: *const u8,
                    debug_names_len: usize,
                    flag_names: *const u8,
                    flag_names_len: usize,
                    settings: *const u8,
                    settings_len: usize,
                    offset: *mut u64,
                ) -> u32;
            }
        }
    };
}

exported!(now, "ethnl_handle", "ethnl_normalise", "ethnl_check_box");

// The names that build.rs gives them.
#[cfg(feature = "before")]
exported!(before, "before_ethnl_handle", "before_ethnl_normalise", "before_ethnl_check_box");

// No other archive is linked, and nothing is asked of one.
#[cfg(not(feature = "before"))]
pub use now as before;
