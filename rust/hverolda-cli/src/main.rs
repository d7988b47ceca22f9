//! The command `hverolda`. All of it stands in the library of this package.

#![no_main]

/// Rust's own start is left out: it opens /dev/null for a standard stream that
/// is closed, so that what is read or written there would seem to be right, and
/// it ignores the signal that ends a program which writes to nobody. The words
/// are known all the same where the C library is GNU's.
#[allow(unsafe_code)]
#[no_mangle]
pub extern "C" fn main(_count: i32, _words: *const *const u8) -> i32 {
    hverolda_cli::run(std::env::args_os().collect())
}
