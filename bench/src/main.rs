//! Times the library against the same method in Rust and against a plain program, in one process; see docs/BENCH.md.
//!
//! C's main stands in for Rust's, whose start-up does not run in the kit's emulator.
#![no_main]

mod agree;
mod calls;
mod counts;
mod inputs;
mod library;
mod plain;
mod same;
mod tables;
mod timing;

use std::ffi::CStr;
use std::os::raw::c_char;

/// The word after the program's name.
fn word(count: i32, words: *const *const c_char) -> String {
    if count < 2 {
        return String::new();
    }
    // SAFETY: C's main gets as many words as it is told, each with a byte 0 at its end.
    unsafe { CStr::from_ptr(*words.add(1)) }.to_string_lossy().into_owned()
}

/// Sees that the three programs agree.
fn agreed() -> bool {
    match agree::agree() {
        Ok(count) => eprintln!("bench: the three programs agree on {count} cases"),
        Err(difference) => {
            eprintln!("bench: FAILED: the programs differ on {difference}");
            return false;
        }
    }
    true
}

/// `ratios` prints the tables of ratios and `times` that of times, both after a look whether the programs agree; `counts`
/// makes the calls whose instructions are counted.
#[no_mangle]
pub extern "C" fn main(count: i32, words: *const *const c_char) -> i32 {
    match word(count, words).as_str() {
        "ratios" if agreed() => tables::ratios(),
        "times" if agreed() => tables::times(),
        "counts" => counts::make(),
        _ => return 1,
    }
    0
}
