//! The proved library, through the C functions of its archive.
//!
//! A C function that returns a struct too large for registers gets the place for it as its first argument and answers
//! that place. So the calling convention of x86-64 has it, and so the functions are declared here: another processor may
//! hand the place over otherwise, and then the library's code, compiled for it, does not. A `Writing` has 16 bytes: on
//! x86-64 and on aarch64 alike it comes back in two registers, so its function is declared as the header has it.

use crate::calls::{Calls, Measure, Plan, Sheet, Writing};
use std::mem::MaybeUninit;

extern "C" {
    fn corbatan_read(reply: *mut Sheet, bytes: *const u8, bytes_count: usize) -> *mut Sheet;

    fn corbatan_equal(
        reply: *mut Plan,
        cycle: u32,
        reds: *const u32,
        reds_count: usize,
        distances: *const u32,
        distances_count: usize,
        out: *const u32,
        out_count: usize,
        back: *const u32,
        back_count: usize,
        offsets: *mut u32,
        offsets_count: usize,
    ) -> *mut Plan;

    fn corbatan_outbound(
        reply: *mut Plan,
        cycle: u32,
        reds: *const u32,
        reds_count: usize,
        distances: *const u32,
        distances_count: usize,
        out: *const u32,
        out_count: usize,
        back: *const u32,
        back_count: usize,
        width: u32,
        offsets: *mut u32,
        offsets_count: usize,
    ) -> *mut Plan;

    fn corbatan_measure(
        reply: *mut Measure,
        cycle: u32,
        reds: *const u32,
        reds_count: usize,
        distances: *const u32,
        distances_count: usize,
        out: *const u32,
        out_count: usize,
        back: *const u32,
        back_count: usize,
        offsets: *const u32,
        offsets_count: usize,
    ) -> *mut Measure;

    fn corbatan_write(
        cycle: u32,
        reds: *const u32,
        reds_count: usize,
        distances: *const u32,
        distances_count: usize,
        out: *const u32,
        out_count: usize,
        back: *const u32,
        back_count: usize,
        bytes: *mut u8,
        bytes_count: usize,
    ) -> Writing;
}

pub struct Library;

/// The reply that a call puts into the place that it gets.
#[inline(always)]
fn reply<T>(call: impl FnOnce(*mut T) -> *mut T) -> T {
    let mut place = MaybeUninit::uninit();
    call(place.as_mut_ptr());
    // SAFETY: the call wrote all of the reply.
    unsafe { place.assume_init() }
}

// SAFETY, of every call below: a place is that of the reply, a slice's pointer and length are what the header asks for,
// and a lent list, which is borrowed for writing, overlaps no input.
impl Calls for Library {
    #[inline(always)]
    fn read(bytes: &[u8]) -> Sheet {
        reply(|place| unsafe { corbatan_read(place, bytes.as_ptr(), bytes.len()) })
    }

    #[inline(always)]
    fn equal(cycle: u32, reds: &[u32], distances: &[u32], out: &[u32], back: &[u32], offsets: &mut [u32]) -> Plan {
        reply(|place| unsafe {
            corbatan_equal(
                place,
                cycle,
                reds.as_ptr(),
                reds.len(),
                distances.as_ptr(),
                distances.len(),
                out.as_ptr(),
                out.len(),
                back.as_ptr(),
                back.len(),
                offsets.as_mut_ptr(),
                offsets.len(),
            )
        })
    }

    #[inline(always)]
    fn moved(
        cycle: u32,
        reds: &[u32],
        distances: &[u32],
        out: &[u32],
        back: &[u32],
        width: u32,
        offsets: &mut [u32],
    ) -> Plan {
        reply(|place| unsafe {
            corbatan_outbound(
                place,
                cycle,
                reds.as_ptr(),
                reds.len(),
                distances.as_ptr(),
                distances.len(),
                out.as_ptr(),
                out.len(),
                back.as_ptr(),
                back.len(),
                width,
                offsets.as_mut_ptr(),
                offsets.len(),
            )
        })
    }

    #[inline(always)]
    fn measure(cycle: u32, reds: &[u32], distances: &[u32], out: &[u32], back: &[u32], offsets: &[u32]) -> Measure {
        reply(|place| unsafe {
            corbatan_measure(
                place,
                cycle,
                reds.as_ptr(),
                reds.len(),
                distances.as_ptr(),
                distances.len(),
                out.as_ptr(),
                out.len(),
                back.as_ptr(),
                back.len(),
                offsets.as_ptr(),
                offsets.len(),
            )
        })
    }

    #[inline(always)]
    fn write(cycle: u32, reds: &[u32], distances: &[u32], out: &[u32], back: &[u32], bytes: &mut [u8]) -> Writing {
        unsafe {
            corbatan_write(
                cycle,
                reds.as_ptr(),
                reds.len(),
                distances.as_ptr(),
                distances.len(),
                out.as_ptr(),
                out.len(),
                back.as_ptr(),
                back.len(),
                bytes.as_mut_ptr(),
                bytes.len(),
            )
        }
    }
}
