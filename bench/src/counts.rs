//! The calls whose instructions the emulator counts. The system call getppid, which its record shows, stands before and
//! after each stretch that counts.

use crate::inputs::{streets, Case, Reds, CYCLE, SIGNALS};
use crate::library::Library;
use crate::plain::Plain;
use crate::same::Same;
use crate::timing::{repeat, Call, CALLS};
use std::os::unix::process::parent_id;

type Program = fn(Call, &mut [Case], usize);

fn mark() {
    let _ = parent_id();
}

/// Makes each call once on every street, and prints what was called by whom between which two marks; and before that,
/// where `main` stands, so that an address of the record can be found in the program's file.
pub fn make() {
    println!("main|{:x}", crate::main as *const () as usize);
    let programs = [("library", repeat::<Library> as Program), ("same", repeat::<Same>), ("plain", repeat::<Plain>)];
    for call in CALLS {
        for signals in SIGNALS {
            for (name, program) in programs {
                let mut cases = streets(signals, CYCLE, Reds::Wide);
                cases.truncate(1);
                // The first round links the functions and is not counted.
                program(call, &mut cases, 1);
                mark();
                program(call, &mut cases, 1);
                mark();
                println!("{}|{}|{}", call.name(), signals, name);
            }
        }
    }
}
