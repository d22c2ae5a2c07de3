//! The library's method once more, as a Rust programmer would write it: slices, iterators, checks, and no unsafe.

mod bands;
mod plans;
mod search;
mod sheet;
mod street;
mod writer;

use crate::calls::{program, Calls, Measure, Plan, Sheet, Writing};

program!(Same);
