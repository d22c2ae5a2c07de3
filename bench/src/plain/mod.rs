//! The obvious program: the formulas of docs/RULES.md as they stand, with a signed remainder wherever they have one,
//! and the measure by trying every instant of the cycle at every signal.

mod bands;
mod plans;
mod sheet;
mod street;
mod writer;

use crate::calls::{program, Calls, Measure, Plan, Sheet, Writing};
use crate::inputs::Case;

program!(Plain);

/// The widths that a moved plan of a street may be asked for, from the least to the greatest.
pub fn range(case: &Case) -> (i32, i32) {
    plans::range(&street::Street::of(case.cycle, &case.reds, &case.distances, &case.out, &case.back))
}
