//! The rules of `docs/RULES.md` a second time, and what holds the programs to them.
//!
//! The model (`street`, `equal`, `moved`, `volumes`, `seconds`, `survey`, `bands`, `named`, `exact`, `sheet`, `printed`,
//! `cases`, `client`) follows the rules' signed formulas as they stand, by brute force, and shares nothing with the proved
//! crates. The rest makes sheets, rows and requests (`random`, `streets`, `limits`, `damage`, `rows`, `offsets`, `asks`,
//! `resting`), runs the programs and the scripts on them (`run`, `scripts`) and compares (`trial`, `hold`, `brute`,
//! `coverage`, `asked`, `asked_volumes`, `asked_seconds`, `asked_survey`, `tally`); `page`, `paper` and `decimal` read the
//! pages whose sheets and tables are run, and `pencil` works out what a page does by hand. `specs` reads the definitions
//! themselves, for what is said of their names, and `cited` (with `terms`) counts how many lines of them the contracts and
//! the demands come to.

pub mod asked;
pub mod asked_seconds;
pub mod asked_survey;
pub mod asked_volumes;
pub mod asks;
pub mod bands;
pub mod brute;
pub mod cases;
pub mod cited;
pub mod client;
pub mod coverage;
pub mod damage;
pub mod decimal;
pub mod equal;
pub mod exact;
pub mod hold;
pub mod limits;
pub mod moved;
pub mod named;
pub mod offsets;
pub mod page;
pub mod paper;
pub mod pencil;
pub mod printed;
pub mod random;
pub mod resting;
pub mod rows;
pub mod run;
pub mod scripts;
pub mod seconds;
pub mod sheet;
pub mod specs;
pub mod street;
pub mod streets;
pub mod survey;
pub mod tally;
pub mod terms;
pub mod trial;
pub mod volumes;
