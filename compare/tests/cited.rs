//! The count of cited lines on a small house of its own, whose lines can be counted by hand.

use compare::cited::{total, House, Part};
use compare::scripts::Folder;

const LOW: &str = "-- A file below.
use lib.Dec.{leb}

-- three lines, with its constructors
pub data Found : Type 0 where
  nowhere : Found
  at : ℕ → Found

-- two, and one for its rank
abbrev pub ◌and◌ : Bool → Bool → Bool
p and q = cond p q false

infixr 5 ◌and◌
abbrev pub red : ℕ
red = 5

unfoldable pub length : ℕ → ℕ
length n = n
";

const HIGH: &str = "use Rattle.low.specs.Low.{Found, at as found, red, length}
use Rattle.low.specs.Low as low
use Rattle.high.specs.declared.Plan.{Plan}

-- it takes a field `red`, gives one, and binds `length`: neither definition is cited
abbrev pub field : Plan → Found → Plan
field p (found length) =
    record { red = p.red; ends = λ k. k + length }

-- it cites an operator and a constructor through their file
abbrev pub both : ℕ → ℕ
both n = (low.nowhere) low.◌and◌ n

pub record Kept (red : ℕ) : Type 0 where
  -- the parameter, and not the definition
  pub same : red ≡ red
";

const STEPS: &str = "use Rattle.low.specs.Low.{length}
use Rattle.high.specs.High.{Kept}

abbrev pub step : ℕ → Kept 0
step n = length n
";

const CODE: &str = "ghost use Rattle.high.specs.High.{field, Kept};
ghost use Rattle.high.specs.Steps.{step};

// A contract of two lines.
pub fn measure(red: u32, field: [u8; 4]) -> u32
    requires { Kept red × field.now }
    ensures one { result ≡ 1 }
    ensures two { result ≡ 1 }
{
    step(red)
}
";

/// A house of three crates, and what its contracts and a file of it cite.
fn house() -> (Folder, House) {
    let folder = Folder::make();
    folder.put("crates.txt", "# crates\nlow:\nhigh: low\nbands: low high\n");
    folder.put("crates/low/specs/Low.antt", LOW);
    folder.put("crates/high/specs/Lib.antt", "pub mod High\npub mod Steps\n");
    folder.put("crates/high/specs/High.antt", HIGH);
    folder.put("crates/high/specs/Steps.antt", STEPS);
    folder.put("crates/bands/src/lib.rt", CODE);
    let house = House::read(&folder.0);
    (folder, house)
}

/// The lines that are cited of each file, in the order of the crates.
fn counts(parts: &[Part]) -> Vec<usize> {
    parts.iter().map(|part| part.cited).collect()
}

#[test]
fn what_is_bound_taken_or_given_cites_nothing() {
    let (_folder, house) = house();
    let parts = house.parts(&house.closure(&house.all_of(&["high/specs/High.antt"])));
    let lines: Vec<(&str, usize)> = parts.iter().map(|part| (part.path.as_str(), part.lines)).collect();
    assert_eq!(
        lines,
        [("low/specs/Low.antt", 10), ("high/specs/High.antt", 7), ("high/specs/Steps.antt", 2)]
    );
    assert_eq!((counts(&parts), total(&parts)), (vec![6, 7, 0], 13));
}

#[test]
fn a_contract_cites_what_it_names_and_a_step_what_it_uses() {
    let (folder, house) = house();
    let (called, missing) = house.contracts(&folder.0);
    assert_eq!(counts(&house.parts(&house.closure(&called))), [0, 2, 0]);
    assert_eq!(missing.len(), 10, "{missing:?}");
    let steps = house.closure(&house.all_of(&["high/specs/Steps.antt"]));
    assert_eq!(counts(&house.parts(&steps)), [2, 2, 2]);
}
