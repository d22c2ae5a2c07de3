//! Plans of `cases` held to exact times: what rounding may cost, at any fine instant and over every set of offsets.

use compare::asks::ask;
use compare::bands::{measure, stretches};
use compare::equal::Plan;
use compare::exact::Fine;
use compare::hold::plans_asked;
use compare::moved::{plan, Ask};
use compare::named::{named, Named};
use compare::offsets::{every, offsets};
use compare::random::Random;
use compare::resting::{holds, Resting};
use compare::sheet::read;
use compare::street::Street;
use compare::streets;
use compare::tally::Tally;
use compare::trial::in_parallel;

const SEED: u64 = 3_118;

/// A street with its exact times and the plans that `cases` gives it, the equal one first.
struct Planned {
    street: Street,
    fine: Fine,
    plans: Vec<Plan>,
}

impl Planned {
    fn m(&self) -> i128 {
        i128::from(self.plans[0].not_whole)
    }

    /// The reported equal width, in units.
    fn equal(&self) -> i128 {
        self.fine.unit * i128::from(self.plans[0].outbound)
    }

    /// Whether some signal rests in green.
    fn rests(&self) -> bool {
        self.street.reds.contains(&0)
    }

    fn narrower(&self, offsets: &[i128]) -> i128 {
        self.fine.widths(offsets).into_iter().min().expect("two directions")
    }
}

/// The streets whose times can be counted, each with its equal plan and some that it is asked for.
fn planned(streets: Vec<Street>, more: u64) -> Vec<Planned> {
    let asks = |(k, street): (usize, Street)| {
        let random = &mut Random::new(SEED, k as u64);
        let asked: Vec<Ask> = (0..more).map(|_| ask(random, &street)).collect();
        let served = asked.into_iter().filter(|&ask| plan(&street, ask, 32).is_ok());
        let asks = [Ask::Equal].into_iter().chain(served).collect();
        (street, asks)
    };
    let countable = streets.into_iter().filter(|street| Fine::of(street).is_some());
    let asked: Vec<(Street, Vec<Ask>)> = countable.enumerate().map(asks).collect();
    let plans = plans_asked(&asked);
    let one = |((street, _), plans): ((Street, Vec<Ask>), Vec<Plan>)| Planned {
        fine: Fine::of(&street).expect("a unit"),
        street,
        plans,
    };
    asked.into_iter().zip(plans).map(one).collect()
}

/// Gaps in whole steps of so many millimetres, and the speeds there and back: half ticks both ways, times that are whole
/// one way alone, and any.
const TINY: [(i64, &[i64], &[i64]); 4] = [
    (50, &[1_000], &[1_000]),
    (100, &[1_000], &[1_500, 3_000, 4_000]),
    (100, &[1_500, 3_000, 4_000], &[1_000]),
    (25, &[1_000, 1_500, 2_000, 2_500, 3_000], &[1_000, 2_000, 2_500, 3_000, 4_000]),
];

/// A street of few signals whose unit is so coarse that every fine instant can be tried.
fn tiny(k: u64) -> Street {
    let random = &mut Random::new(SEED + 1, k);
    let (n, cycle, (step, there, back)) = (random.within(1, 4), random.within(10, 14), random.pick(&TINY));
    let mut street = Street { cycle, reds: vec![], distances: vec![], outbound: vec![], inbound: vec![] };
    let mut along = random.within(0, 100);
    for _ in 0..n {
        let any = random.within(1, cycle - 1);
        street.reds.push(random.pick(&[0, 1, 2, 3, cycle / 2, any]));
        street.distances.push(along);
        along += step * random.within(1, 20);
    }
    street.outbound = (1..n).map(|_| random.pick(there)).collect();
    street.inbound = (1..n).map(|_| random.pick(back)).collect();
    street
}

/// Offsets at fine instants near those of whole halves.
fn between(random: &mut Random, fine: &Fine, offsets: &[i64]) -> Vec<i128> {
    let near = |offset: i128| offset + fine.unit * i128::from(random.within(0, 999)) / 1_000;
    fine.in_units(offsets).into_iter().map(near).collect()
}

#[test]
fn a_width_from_red_ends_is_the_width_over_every_instant() {
    for k in 0..60 {
        let (street, random) = (tiny(k), &mut Random::new(SEED + 2, k));
        let fine = Fine::of(&street).expect("a coarse unit");
        let whole = offsets(random, &street);
        let offsets = between(random, &fine, &whole);
        for lags in fine.lags(0) {
            let clear: Vec<bool> = (0..fine.cycle()).map(|at| fine.clear(&offsets, &lags, at)).collect();
            let lengths: Vec<i128> = (0..fine.cycle()).map(|at| fine.stretch(&offsets, &lags, at)).collect();
            assert_eq!(lengths, stretches(&clear).into_iter().map(i128::from).collect::<Vec<i128>>());
            assert_eq!(Some(fine.width(&offsets, &lags)), lengths.into_iter().max(), "{street:?}");
        }
    }
}

#[test]
fn whole_times_are_exact() {
    let whole = |k: u64| {
        let street = streets::street(&mut Random::new(SEED + 3, k));
        let planned = plan(&street, Ask::Equal, 32).expect("a plan");
        (planned.not_whole == 0 && street.cycle < 500).then_some(street)
    };
    let streets: Vec<Street> = (0..600).filter_map(whole).collect();
    assert!(streets.len() > 20, "only {} streets have whole times", streets.len());
    for (k, street) in streets.iter().enumerate() {
        let fine = Fine::of(street).expect("whole times need no fine unit");
        let offsets = offsets(&mut Random::new(SEED + 4, k as u64), street);
        let (out, back) = measure(street, &offsets);
        let widths = [out.width, back.width].map(|width| fine.unit * i128::from(width));
        assert_eq!(fine.widths(&fine.in_units(&offsets)), widths, "{street:?}");
    }
}

/// The departures of a named band at least m halves after its start and more than m before its end: first and count.
fn kept(planned: &Planned, band: &Named) -> (i128, i128) {
    let (unit, m) = (planned.fine.unit, planned.m());
    (unit * (i128::from(band.start) + m), (unit * (i128::from(band.width) - 2 * m)).max(0))
}

/// Holds the kept departures of one plan to exact times, each by itself where they are few.
fn named_band_is_clear(tally: &mut Tally, planned: &Planned, plan: &Plan) {
    let fine = &planned.fine;
    let offsets = fine.in_units(&plan.offsets);
    let lags = fine.lags(plan.reference as usize - 1);
    for (band, lags) in named(&planned.street, plan).iter().zip(&lags) {
        let (first, count) = kept(planned, band);
        let all = count == 0 || fine.stretch(&offsets, lags, first) >= count;
        let each = count > 2_000 || (first..first + count).all(|at| fine.clear(&offsets, lags, at));
        assert!(all && each, "{plan:?} on {:?}", planned.street);
        let (rounded, more) = (count > 0 && planned.m() > 0, fine.clear(&offsets, lags, first - 1));
        tally.note("named bands with departures kept", rounded);
        tally.note("named bands that keep all they can at one end", rounded && !more);
    }
}

fn equal_plan_loses_little(tally: &mut Tally, planned: &Planned) {
    let least = planned.equal() - planned.fine.unit * planned.m();
    let widths = planned.fine.widths(&planned.fine.in_units(&planned.plans[0].offsets));
    assert!(widths.iter().all(|&width| width >= least), "{:?} on {:?}", planned.plans[0], planned.street);
    tally.note("equal plans that lose m halves", planned.m() > 0 && least > 0 && widths.contains(&least));
}

/// Holds one set of offsets to the most that any can gain.
fn gains_little(tally: &mut Tally, planned: &Planned, offsets: &[i128]) {
    let most = planned.equal() + planned.fine.unit * planned.m();
    let narrower = planned.narrower(offsets);
    assert!(
        narrower <= most,
        "{offsets:?} have {narrower}, the unit is {}: {:?}",
        planned.fine.unit,
        planned.street
    );
    tally.note("offsets that gain", narrower > planned.equal());
    let gained = planned.m() > 0 && narrower == most;
    tally.note("offsets that gain m halves", gained);
    tally.note("offsets that gain m halves beside a red of 0", gained && planned.rests());
}

const WANTED: [(&str, usize); 13] = [
    ("streets", 800),
    ("streets with a red of 0", 200),
    ("streets with a red of 0 and a rounded time", 100),
    ("streets with every red 0", 20),
    ("streets with a rounded time", 400),
    ("streets with 5 signals or more", 30),
    ("plans", 3_000),
    ("named bands with departures kept", 1_000),
    ("named bands that keep all they can at one end", 20),
    ("equal plans that lose m halves", 5),
    ("offsets that gain", 100),
    ("offsets that gain m halves", 20),
    ("offsets that gain m halves beside a red of 0", 5),
];

#[test]
fn rounding_costs_no_more_than_m_halves() {
    let any = (0..400).map(|k| streets::street(&mut Random::new(SEED + 5, k)));
    let few = (0..200)
        .map(|k| streets::sized(&mut Random::new(SEED + 6, k), 1 + k as usize % 4, 10 + k as i64 % 90));
    let mut tally = Tally::of(&WANTED);
    for (k, planned) in planned((0..500).map(tiny).chain(few).chain(any).collect(), 4).iter().enumerate() {
        tally.note("streets", true);
        tally.note("streets with a rounded time", planned.m() > 0);
        tally.note("streets with a red of 0", planned.rests());
        tally.note("streets with a red of 0 and a rounded time", planned.rests() && planned.m() > 0);
        tally.note("streets with every red 0", holds(&planned.street, Resting::All));
        tally.note("streets with 5 signals or more", planned.street.signals() >= 5);
        equal_plan_loses_little(&mut tally, planned);
        for plan in &planned.plans {
            tally.note("plans", true);
            assert_eq!(plan.not_whole, planned.plans[0].not_whole, "m belongs to the street");
            named_band_is_clear(&mut tally, planned, plan);
            gains_little(&mut tally, planned, &planned.fine.in_units(&plan.offsets));
        }
        let random = &mut Random::new(SEED + 7, k as u64);
        for _ in 0..20 {
            let whole = offsets(random, &planned.street);
            gains_little(&mut tally, planned, &planned.fine.in_units(&whole));
            gains_little(&mut tally, planned, &between(random, &planned.fine, &whole));
        }
    }
    tally.close();
}

/// The widest that the narrower exact band gets under any offsets in whole halves.
fn widest(planned: &Planned) -> i128 {
    let narrower = |offsets: Vec<i64>| planned.narrower(&planned.fine.in_units(&offsets));
    every(&planned.street).map(narrower).max().expect("some offsets")
}

#[test]
fn no_offsets_gain_more_than_m_halves() {
    let street = |k: u64| {
        let random = &mut Random::new(SEED + 8, k);
        let (n, cycle) = random.pick(&[(2, 10), (2, 11), (2, 17), (3, 10)]);
        streets::sized(random, n, cycle)
    };
    let few = |street: &Street| street.signals() < 3 || (street.signals() == 3 && street.cycle == 10);
    let small = (0..960).map(tiny).filter(few);
    let all = planned(small.chain((0..40).map(street)).collect(), 0);
    let gained = in_parallel(&all, |planned| {
        let (widest, m) = (widest(planned), planned.fine.unit * planned.m());
        assert!(widest <= planned.equal() + m, "{widest} on {:?}", planned.street);
        assert!(widest >= planned.equal() - m, "{widest} on {:?}", planned.street);
        (m > 0 && widest == planned.equal() + m).then_some(())
    });
    let resting = all.iter().filter(|planned| planned.rests()).count();
    println!("{} streets, {resting} with a red of 0; {} gain m halves", all.len(), gained.len());
    assert!(all.len() > 100 && resting > 30 && gained.len() > 3, "too little is shown");
}

#[test]
fn the_bounds_are_met_by_streets_worked_out_by_hand() {
    let row_9 = read(b"1\n10\n2\n0 5\n50 5\n1\n1000 1000\n").expect("a street");
    let unlike = read(b"1\n10\n2\n3350 6\n3800 4\n1\n3000 3000\n").expect("a street");
    let both = planned(vec![row_9, unlike], 0);
    assert_eq!((both[0].plans[0].best, both[0].m(), both[0].fine.unit, widest(&both[0])), (8, 1, 1, 9));
    assert_eq!((both[1].plans[0].best, both[1].m(), both[1].fine.unit, widest(&both[1])), (6, 1, 1, 7));
    assert_eq!(both[1].narrower(&[0, 0]), 7);
}
