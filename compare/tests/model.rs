//! The model by itself: the rules' own examples, and what a plan means, tried by brute force on small streets.

use compare::bands::{measure, Band};
use compare::equal::equal;
use compare::printed::plan_prints;
use compare::random::Random;
use compare::sheet::{read, write, STREET_A};
use compare::street::{link_time, refusal, Street};
use compare::streets;

/// A street of two signals with the same red and a link of the same ticks each way.
fn two_signals(cycle: i64, red: i64, ticks: i64) -> Vec<u8> {
    format!("1\n{cycle}\n2\n0 {red}\n{} {red}\n1\n1000 1000\n", 100 * ticks).into_bytes()
}

#[test]
fn the_rules_examples_come_out() {
    let rows: [(&[u8], &str); 7] = [
        (STREET_A, "1 60 60 60 0\n0\n10\n"),
        (b"1\n600\n1\n0 240\n0\n", "1 720 720 720 0\n0\n"),
        (&two_signals(600, 300, 300), "1 600 600 600 0\n0\n600\n"),
        (&two_signals(600, 300, 150), "1 300 300 300 0\n0\n0\n"),
        (&two_signals(600, 450, 150), "1 0 0 0 0\n0\n0\n"),
        (&two_signals(600, 500, 150), "1 -100 0 0 0\n0\n0\n"),
        (b"1\n10\n2\n0 5\n50 5\n1\n1000 1000\n", "1 8 8 8 1\n0\n0\n"),
    ];
    for (sheet, text) in rows {
        assert_eq!(plan_prints(sheet), text, "{}", sheet.escape_ascii());
    }
}

#[test]
fn each_link_is_rounded_by_itself() {
    assert_eq!(link_time(49, 1_000), (0, false));
    assert_eq!(link_time(50, 1_000), (1, false));
    assert_eq!(link_time(100, 1_000), (1, true));
    let two_links = plan_prints(b"1\n100\n3\n0 1\n50 1\n100 1\n2\n1000 40000\n1000 40000\n");
    // Outbound each link takes 1 tick and inbound 0, so signals 2 and 3 lie 1 and 2 halves after signal 1.
    assert!(two_links.ends_with("0\n1\n2\n") && two_links.contains(" 2\n"), "{two_links}");
}

#[test]
fn measuring_finds_the_bands_of_street_a() {
    let street = read(STREET_A).unwrap();
    assert_eq!(measure(&street, &[0, 10]), (Band { width: 60, start: 40 }, Band { width: 60, start: 60 }));
}

/// A random street whose cycle is short enough to try every departure.
fn small_street(random: &mut Random) -> Street {
    loop {
        let street = streets::street(random);
        if street.cycle <= 40 {
            return street;
        }
    }
}

#[test]
fn the_reported_widths_are_the_measured_ones() {
    for number in 0..400 {
        let street = small_street(&mut Random::new(1, number));
        let plan = equal(&street, 32).unwrap();
        let (out, back) = measure(&street, &plan.offsets);
        assert_eq!((out.width, back.width), (plan.outbound, plan.inbound), "{street:?}");
    }
}

#[test]
fn no_offsets_give_two_signals_more() {
    for number in 0..60 {
        let mut street = small_street(&mut Random::new(2, number));
        let n = street.signals().min(2);
        street.reds.truncate(n);
        street.distances.truncate(n);
        street.outbound.truncate(n - 1);
        street.inbound.truncate(n - 1);
        let plan = equal(&street, 32).unwrap();
        let smaller = |offset| {
            let (out, back) = measure(&street, &[0, offset][..n]);
            out.width.min(back.width)
        };
        let most = (0..street.halves()).map(smaller).max().unwrap();
        assert_eq!(most, plan.outbound, "{street:?}");
    }
}

#[test]
fn a_written_sheet_reads_back() {
    for number in 0..400 {
        let street = streets::street(&mut Random::new(3, number));
        assert_eq!(street.fault(32), None, "{street:?}");
        assert_eq!(read(&write(&street)), Ok(street));
    }
}

#[test]
fn counts_are_judged_on_their_whole_lines() {
    let code = |text: &str| read(text.as_bytes()).unwrap_err();
    for text in
        ["", "1", "2\n", "2\n100\n33\n", "1\n100\n33", "1\n100\n33 ", "1\n100\n33 \n", "1\n100\n033\n"]
    {
        assert_eq!(code(text), refusal(1, 0), "{text:?}");
    }
    for text in ["1\n100\n33\n", "1\n100\n0\nx", "1\n100\n1\n0 40\n1\n", "1\n100\n1\n0 40\n1\nx"] {
        assert_eq!(code(text), refusal(2, 0), "{text:?}");
    }
    let padded = |length: usize| format!("{:x<length$}", "1\n100\n33\n");
    assert_eq!(code(&padded(2_048)), refusal(2, 0));
    assert_eq!(code(&padded(2_049)), refusal(1, 0));
}

#[test]
fn the_first_fault_in_the_order_of_codes_is_named() {
    let with = |cycle, reds: [i64; 3], distances: [i64; 3], speed| Street {
        cycle,
        reds: reds.to_vec(),
        distances: distances.to_vec(),
        outbound: vec![1_000, speed],
        inbound: vec![40_000, 1_000],
    };
    assert_eq!(with(100, [1, 99, 50], [0, 1, 20_000_000], 40_000).fault(3), None);
    assert_eq!(with(100, [0, 99, 0], [0, 1, 20_000_000], 40_000).fault(3), None);
    assert_eq!(with(9, [9, 9, 9], [0, 0, 0], 0).fault(2), Some(refusal(3, 0)));
    assert_eq!(with(6_001, [6_001; 3], [0, 0, 0], 0).fault(3), Some(refusal(4, 0)));
    assert_eq!(with(100, [0, 99, 100], [0, 0, 0], 0).fault(3), Some(refusal(5, 3)));
    assert_eq!(with(100, [1, 99, 50], [20_000_001, 1, 2], 0).fault(3), Some(refusal(6, 1)));
    assert_eq!(with(100, [1, 99, 50], [5, 6, 6], 0).fault(3), Some(refusal(6, 3)));
    assert_eq!(with(100, [1, 99, 50], [5, 6, 7], 999).fault(3), Some(refusal(7, 2)));
}
