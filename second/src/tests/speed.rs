//! The studies that are timed.

use crate::bench::Bench;
use crate::file::{self, MOST_STEPS};
use crate::protocol;
use crate::speed::{ROWS, Way};
use crate::step::{Outcome, Step};

#[test]
fn few_steps_are_refused() {
    for row in &ROWS {
        for code in 1..=4 {
            let study = row.study(code);
            assert_eq!(study.steps.len(), MOST_STEPS);
            let mut bench = Bench::new(protocol::by_code(code).expect("a known code"));
            let mut refused = 0;
            for &step in &study.steps {
                let outcome = bench.step(step).outcome;
                refused += usize::from(matches!(outcome, Outcome::Refused(_)));
                if row.way == Way::Settle {
                    assert!(matches!(step, Step::Call(_)));
                    while let Some(place) = bench.next_open(0) {
                        bench.step(Step::Move { place });
                    }
                }
            }
            assert!(refused * 10 < MOST_STEPS, "{} {code}: {refused}", row.name);
        }
    }
}

#[test]
fn every_study_fits_a_file() {
    for row in &ROWS {
        for code in 1..=4 {
            let study = row.study(code);
            assert_eq!(file::read(&file::write(&study)), Ok(study));
        }
    }
}
