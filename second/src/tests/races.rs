//! RACES.md.

use super::steps;
use crate::race::Log;
use crate::step::{Call, Step};

/// The numbers of the calls that race, if the steps end in this order.
fn races(text: &str) -> Vec<usize> {
    let mut log = Log::default();
    let mut races = Vec::new();
    for step in steps(text) {
        let Step::Call(call) = step else {
            panic!("only calls end");
        };
        if log.end(call) {
            races.push(log.count());
        }
    }
    assert_eq!(log.first_race(), races.first().copied().unwrap_or(0));
    races
}

#[test]
fn the_examples() {
    for (text, expected) in [
        ("store 0 10 41; load 1 10", vec![2]),
        ("store 0 10 41; load 0 10; load 1 11", vec![]),
        ("store 0 10 41; release 0; acquire 1; load 1 10", vec![]),
        ("store 0 10 41; acquire 1; release 0; load 1 10", vec![4]),
        ("release 0; store 0 10 41; acquire 1; load 1 10", vec![4]),
        (
            "store 0 10 41; release 0; acquire 1; store 0 10 42; load 1 10",
            vec![5],
        ),
        (
            "store 0 10 41; store 1 10 42; load 1 10; load 0 10",
            vec![2, 4],
        ),
        ("load 1 10; store 0 10 41", vec![]),
        (
            "store 0 10 41; release 0; acquire 2; release 2; acquire 1; load 1 10",
            vec![],
        ),
        ("store 0 10 41; release 0; acquire 2; load 1 10", vec![4]),
    ] {
        assert_eq!(races(text), expected, "{text}");
    }
}

#[test]
fn numbers_stop_at_65535() {
    let mut log = Log::default();
    let load = |core| Call::Load { core, address: 10 };
    assert!(!log.end(Call::Store {
        core: 0,
        address: 10,
        byte: 0x41
    }));
    for _ in 0..70_000 {
        assert!(!log.end(load(0)));
    }
    assert!(log.end(load(1)));
    assert_eq!((log.count(), log.first_race()), (65_535, 65_535));
}
