//! The generator and the corpus.

use crate::cases;
use crate::corpus;
use crate::damage;
use crate::file::{self, Cause};
use crate::limits;
use crate::random::Random;
use crate::report;

#[test]
fn a_case_depends_on_seed_and_number_alone() {
    assert_eq!(cases::case(1, 17), cases::case(1, 17));
    let all = |seed| -> Vec<Vec<u8>> { (0..50).map(|n| cases::case(seed, n)).collect() };
    assert_eq!(all(1), all(1));
    assert_ne!(all(1), all(2));
}

#[test]
fn each_damage_does_what_it_is_for() {
    for way in damage::WAYS {
        for number in 0..200 {
            let bytes = damage::once(&mut Random::of_case(3, number), way);
            let fault = file::read(&bytes).expect_err("the file is damaged");
            assert_eq!(fault.cause, way, "case {number}");
        }
    }
}

#[test]
fn limits_are_met_exactly() {
    for turn in 0..12 {
        let random = &mut Random::of_case(5, turn);
        let study = file::read(&limits::most_steps(random, turn)).expect("a sound file");
        assert_eq!(study.steps.len(), file::MOST_STEPS);
        assert!(file::read(&limits::more_steps(random, turn)).is_err());
        let bytes = limits::most_bytes(random, turn);
        assert_eq!(bytes.len(), file::MOST_BYTES);
        let fault = file::read(&bytes).expect_err("no file of this length is sound");
        assert_ne!(fault.cause, Cause::TooManyBytes);
        let fault = file::read(&limits::more_bytes(random, turn)).expect_err("it is too long");
        assert_eq!(fault.cause, Cause::TooManyBytes);
    }
}

#[test]
fn a_corpus_is_read_back() {
    let mut bytes = Vec::new();
    corpus::write(&mut bytes, 1, 60).expect("writing to memory");
    let cases = corpus::read(&bytes).expect("a whole corpus");
    assert_eq!(cases.len(), 60);
    for (number, case) in cases.iter().enumerate() {
        let study = match corpus::FIRST.get(number) {
            Some(first) => first.to_vec(),
            None => cases::case(1, number as u64 - 3),
        };
        assert_eq!(case.study, study);
        assert_eq!(case.expected, report::of_file(&study).text.as_bytes());
    }
    assert!(corpus::read(&bytes[..bytes.len() - 1]).is_none());
}

#[test]
fn a_sound_file_is_what_the_writer_makes_of_it() {
    for number in 0..500 {
        let bytes = cases::case(11, number);
        if let Ok(study) = file::read(&bytes) {
            assert_eq!(file::write(&study), bytes);
        }
    }
}
