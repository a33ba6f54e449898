//! The cases of a seed: every kind of study file, mixed.

use crate::damage;
use crate::file;
use crate::limits;
use crate::play::{self, Length};
use crate::random::Random;

/// One large file of each kind comes in so many cases.
const LARGE_EVERY: u64 = 500;

/// The bytes of the case of a number. Every case stands for itself.
pub fn case(seed: u64, number: u64) -> Vec<u8> {
    let random = &mut Random::of_case(seed, number);
    let turn = number / LARGE_EVERY;
    match number % LARGE_EVERY {
        90 => limits::most_steps(random, turn),
        190 => limits::more_steps(random, turn),
        290 => limits::most_bytes(random, turn),
        390 => limits::more_bytes(random, turn),
        _ => small(random),
    }
}

fn small(random: &mut Random) -> Vec<u8> {
    match random.weighted(&[60, 5, 3, 3, 24, 2, 2, 1]) {
        0 => study(random, 5),
        1 => study(random, 40),
        2 => Vec::new(),
        3 => vec![match random.below(3) {
            0 => random.byte(),
            _ => random.below(9) as u8,
        }],
        4 => {
            let way = random.one_of(&damage::WAYS);
            damage::once(random, way)
        }
        5 => damage::twice(random),
        6 => damage::blindly(random),
        _ => damage::noise(random),
    }
}

fn study(random: &mut Random, odd: usize) -> Vec<u8> {
    let code = 1 + random.weighted(&[35, 15, 35, 15]) as u8;
    let steps = match random.weighted(&[6, 28, 57, 8, 1]) {
        0 => random.below(5).saturating_sub(2),
        1 => random.between(3, 20),
        2 => random.between(20, 45),
        3 => random.between(45, 90),
        _ => random.between(90, 300),
    };
    file::write(&play::study(random, code, odd, Length::About(steps)))
}
