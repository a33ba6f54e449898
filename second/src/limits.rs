//! Files at the limits of length. They are large, so there are few of them.

use crate::file::{self, MOST_BYTES, MOST_STEPS};
use crate::play::{self, Length};
use crate::random::Random;
use crate::step::{Call, Step};

fn full(random: &mut Random, code: u8) -> Vec<u8> {
    file::write(&play::study(random, code, 3, Length::Exactly(MOST_STEPS)))
}

/// Exactly as many steps as a file may have.
pub fn most_steps(random: &mut Random, turn: u64) -> Vec<u8> {
    full(random, 1 + (turn % 4) as u8)
}

/// As many steps as a file may have, and then one record more: mostly a sound step, in turn a
/// later protocol or a damaged record.
pub fn more_steps(random: &mut Random, turn: u64) -> Vec<u8> {
    let code = random.between(1, 4) as u8;
    let mut bytes = full(random, code);
    let step = file::step_record(Step::Call(Call::Acquire { core: 0 }));
    match turn % 6 {
        1 => bytes.extend(file::protocol_record(random.between(0, 6) as u8)),
        3 => {
            let tail: &[u8] = random.one_of::<&[u8]>(&[
                &[3],
                &[3, 0, 4, 0],
                &[0, 0],
                &[2, 0, 9, 0],
                &[4, 0, 4, 0, 0, 0],
            ]);
            bytes.extend(tail);
        }
        5 => {
            // The step that is one too many comes before a record that is damaged too.
            bytes.extend(step);
            bytes.push(3);
        }
        _ => bytes.extend(step),
    }
    bytes
}

/// Exactly as many bytes as a file may have. No such file is sound, since no sound one has more
/// than 28,677.
pub fn most_bytes(random: &mut Random, turn: u64) -> Vec<u8> {
    let code = random.between(1, 4) as u8;
    match turn % 4 {
        0 => {
            // Steps to the end, of which the last is cut short or not even looked at.
            let mut bytes = file::protocol_record(code);
            while bytes.len() < MOST_BYTES {
                bytes.extend(file::step_record(Step::Call(Call::Store {
                    core: random.below(8) as u8,
                    address: random.below(64) as u8,
                    byte: random.byte(),
                })));
            }
            bytes.truncate(MOST_BYTES);
            bytes
        }
        1 => up_to_the_end(random, code, 9, 0),
        2 => up_to_the_end(random, code, 7, 0),
        _ => up_to_the_end(random, code, 7, 1),
    }
}

/// A few steps, and then one record of a kind that has all the bytes that are left, or says that
/// it has so many more.
fn up_to_the_end(random: &mut Random, code: u8, kind: u16, beyond: usize) -> Vec<u8> {
    let steps = random.below(20);
    let mut bytes = file::write(&play::study(random, code, 0, Length::Exactly(steps)));
    let length = (MOST_BYTES - bytes.len() - 2 + beyond) as u16;
    bytes.extend(length.to_le_bytes());
    bytes.extend(kind.to_le_bytes());
    bytes.resize(MOST_BYTES, 0);
    bytes
}

/// At least one byte more than a file may have, whatever else is wrong with it.
pub fn more_bytes(random: &mut Random, turn: u64) -> Vec<u8> {
    let mut bytes = match turn % 3 {
        0 => most_bytes(random, turn / 3),
        1 => vec![random.byte()],
        _ => {
            let code = random.between(1, 4) as u8;
            full(random, code)
        }
    };
    let length = match turn % 5 {
        4 => random.between(MOST_BYTES + 2, 2 * MOST_BYTES + 10),
        _ => MOST_BYTES + 1,
    };
    bytes.resize(length, 0);
    bytes
}
