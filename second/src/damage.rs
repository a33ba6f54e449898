//! Files that are turned down, each way on purpose, and files damaged blindly.

use crate::file::{self, Cause};
use crate::play::{self, Length};
use crate::random::Random;

/// The ways that need no large file.
pub const WAYS: [Cause; 8] = [
    Cause::LengthMissing,
    Cause::BodyMissing,
    Cause::UnknownKind,
    Cause::LengthBelowTwo,
    Cause::LengthNotKinds,
    Cause::FirstNotProtocol,
    Cause::LaterProtocol,
    Cause::UnknownCode,
];

fn short_records(random: &mut Random) -> Vec<Vec<u8>> {
    let code = random.between(1, 4) as u8;
    let steps = random.below(10);
    file::records(&play::study(random, code, 10, Length::Exactly(steps)))
}

/// A file with one fault.
pub fn once(random: &mut Random, way: Cause) -> Vec<u8> {
    let mut records = short_records(random);
    damage(random, &mut records, way);
    records.concat()
}

/// A file with two faults: the order of the checks says which one counts.
pub fn twice(random: &mut Random) -> Vec<u8> {
    let mut records = short_records(random);
    for _ in 0..2 {
        let way = random.one_of(&WAYS);
        damage(random, &mut records, way);
    }
    records.concat()
}

/// A sound file in which some bytes are altered, added or left out.
pub fn blindly(random: &mut Random) -> Vec<u8> {
    let mut bytes = short_records(random).concat();
    for _ in 0..random.between(1, 3) {
        let place = random.below(bytes.len().max(1)).min(bytes.len());
        let byte = match random.below(3) {
            0 => random.byte(),
            _ => random.below(9) as u8,
        };
        match random.below(4) {
            0 if place < bytes.len() => bytes[place] = byte,
            1 if place < bytes.len() => bytes[place] ^= 1 << random.below(8),
            2 if place < bytes.len() => {
                bytes.remove(place);
            }
            _ => bytes.insert(place, byte),
        }
    }
    bytes
}

/// A few bytes that look a little like records.
pub fn noise(random: &mut Random) -> Vec<u8> {
    let length = random.between(2, 40);
    (0..length)
        .map(|_| match random.below(4) {
            0 => 0,
            1 => random.byte(),
            _ => random.below(9) as u8,
        })
        .collect()
}

fn damage(random: &mut Random, records: &mut Vec<Vec<u8>>, way: Cause) {
    let place = random.between(0, records.len());
    match way {
        Cause::LengthMissing => {
            // One byte where two should be, at the end of the file.
            records.truncate(place);
            records.push(vec![random.one_of(&[0, 3, 4, 5, 255])]);
        }
        Cause::BodyMissing => {
            records.truncate(place);
            let bytes = cut(random);
            records.push(bytes);
        }
        Cause::UnknownKind => {
            let kind = match random.below(4) {
                0 => 0,
                1 => 8,
                2 => 256 * random.between(1, 255) as u16 + random.between(0, 8) as u16,
                _ => random.between(8, 65_535) as u16,
            };
            let body = body(random);
            records.insert(place, file::raw_record(kind, &body));
        }
        Cause::LengthBelowTwo => {
            let bytes = match random.below(3) {
                0 => vec![0, 0],
                _ => vec![1, 0, random.below(9) as u8],
            };
            records.insert(place, bytes);
        }
        Cause::LengthNotKinds => {
            let kind = random.between(1, 7);
            let right = [1, 2, 3, 1, 1, 2, 1][kind - 1];
            let mut body = body(random);
            if body.len() == right {
                body.push(0);
            }
            records.insert(place, file::raw_record(kind as u16, &body));
        }
        Cause::FirstNotProtocol => {
            if records.len() > 1 && random.percent(50) {
                records.remove(0);
            } else {
                let kind = random.between(2, 7);
                let fields = [2, 3, 1, 1, 2, 1][kind - 2];
                let body: Vec<u8> = (0..fields).map(|_| random.byte()).collect();
                records.insert(0, file::raw_record(kind as u16, &body));
            }
        }
        Cause::LaterProtocol => {
            let code = match random.below(3) {
                0 => random.byte(),
                1 => random.one_of(&[0, 5]),
                _ => random.between(1, 4) as u8,
            };
            records.insert(place.max(1), file::protocol_record(code));
        }
        Cause::UnknownCode => {
            let code = match random.below(3) {
                0 => 0,
                1 => 5,
                _ => random.byte_from(5),
            };
            records[0] = file::protocol_record(code);
        }
        Cause::NoRecord => records.clear(),
        Cause::TooManyBytes | Cause::TooManySteps => {
            unreachable!("the large ways are in the module of limits")
        }
    }
}

/// A body of up to five bytes.
fn body(random: &mut Random) -> Vec<u8> {
    (0..random.below(6)).map(|_| random.byte()).collect()
}

/// A record that ends too early, with both of its length bytes.
fn cut(random: &mut Random) -> Vec<u8> {
    match random.below(10) {
        0 | 1 => return vec![1, 0],
        2 => return vec![2, 0, random.below(9) as u8],
        3 => return vec![255, 255, 1, 0, 2],
        4 => return vec![3, 1, 1, 0, 2],
        _ => {}
    }
    let records = short_records(random);
    let position = random.below(records.len());
    let mut bytes = records[position].clone();
    let kept = random.between(2, bytes.len() - 1);
    bytes.truncate(kept);
    bytes
}
