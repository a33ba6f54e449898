//! Lists that are broken, each way on purpose.

use crate::lists::format::{self, Broken, Request};
use crate::protocol::Stack;
use crate::random::Random;

const WAYS: [Broken; 5] = [
    Broken::Stack,
    Broken::CutShort,
    Broken::UnknownRequest,
    Broken::UnknownStep,
    Broken::UnknownPart,
];

/// The list of some requests, broken in any way.
pub fn list(random: &mut Random, stack: Stack, requests: &[Request]) -> Vec<u8> {
    let way = random.one_of(&WAYS);
    if way == Broken::Stack {
        return without_stack(random, format::write(stack, requests));
    }
    // Mostly late, so that much comes before it; what comes behind it must not be looked at.
    let first = requests.len() / 2;
    let position = random.between(first, requests.len());
    let (before, behind) = requests.split_at(position);
    let mut list = format::write(stack, before);
    list.extend(damaged(random, way, requests));
    if way != Broken::CutShort {
        list.extend(format::write(stack, behind).split_off(2));
    }
    list
}

fn without_stack(random: &mut Random, mut list: Vec<u8>) -> Vec<u8> {
    match random.below(4) {
        0 => list[0] = random.one_of(&[0, 3, 4, 255]),
        1 => list[1] = random.one_of(&[3, 4, 255]),
        2 => list.truncate(1),
        _ => list.clear(),
    }
    list
}

/// A request that cannot be read.
fn damaged(random: &mut Random, way: Broken, requests: &[Request]) -> Vec<u8> {
    match way {
        Broken::CutShort => cut(random, requests),
        Broken::UnknownRequest => vec![random.one_of(&[0, 11, 12, 255])],
        Broken::UnknownStep => {
            let kind = random.one_of(&[0, 1, 8, 255]);
            match random.below(4) {
                0 => vec![1, kind, 0, 10],
                1 => vec![2, 2, 2, 7, 0, kind, 0],
                2 => vec![8, 2, 40, 0, 2, 4, 0, kind, 0],
                _ => vec![10, 1, kind, 0, 1, 1, 0, 1, 0],
            }
        }
        Broken::UnknownPart => {
            let part = random.one_of(&[0, 6, 7, 255]);
            vec![10, 1, 4, 0, 2, 1, 0, part, 0, 2, 0]
        }
        Broken::Stack => unreachable!("the stack is no request"),
    }
}

/// One of some requests, with one byte at least left out at its end.
fn cut(random: &mut Random, requests: &[Request]) -> Vec<u8> {
    let mut bytes = Vec::new();
    format::push_request(&mut bytes, &requests[random.below(requests.len())]);
    if bytes.len() < 2 {
        return vec![3];
    }
    let kept = random.between(1, bytes.len() - 1);
    bytes.truncate(kept);
    bytes
}
