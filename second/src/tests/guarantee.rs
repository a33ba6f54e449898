//! GUARANTEE.md: what holds at every point of every generated study.

use crate::bench::Bench;
use crate::cases;
use crate::file::{self, Study};
use crate::neat::Neat;
use crate::play::Player;
use crate::protocol::{self, Bottom, Stack};
use crate::random::Random;
use crate::step::{Call, Ended, Outcome, Step};

const CASES: u64 = 2_000;

fn studies() -> impl Iterator<Item = Study> {
    (0..CASES).filter_map(|number| file::read(&cases::case(7, number)).ok())
}

/// The newest store to an address among ended calls, with what came since.
fn newest(ended: &[Ended], address: usize) -> Option<(Call, &[Ended])> {
    let stores = |ended: &Ended| match ended.call {
        Call::Store { address: a, .. } => usize::from(a) == address,
        _ => false,
    };
    let position = ended.iter().rposition(stores)?;
    Some((ended[position].call, &ended[position + 1..]))
}

fn byte_of(store: Call) -> u8 {
    match store {
        Call::Store { byte, .. } => byte,
        _ => panic!("{store:?} is no store"),
    }
}

/// (a) A load before the first race answers the byte of the newest store.
fn check_load(ended: &[Ended], call: Ended) {
    if let Call::Load { address, .. } = call.call {
        let expected = newest(ended, address.into()).map_or(0, |(store, _)| byte_of(store));
        assert_eq!(call.answer, Some(expected));
    }
}

/// (b) The image has 00 where nothing was stored, and each released byte.
fn check_image(bench: &Bench, ended: &[Ended]) {
    for (address, byte) in bench.image().into_iter().enumerate() {
        match newest(ended, address) {
            None => assert_eq!(byte, 0),
            Some((store, since)) => {
                let release = Call::Release { core: store.core() };
                if since.iter().any(|ended| ended.call == release) {
                    assert_eq!(byte, byte_of(store));
                }
            }
        }
    }
}

/// Where no place is open, no core waits; and each core's pending call is the log's.
fn check_waiting(bench: &Bench, pending: &[Option<Call>; 8]) {
    let protocol = bench.protocol();
    let open = !protocol::open_places(protocol).is_empty();
    for core in 0..8 {
        let waits = protocol.waits(core);
        assert!(open || !waits);
        assert_eq!(waits, pending[usize::from(core)].is_some());
    }
}

fn check_study(stack: Stack, steps: &[Step]) {
    let mut bench = Bench::new(stack.cleared());
    let mut ended = Vec::new();
    let mut pending = [None; 8];
    for (position, &step) in steps.iter().enumerate() {
        let first_race = bench.log().first_race();
        let answer = bench.step(step);
        match (step, answer.outcome) {
            (Step::Call(call), Outcome::Waits) => pending[usize::from(call.core())] = Some(call),
            (Step::Call(call), Outcome::Ended(ended)) => assert_eq!(ended.call, call),
            (Step::Move { .. }, Outcome::Finished(ended)) => {
                let core = usize::from(ended.call.core());
                assert_eq!(pending[core].take(), Some(ended.call));
            }
            _ => {}
        }
        if let Some(call) = answer.outcome.ended() {
            if first_race == 0 && !answer.races {
                check_load(&ended, call);
            }
            ended.push(call);
        }
        check_waiting(&bench, &pending);
        // Long studies are looked at now and then: each look goes through the whole log.
        if bench.log().first_race() == 0 && (position < 100 || position % 50 == 0) {
            check_image(&bench, &ended);
        }
    }
    assert_eq!(bench.log().count(), ended.len());
}

#[test]
fn the_guarantee_holds() {
    for study in studies() {
        let stack = Stack::of_code(study.code).expect("a known code");
        check_study(stack, &study.steps);
    }
}

#[test]
fn the_guarantee_holds_over_two_buffers() {
    for number in 0..500 {
        let random = &mut Random::of_case(8, number);
        let bottom = random.one_of(&[Bottom::Neat, Bottom::Mesi]);
        let stack = Stack { bottom, buffers: 2 };
        let mut player = Player::new(random, stack, 5);
        player.play(80);
        check_study(stack, &player.steps);
    }
}

#[test]
fn moves_and_due_are_at_most_calls_times_reach() {
    for study in studies().filter(|study| study.code == 1) {
        let mut neat = Neat::new();
        let (mut calls, mut moves) = (0, 0);
        for &step in &study.steps {
            let before = neat.due();
            match protocol::step(&mut neat, step) {
                Outcome::Refused(_) => assert_eq!(neat.due(), before),
                Outcome::Waits | Outcome::Ended(_) => {
                    calls += 1;
                    assert!(neat.due() <= before + Neat::REACH);
                }
                Outcome::Moved | Outcome::Finished(_) => {
                    moves += 1;
                    assert!(neat.due() < before);
                }
            }
            assert!(moves + neat.due() <= calls * Neat::REACH);
        }
    }
}
