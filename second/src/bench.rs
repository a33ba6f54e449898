//! A protocol with the log of its calls.

use crate::call::CallFault;
use crate::protocol::{self, Protocol};
use crate::race::Log;
use crate::step::{ADDRESSES, Outcome, Refusal, Step};

#[derive(Clone)]
pub struct Bench {
    protocol: Box<dyn Protocol>,
    log: Log,
}

/// What a step came to, and whether a call that races ended with it.
#[derive(Clone, Copy, Debug, PartialEq, Eq)]
pub struct Marked {
    pub outcome: Outcome,
    pub races: bool,
}

/// How many moves a settle made, and whether a place is still open.
#[derive(Clone, Copy, Debug, PartialEq, Eq)]
pub struct Settled {
    pub moves: usize,
    pub open: bool,
}

impl Bench {
    /// A new study over a cleared protocol.
    pub fn new(protocol: Box<dyn Protocol>) -> Self {
        Bench {
            protocol,
            log: Log::default(),
        }
    }

    /// Begins a new study, whatever came before.
    pub fn set_up(&mut self) {
        self.protocol.clear();
        self.log = Log::default();
    }

    pub fn step(&mut self, step: Step) -> Marked {
        let outcome = protocol::step(self.protocol.as_mut(), step);
        let races = outcome
            .ended()
            .is_some_and(|ended| self.log.end(ended.call));
        Marked { outcome, races }
    }

    /// Makes all steps, or none if there are fewer outcomes.
    pub fn run(&mut self, steps: &[Step], outcomes: &mut [Marked]) -> Result<(), CallFault> {
        let outcomes = outcomes
            .get_mut(..steps.len())
            .ok_or(CallFault::TooFewOutcomes)?;
        for (outcome, &step) in outcomes.iter_mut().zip(steps) {
            *outcome = self.step(step);
        }
        Ok(())
    }

    /// Moves the first open place until none is open, or there is no room for the outcome.
    pub fn settle(&mut self, outcomes: &mut [Marked]) -> Settled {
        let mut moves = 0;
        while let Some(place) = self.next_open(0) {
            let Some(outcome) = outcomes.get_mut(moves) else {
                return Settled { moves, open: true };
            };
            *outcome = self.step(Step::Move { place });
            moves += 1;
        }
        Settled { moves, open: false }
    }

    pub fn next_open(&self, place: u8) -> Option<u8> {
        self.protocol.next_open(place)
    }

    /// The byte at home of an address.
    pub fn image_of(&self, address: u8) -> Result<u8, Refusal> {
        if usize::from(address) < ADDRESSES {
            Ok(self.protocol.home(address))
        } else {
            Err(Refusal::NoSuchAddress)
        }
    }

    /// The byte at home of every address.
    pub fn image(&self) -> [u8; ADDRESSES] {
        std::array::from_fn(|address| self.protocol.home(address as u8))
    }

    pub fn protocol(&self) -> &dyn Protocol {
        self.protocol.as_ref()
    }

    pub fn log(&self) -> &Log {
        &self.log
    }
}
