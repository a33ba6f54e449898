//! What the bench asks of a protocol, the stacks of protocols, and those with a code.

use crate::buffer::Buffer;
use crate::mesi::Mesi;
use crate::neat::Neat;
use crate::step::{Call, Ended, Outcome, Refusal, Step};

/// The kinds of messages that can be on their way.
#[derive(Clone, Copy, Debug, PartialEq, Eq)]
pub enum Kind {
    GetLine,
    Data,
    Put,
    PutAck,
    Commit,
    Close,
    PutAllAck,
}

pub trait Protocol {
    /// Leaves the state in which every study begins.
    fn clear(&mut self);

    /// Begins a call that the table of refusals has let through. Answers what ended at once, or
    /// nothing if the core now waits.
    fn begin(&mut self, call: Call) -> Option<Ended>;

    /// Moves the message at a place. Answers the call that ended with it, if one did.
    fn deliver(&mut self, place: u8) -> Result<Option<Ended>, Refusal>;

    /// Whether a core waits for a call.
    fn waits(&self, core: u8) -> bool;

    /// The message that can be moved at a place: the place is open exactly if there is one.
    fn message(&self, place: u8) -> Option<Kind>;

    /// The first open place at or after a place.
    fn next_open(&self, place: u8) -> Option<u8> {
        (place..=u8::MAX).find(|&place| self.message(place).is_some())
    }

    /// The byte at home. The address is in range.
    fn home(&self, address: u8) -> u8;

    /// A bound on what one core call adds to the moves that are still to come.
    fn reach(&self) -> usize;

    /// Address and byte of each buffered store of a core, oldest first.
    fn entries(&self, _core: u8) -> Vec<(u8, u8)> {
        Vec::new()
    }

    /// Another protocol in the same state, to try steps with.
    fn fork(&self) -> Box<dyn Protocol>;
}

impl Clone for Box<dyn Protocol> {
    fn clone(&self) -> Self {
        self.fork()
    }
}

#[derive(Clone, Copy, Debug, PartialEq, Eq)]
pub enum Bottom {
    Neat,
    Mesi,
}

impl Bottom {
    /// Its number in a list of requests.
    pub fn number(self) -> u8 {
        match self {
            Bottom::Neat => 1,
            Bottom::Mesi => 2,
        }
    }
}

/// A protocol with so many store buffers over it.
#[derive(Clone, Copy, Debug, PartialEq, Eq)]
pub struct Stack {
    pub bottom: Bottom,
    pub buffers: u8,
}

impl Stack {
    pub fn of_code(code: u8) -> Option<Self> {
        let (bottom, buffers) = match code {
            1 => (Bottom::Neat, 0),
            2 => (Bottom::Mesi, 0),
            3 => (Bottom::Neat, 1),
            4 => (Bottom::Mesi, 1),
            _ => return None,
        };
        Some(Stack { bottom, buffers })
    }

    pub fn cleared(self) -> Box<dyn Protocol> {
        let bottom: Box<dyn Protocol> = match self.bottom {
            Bottom::Neat => Box::new(Neat::new()),
            Bottom::Mesi => Box::new(Mesi::new()),
        };
        (0..self.buffers).fold(bottom, |below, _| Box::new(Buffer::over(below)))
    }
}

/// The cleared protocol of a code.
pub fn by_code(code: u8) -> Option<Box<dyn Protocol>> {
    Stack::of_code(code).map(Stack::cleared)
}

/// Makes one step, refusals first.
pub fn step(protocol: &mut dyn Protocol, step: Step) -> Outcome {
    match step {
        Step::Call(call) => match call.refusal(|core| protocol.waits(core)) {
            Some(refusal) => Outcome::Refused(refusal),
            None => protocol.begin(call).map_or(Outcome::Waits, Outcome::Ended),
        },
        Step::Move { place } => match protocol.deliver(place) {
            Err(refusal) => Outcome::Refused(refusal),
            Ok(ended) => ended.map_or(Outcome::Moved, Outcome::Finished),
        },
    }
}

/// Every open place, lowest first.
pub fn open_places(protocol: &dyn Protocol) -> Vec<u8> {
    (0..=u8::MAX)
        .filter(|&place| protocol.message(place).is_some())
        .collect()
}
