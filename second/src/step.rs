//! Steps, refusals, and what a step came to.

pub const CORES: usize = 8;
pub const LINES: usize = 8;
pub const LINE_BYTES: usize = 8;
pub const ADDRESSES: usize = LINES * LINE_BYTES;

/// A core call, with its fields as they stand in a file: any byte may be there.
#[derive(Clone, Copy, Debug, PartialEq, Eq)]
pub enum Call {
    Load { core: u8, address: u8 },
    Store { core: u8, address: u8, byte: u8 },
    Acquire { core: u8 },
    Release { core: u8 },
    Evict { core: u8, line: u8 },
}

impl Call {
    pub fn core(self) -> u8 {
        match self {
            Call::Load { core, .. }
            | Call::Store { core, .. }
            | Call::Acquire { core }
            | Call::Release { core }
            | Call::Evict { core, .. } => core,
        }
    }

    pub fn name(self) -> &'static str {
        match self {
            Call::Load { .. } => "load",
            Call::Store { .. } => "store",
            Call::Acquire { .. } => "acquire",
            Call::Release { .. } => "release",
            Call::Evict { .. } => "evict",
        }
    }

    /// The letter of the call in a report.
    pub fn letter(self) -> char {
        match self {
            Call::Load { .. } => 'L',
            Call::Store { .. } => 'S',
            Call::Acquire { .. } => 'A',
            Call::Release { .. } => 'P',
            Call::Evict { .. } => 'X',
        }
    }

    /// Whether the address or line, if there is one, is in range.
    fn in_range(self) -> bool {
        match self {
            Call::Load { address, .. } | Call::Store { address, .. } => {
                usize::from(address) < ADDRESSES
            }
            Call::Evict { line, .. } => usize::from(line) < LINES,
            Call::Acquire { .. } | Call::Release { .. } => true,
        }
    }

    /// The table of refusals for core calls, in its order.
    pub fn refusal(self, waits: impl Fn(u8) -> bool) -> Option<Refusal> {
        if usize::from(self.core()) >= CORES {
            Some(Refusal::NoSuchCore)
        } else if !self.in_range() {
            Some(Refusal::NoSuchAddress)
        } else if waits(self.core()) {
            Some(Refusal::CoreWaits)
        } else {
            None
        }
    }
}

#[derive(Clone, Copy, Debug, PartialEq, Eq)]
pub enum Step {
    Call(Call),
    Move { place: u8 },
}

#[derive(Clone, Copy, Debug, PartialEq, Eq)]
pub enum Refusal {
    NoSuchCore,
    NoSuchAddress,
    CoreWaits,
    PlaceNotOpen,
}

impl Refusal {
    pub fn number(self) -> u8 {
        match self {
            Refusal::NoSuchCore => 1,
            Refusal::NoSuchAddress => 2,
            Refusal::CoreWaits => 3,
            Refusal::PlaceNotOpen => 4,
        }
    }
}

/// A call that has ended. Only a load has an answer.
#[derive(Clone, Copy, Debug, PartialEq, Eq)]
pub struct Ended {
    pub call: Call,
    pub answer: Option<u8>,
}

impl Ended {
    pub fn silent(call: Call) -> Self {
        Ended { call, answer: None }
    }

    pub fn load(call: Call, answer: u8) -> Self {
        Ended {
            call,
            answer: Some(answer),
        }
    }

    /// The byte that a report shows: of a load its answer, of a store its own.
    pub fn byte(self) -> Option<u8> {
        match self.call {
            Call::Store { byte, .. } => Some(byte),
            _ => self.answer,
        }
    }
}

/// What a step came to, the race mark apart.
#[derive(Clone, Copy, Debug, PartialEq, Eq)]
pub enum Outcome {
    Refused(Refusal),
    Waits,
    Ended(Ended),
    Moved,
    Finished(Ended),
}

impl Outcome {
    /// The call that ended with the step, if one did.
    pub fn ended(self) -> Option<Ended> {
        match self {
            Outcome::Ended(ended) | Outcome::Finished(ended) => Some(ended),
            Outcome::Refused(_) | Outcome::Waits | Outcome::Moved => None,
        }
    }
}
