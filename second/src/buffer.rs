//! The store buffer over any protocol: a queue of entries for each core.

use std::collections::VecDeque;

use crate::protocol::{Kind, Protocol};
use crate::step::{CORES, Call, Ended, Refusal};

/// How many stores a core can buffer.
pub const ENTRIES: usize = 4;

#[derive(Clone, Copy, Debug)]
struct Entry {
    address: u8,
    byte: u8,
}

#[derive(Clone)]
pub struct Buffer {
    below: Box<dyn Protocol>,
    /// Oldest entry first.
    queues: [VecDeque<Entry>; CORES],
    waits: [Option<Call>; CORES],
}

impl Buffer {
    pub fn over(below: Box<dyn Protocol>) -> Self {
        Buffer {
            below,
            queues: Default::default(),
            waits: [None; CORES],
        }
    }

    fn queue(&mut self, core: u8) -> &mut VecDeque<Entry> {
        &mut self.queues[usize::from(core)]
    }

    fn entry(&mut self, core: u8, address: u8) -> Option<&mut Entry> {
        self.queue(core)
            .iter_mut()
            .find(|entry| entry.address == address)
    }

    /// Stores the oldest entry below, and lets it leave if that ends at once. Answers whether it
    /// left; if there is none, nothing happens.
    fn drain_one(&mut self, core: u8) -> Drained {
        let Some(&Entry { address, byte }) = self.queue(core).front() else {
            return Drained::Empty;
        };
        let store = Call::Store {
            core,
            address,
            byte,
        };
        if self.below.begin(store).is_none() {
            return Drained::Waits;
        }
        self.queue(core).pop_front();
        Drained::Left
    }

    /// Carries a store with a full buffer, or a release, as far as it goes without a wait below.
    /// Answers whether it ended.
    fn carry_on(&mut self, call: Call) -> bool {
        match call {
            Call::Store {
                core,
                address,
                byte,
            } => {
                if self.queue(core).len() == ENTRIES {
                    match self.drain_one(core) {
                        Drained::Waits => return false,
                        Drained::Left | Drained::Empty => {}
                    }
                }
                self.queue(core).push_back(Entry { address, byte });
                true
            }
            Call::Release { core } => loop {
                match self.drain_one(core) {
                    Drained::Waits => return false,
                    Drained::Left => {}
                    Drained::Empty => return self.below.begin(call).is_some(),
                }
            },
            Call::Load { .. } | Call::Acquire { .. } | Call::Evict { .. } => true,
        }
    }

    /// Ends the call, or leaves its core waiting for it.
    fn ended_or_waits(&mut self, call: Call, ended: bool) -> Option<Ended> {
        self.waits[usize::from(call.core())] = (!ended).then_some(call);
        ended.then_some(Ended::silent(call))
    }

    /// The call goes straight below.
    fn straight(&mut self, call: Call) -> Option<Ended> {
        let ended = self.below.begin(call);
        if ended.is_none() {
            self.waits[usize::from(call.core())] = Some(call);
        }
        ended
    }
}

enum Drained {
    Left,
    Waits,
    Empty,
}

impl Protocol for Buffer {
    fn clear(&mut self) {
        self.below.clear();
        self.queues = Default::default();
        self.waits = [None; CORES];
    }

    fn begin(&mut self, call: Call) -> Option<Ended> {
        match call {
            Call::Load { core, address } => match self.entry(core, address) {
                Some(entry) => Some(Ended::load(call, entry.byte)),
                None => self.straight(call),
            },
            Call::Store {
                core,
                address,
                byte,
            } => match self.entry(core, address) {
                Some(entry) => {
                    entry.byte = byte;
                    Some(Ended::silent(call))
                }
                None => {
                    let ended = self.carry_on(call);
                    self.ended_or_waits(call, ended)
                }
            },
            Call::Release { .. } => {
                let ended = self.carry_on(call);
                self.ended_or_waits(call, ended)
            }
            Call::Acquire { .. } | Call::Evict { .. } => self.straight(call),
        }
    }

    fn deliver(&mut self, place: u8) -> Result<Option<Ended>, Refusal> {
        let Some(below) = self.below.deliver(place)? else {
            return Ok(None);
        };
        let core = below.call.core();
        let Some(call) = self.waits[usize::from(core)].take() else {
            unreachable!("a call ended below for which core {core} does not wait above");
        };
        Ok(match (call, below.call) {
            // The oldest entry was stored: it leaves, and the call above goes on.
            (Call::Store { .. } | Call::Release { .. }, Call::Store { .. }) => {
                self.queue(core).pop_front();
                let ended = self.carry_on(call);
                self.ended_or_waits(call, ended)
            }
            _ => Some(below),
        })
    }

    fn waits(&self, core: u8) -> bool {
        self.waits[usize::from(core)].is_some()
    }

    fn message(&self, place: u8) -> Option<Kind> {
        self.below.message(place)
    }

    fn next_open(&self, place: u8) -> Option<u8> {
        self.below.next_open(place)
    }

    fn home(&self, address: u8) -> u8 {
        self.below.home(address)
    }

    /// Four stores and a release below, and some slack.
    fn reach(&self) -> usize {
        (ENTRIES + 1) * (self.below.reach() + 1)
    }

    fn entries(&self, core: u8) -> Vec<(u8, u8)> {
        self.queues[usize::from(core)]
            .iter()
            .map(|entry| (entry.address, entry.byte))
            .collect()
    }

    fn fork(&self) -> Box<dyn Protocol> {
        Box::new(self.clone())
    }
}
