//! Bus MESI: each core has a map of the lines that it holds.

use std::collections::BTreeMap;

use crate::protocol::{Kind, Protocol};
use crate::step::{CORES, Call, Ended, LINE_BYTES, LINES, Refusal};

/// The state of a copy that a core holds.
#[derive(Clone, Copy, Debug, PartialEq, Eq)]
pub enum State {
    Shared,
    Exclusive,
    Modified,
}

#[derive(Clone, Copy, Debug)]
struct Held {
    state: State,
    bytes: [u8; LINE_BYTES],
}

/// A line that is in no map is I.
#[derive(Clone)]
pub struct Mesi {
    caches: [BTreeMap<usize, Held>; CORES],
    llc: [[u8; LINE_BYTES]; LINES],
}

impl Mesi {
    pub fn new() -> Self {
        Mesi {
            caches: Default::default(),
            llc: Default::default(),
        }
    }

    /// The state of a core's copy; none is I.
    pub fn state(&self, core: usize, line: usize) -> Option<State> {
        self.caches[core].get(&line).map(|held| held.state)
    }

    /// The core's copy, after a fetch if it had none.
    fn fetched(&mut self, core: usize, line: usize) -> &mut Held {
        if !self.caches[core].contains_key(&line) {
            let mut state = State::Exclusive;
            for other in self.caches.iter_mut().filter_map(|c| c.get_mut(&line)) {
                if other.state == State::Modified {
                    self.llc[line] = other.bytes;
                }
                other.state = State::Shared;
                state = State::Shared;
            }
            let bytes = self.llc[line];
            self.caches[core].insert(line, Held { state, bytes });
        }
        self.caches[core].get_mut(&line).expect("just fetched")
    }

    fn load(&mut self, core: usize, address: usize) -> u8 {
        self.fetched(core, address / LINE_BYTES).bytes[address % LINE_BYTES]
    }

    fn store(&mut self, core: usize, address: usize, byte: u8) {
        let line = address / LINE_BYTES;
        let held = self.fetched(core, line);
        held.state = State::Modified;
        held.bytes[address % LINE_BYTES] = byte;
        for (other, cache) in self.caches.iter_mut().enumerate() {
            if other != core {
                cache.remove(&line);
            }
        }
    }

    fn evict(&mut self, core: usize, line: usize) {
        if let Some(held) = self.caches[core].remove(&line)
            && held.state == State::Modified
        {
            self.llc[line] = held.bytes;
        }
    }
}

impl Protocol for Mesi {
    fn clear(&mut self) {
        *self = Mesi::new();
    }

    fn begin(&mut self, call: Call) -> Option<Ended> {
        let core = usize::from(call.core());
        Some(match call {
            Call::Load { address, .. } => Ended::load(call, self.load(core, address.into())),
            Call::Store { address, byte, .. } => {
                self.store(core, address.into(), byte);
                Ended::silent(call)
            }
            Call::Evict { line, .. } => {
                self.evict(core, line.into());
                Ended::silent(call)
            }
            Call::Acquire { .. } | Call::Release { .. } => Ended::silent(call),
        })
    }

    fn deliver(&mut self, _place: u8) -> Result<Option<Ended>, Refusal> {
        Err(Refusal::PlaceNotOpen)
    }

    fn waits(&self, _core: u8) -> bool {
        false
    }

    fn message(&self, _place: u8) -> Option<Kind> {
        None
    }

    fn next_open(&self, _place: u8) -> Option<u8> {
        None
    }

    fn home(&self, address: u8) -> u8 {
        let address = usize::from(address);
        let line = address / LINE_BYTES;
        let modified = self
            .caches
            .iter()
            .filter_map(|cache| cache.get(&line))
            .find(|held| held.state == State::Modified);
        modified.map_or(self.llc[line], |held| held.bytes)[address % LINE_BYTES]
    }

    fn reach(&self) -> usize {
        0
    }

    fn fork(&self) -> Box<dyn Protocol> {
        Box::new(self.clone())
    }
}

#[cfg(test)]
impl Mesi {
    /// The letter of a core's copy and its byte at an address.
    pub fn copy(&self, core: usize, address: usize) -> Option<(char, u8)> {
        let held = self.caches[core].get(&(address / LINE_BYTES))?;
        let letter = match held.state {
            State::Shared => 'S',
            State::Exclusive => 'E',
            State::Modified => 'M',
        };
        Some((letter, held.bytes[address % LINE_BYTES]))
    }

    pub fn llc(&self, address: usize) -> u8 {
        self.llc[address / LINE_BYTES][address % LINE_BYTES]
    }
}
