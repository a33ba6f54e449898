//! Races, by the rule alone: the whole log of ended calls is kept, and searched for each call.

use crate::step::Call;

/// Numbers of calls stop here.
pub const LAST_NUMBER: usize = 65_535;

#[derive(Clone, Default)]
pub struct Log {
    ended: Vec<Call>,
    first_race: usize,
}

impl Log {
    /// Judges a call that ends, and adds it to the log. Answers whether it races.
    pub fn end(&mut self, call: Call) -> bool {
        let races = self.races(call);
        self.ended.push(call);
        if races && self.first_race == 0 {
            self.first_race = self.count();
        }
        races
    }

    /// How many calls have ended, as far as numbers go.
    pub fn count(&self) -> usize {
        self.ended.len().min(LAST_NUMBER)
    }

    /// The number of the first race, or 0.
    pub fn first_race(&self) -> usize {
        self.first_race
    }

    /// The core of the newest store to an address, and the calls since.
    pub fn newest(&self, address: u8) -> Option<(u8, &[Call])> {
        let stores = |&call: &Call| matches!(call, Call::Store { address: a, .. } if a == address);
        let position = self.ended.iter().rposition(stores)?;
        Some((self.ended[position].core(), &self.ended[position + 1..]))
    }

    fn races(&self, call: Call) -> bool {
        let (Call::Load { core, address } | Call::Store { core, address, .. }) = call else {
            return false;
        };
        let Some((storer, since)) = self.newest(address) else {
            return false;
        };
        // The second search goes on where the first one ended.
        let mut since = since.iter();
        storer != core
            && !(since.any(|&call| call == Call::Release { core: storer })
                && since.any(|&call| call == Call::Acquire { core }))
    }
}
