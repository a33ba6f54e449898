//! Studies that are worth running: steps are chosen by what the bench came to so far.

use crate::bench::Bench;
use crate::buffer::ENTRIES;
use crate::file::Study;
use crate::protocol::{self, Kind, Stack};
use crate::random::Random;
use crate::step::{Call, Step};
use crate::taste::{Order, Taste};

pub struct Player<'a> {
    pub random: &'a mut Random,
    pub taste: Taste,
    pub bench: Bench,
    /// With a store buffer, a store goes below only when others push it.
    buffers: u8,
    /// The steps that were made.
    pub steps: Vec<Step>,
}

/// How long a study is to be.
pub enum Length {
    /// So many steps, and perhaps moves until no place is open.
    About(usize),
    Exactly(usize),
}

/// A study of a code. So many of a hundred of its steps are meant to be refused.
pub fn study(random: &mut Random, code: u8, odd: usize, length: Length) -> Study {
    let stack = Stack::of_code(code).expect("studies are made for known codes");
    let mut player = Player::new(random, stack, odd);
    match length {
        Length::About(steps) => {
            player.play(steps);
            if player.random.percent(50) {
                player.settle();
            }
        }
        Length::Exactly(steps) => {
            player.play(steps);
            player.steps.truncate(steps);
        }
    }
    Study {
        code,
        steps: player.steps,
    }
}

impl<'a> Player<'a> {
    pub fn new(random: &'a mut Random, stack: Stack, odd: usize) -> Self {
        Player {
            taste: Taste::new(random, stack.buffers, odd),
            random,
            bench: Bench::new(stack.cleared()),
            buffers: stack.buffers,
            steps: Vec::new(),
        }
    }

    /// A player of the same taste, at the start of a new study.
    pub fn afresh(&mut self) -> Player<'_> {
        let mut bench = self.bench.clone();
        bench.set_up();
        Player {
            random: self.random,
            taste: self.taste.clone(),
            bench,
            buffers: self.buffers,
            steps: Vec::new(),
        }
    }
}

impl Player<'_> {
    pub fn play(&mut self, steps: usize) {
        while self.steps.len() < steps {
            if self.random.percent(self.taste.scenes) {
                self.scene();
            } else {
                self.any();
            }
        }
    }

    pub fn make(&mut self, step: Step) {
        self.bench.step(step);
        self.steps.push(step);
    }

    fn call(&mut self, call: Call) {
        let call = if self.taste.careful {
            self.not_racing(call)
        } else {
            call
        };
        self.make(Step::Call(call));
    }

    /// The call, or what has to come before it if it is not to race.
    fn not_racing(&self, call: Call) -> Call {
        let (Call::Load { core, address } | Call::Store { core, address, .. }) = call else {
            return call;
        };
        match self.bench.log().newest(address) {
            Some((storer, since)) if storer != core => {
                let release = Call::Release { core: storer };
                let acquire = Call::Acquire { core };
                match since.iter().position(|&call| call == release) {
                    Some(position) if since[position..].contains(&acquire) => call,
                    None if !self.bench.protocol().waits(storer) => release,
                    _ => acquire,
                }
            }
            _ => call,
        }
    }

    fn core(&mut self) -> u8 {
        self.random.one_of(&self.taste.cores)
    }

    pub fn address(&mut self) -> u8 {
        self.random.one_of(&self.taste.addresses)
    }

    fn free_cores(&self) -> Vec<u8> {
        let protocol = self.bench.protocol();
        let mut cores = self.taste.cores.clone();
        cores.retain(|&core| !protocol.waits(core));
        cores
    }

    pub fn open_places(&self) -> Vec<u8> {
        protocol::open_places(self.bench.protocol())
    }

    /// One step: a refused one, a move, or a call.
    pub fn any(&mut self) {
        if self.random.percent(self.taste.odd) {
            let step = self.odd_step();
            return self.make(step);
        }
        let open = self.open_places();
        let free = self.free_cores();
        let moves = !open.is_empty() && (free.is_empty() || self.random.percent(self.taste.moves));
        if moves {
            let place = self.choose(&open);
            self.make(Step::Move { place });
        } else {
            let core = self.random.one_of(&free);
            let call = self.call_of(core);
            self.call(call);
        }
    }

    fn call_of(&mut self, core: u8) -> Call {
        let address = self.address();
        match self.random.weighted(&self.taste.calls) {
            0 => Call::Load { core, address },
            1 => Call::Store {
                core,
                address,
                byte: self.random.byte(),
            },
            2 => Call::Acquire { core },
            3 => Call::Release { core },
            _ => Call::Evict {
                core,
                line: address / 8,
            },
        }
    }

    /// One of the open places, by the taste.
    fn choose(&mut self, open: &[u8]) -> u8 {
        let protocol = self.bench.protocol();
        let liked: Vec<u8> = open
            .iter()
            .copied()
            .filter(|&place| {
                protocol
                    .message(place)
                    .is_some_and(|kind| !self.taste.shunned.contains(&kind))
            })
            .collect();
        let places = if liked.is_empty() || self.random.percent(15) {
            open
        } else {
            &liked
        };
        match self.taste.order {
            Order::Lowest if !self.random.percent(20) => places[0],
            Order::Highest if !self.random.percent(20) => places[places.len() - 1],
            _ => self.random.one_of(places),
        }
    }

    /// Moves until a core does not wait, mostly its own places, now and then something else.
    fn free(&mut self, core: u8) {
        while self.bench.protocol().waits(core) {
            let open = self.open_places();
            let own: Vec<u8> = open.iter().copied().filter(|p| p / 9 == core).collect();
            if own.is_empty() || self.random.percent(10) {
                self.any();
            } else {
                let place = self.choose(&own);
                self.make(Step::Move { place });
            }
        }
    }

    /// Makes a call when its core is free, and often lets it end.
    fn call_when_free(&mut self, call: Call) {
        self.free(call.core());
        self.call(call);
        if self.random.percent(80) {
            self.free(call.core());
        }
    }

    fn store(&mut self, core: u8, address: u8) {
        let byte = self.random.byte();
        self.call_when_free(Call::Store {
            core,
            address,
            byte,
        });
    }

    pub fn scene(&mut self) {
        match self.random.below(6) {
            0 => self.hand_over(),
            1 | 2 => self.evict_and_go_on(),
            3 => self.fill(),
            4 => self.dirty_and_close(),
            _ => self.settle(),
        }
    }

    /// A store, a release, an acquire and a load, sometimes with one of them left out.
    fn hand_over(&mut self) {
        let (from, to, address) = (self.core(), self.core(), self.address());
        self.store(from, address);
        if !self.random.percent(15) {
            self.call_when_free(Call::Release { core: from });
        }
        if !self.random.percent(15) {
            self.call_when_free(Call::Acquire { core: to });
        }
        if self.random.percent(70) {
            self.call_when_free(Call::Load { core: to, address });
        } else {
            self.store(to, address);
        }
    }

    /// A dirty line is evicted, and its core goes on while the Put is on its way.
    fn evict_and_go_on(&mut self) {
        let (core, address) = (self.core(), self.address());
        self.store(core, address);
        if self.buffers > 0 || self.random.percent(30) {
            self.overflow(core);
        }
        self.free(core);
        let line = address / 8;
        self.call(Call::Evict { core, line });
        match self.random.below(5) {
            0 => self.call(Call::Load { core, address }),
            1 => self.call(Call::Store {
                core,
                address,
                byte: 0x77,
            }),
            2 => self.close_before_puts(Call::Release { core }),
            3 => self.close_before_puts(Call::Acquire { core }),
            _ => self.call(Call::Evict { core, line }),
        }
    }

    /// A release or acquire whose Close is often moved before all Puts of its core, so that the
    /// last PutAck ends it.
    fn close_before_puts(&mut self, call: Call) {
        self.call(call);
        if self.random.percent(30) {
            return;
        }
        let put = |kind| matches!(kind, Some(Kind::Put | Kind::PutAck));
        loop {
            let protocol = self.bench.protocol();
            let own = call.core() * 9..call.core() * 9 + 9;
            let open = own.filter(|&place| protocol.message(place).is_some());
            let first: Vec<u8> = open
                .filter(|&place| !put(protocol.message(place)))
                .collect();
            if first.is_empty() {
                return;
            }
            let place = self.random.one_of(&first);
            self.make(Step::Move { place });
        }
    }

    /// Stores to many addresses, so that every buffer is full and older stores go below.
    fn overflow(&mut self, core: u8) {
        let count = 3 + ENTRIES * usize::from(self.buffers.max(1));
        for address in self.taste.addresses.clone().into_iter().take(count) {
            self.store(core, address);
        }
    }

    fn fill(&mut self) {
        let core = self.core();
        self.overflow(core);
        if self.random.percent(50) {
            self.call_when_free(Call::Release { core });
        }
    }

    /// Lines are written, and their core releases or acquires; the moves are left to others.
    fn dirty_and_close(&mut self) {
        let core = self.core();
        for _ in 0..self.random.between(1, 3) {
            let address = self.address();
            self.store(core, address);
        }
        self.free(core);
        if self.random.percent(60) {
            self.call(Call::Release { core });
        } else {
            self.call(Call::Acquire { core });
        }
    }

    /// Moves the first open place until none is open.
    fn settle(&mut self) {
        while let Some(&place) = self.open_places().first() {
            self.make(Step::Move { place });
        }
    }

    /// A step that is refused, save where no core waits.
    pub fn odd_step(&mut self) -> Step {
        let no_core = match self.random.below(3) {
            0 => 8,
            1 => self.random.one_of(&[9, 16, 64, 128, 255]),
            _ => self.random.byte_from(8),
        };
        let no_address = match self.random.below(3) {
            0 => 64,
            1 => self.random.one_of(&[65, 72, 128, 255]),
            _ => self.random.byte_from(64),
        };
        let no_line = match self.random.below(3) {
            0 => 8,
            1 => self.random.one_of(&[9, 63, 64, 255]),
            _ => self.random.byte_from(8),
        };
        let core = self.core();
        let protocol = self.bench.protocol();
        let waiting = self.taste.cores.iter().copied();
        let waiting: Vec<u8> = waiting.filter(|&core| protocol.waits(core)).collect();
        let waiting = (!waiting.is_empty()).then(|| self.random.one_of(&waiting));
        let closed = |&place: &u8| protocol.message(place).is_none();
        match self.random.below(10) {
            0 => Step::Call(self.call_of(no_core)),
            1 => Step::Call(self.at(core, no_address)),
            2 => Step::Call(Call::Evict {
                core,
                line: no_line,
            }),
            3 => {
                let closed: Vec<u8> = (0..72).filter(closed).collect();
                let place = self.random.one_of(&closed);
                Step::Move { place }
            }
            4 => {
                // Some stand as far behind the last place as an open one behind place 0.
                let mut places = vec![72, 73, 80, 255, self.random.byte_from(72)];
                places.extend(self.open_places().into_iter().map(|open| 72 + open));
                let place = self.random.one_of(&places);
                Step::Move { place }
            }
            5 => Step::Call(self.beyond(no_core, no_address, no_line)),
            6 => Step::Call(self.beyond(waiting.unwrap_or(core), no_address, no_line)),
            _ => {
                let address = self.address();
                let line = address / 8;
                let core = waiting.unwrap_or(core);
                Step::Call(match self.random.below(5) {
                    0 | 1 => self.at(core, address),
                    2 => Call::Acquire { core },
                    3 => Call::Release { core },
                    _ => Call::Evict { core, line },
                })
            }
        }
    }

    fn at(&mut self, core: u8, address: u8) -> Call {
        if self.random.percent(50) {
            Call::Load { core, address }
        } else {
            Call::Store {
                core,
                address,
                byte: 0x11,
            }
        }
    }

    /// A call with an address or line that is out of range, of any core.
    fn beyond(&mut self, core: u8, address: u8, line: u8) -> Call {
        if self.random.percent(67) {
            self.at(core, address)
        } else {
            Call::Evict { core, line }
        }
    }
}
