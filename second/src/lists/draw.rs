//! Lists that are worth running: each request is chosen by what the bench came to so far.

use std::mem;
use std::ops::Range;

use crate::bench::Bench;
use crate::block;
use crate::damage;
use crate::file::{self, Study};
use crate::lists::broken;
use crate::lists::format::{self, Request};
use crate::lists::study;
use crate::lists::text::FILL;
use crate::play::{self, Length, Player};
use crate::protocol::{Bottom, Stack};
use crate::random::Random;
use crate::report;
use crate::step::{ADDRESSES, Call, LINE_BYTES, Step};

/// How many of a hundred lists are broken somewhere.
const BROKEN: usize = 28;

/// The list of a number. Every list stands for itself.
pub fn list(seed: u64, number: u64) -> Vec<u8> {
    let random = &mut Random::of_case(seed, number);
    let stack = stack(random);
    let requests = requests(random, stack);
    if random.percent(BROKEN) {
        broken::list(random, stack, &requests)
    } else {
        format::write(stack, &requests)
    }
}

/// Some lists of a seed, each behind its length.
pub fn input(seed: u64, numbers: Range<u64>) -> Vec<u8> {
    let mut input = Vec::new();
    for number in numbers {
        block::push(&mut input, &list(seed, number));
    }
    input
}

fn stack(random: &mut Random) -> Stack {
    let bottom = [Bottom::Neat, Bottom::Mesi][random.weighted(&[65, 35])];
    let buffers = random.weighted(&[30, 30, 40]) as u8;
    Stack { bottom, buffers }
}

fn requests(random: &mut Random, stack: Stack) -> Vec<Request> {
    let (low, high) = [(10, 20), (20, 35), (35, 60)][random.weighted(&[50, 35, 15])];
    let length = random.between(low, high);
    let odd = random.one_of(&[2, 5, 15]);
    let mut player = Player::new(random, stack, odd);
    // Settles, and steps past the steps, show most where place 0 is open.
    if player.random.percent(40) {
        player.taste.cores[0] = 0;
        player.taste.addresses[0] = player.random.below(LINE_BYTES) as u8;
    }
    let mut drawer = Drawer {
        player,
        waiting: stack.bottom == Bottom::Neat,
        requests: Vec::new(),
    };
    while drawer.requests.len() < length {
        drawer.act();
    }
    drawer.requests.truncate(length);
    drawer.requests
}

/// A room for what needs so much. In so many of a hundred cases it is too little.
pub fn room(random: &mut Random, needed: usize, too_little: usize) -> usize {
    if random.percent(too_little) {
        match random.weighted(&[20, 30, 50]) {
            0 => 0,
            1 if needed > 2 => random.between(1, needed - 2),
            _ => needed.saturating_sub(1),
        }
    } else if random.percent(60) {
        needed
    } else {
        needed + random.between(1, 5)
    }
}

/// A room that is written as one byte.
pub fn small_room(random: &mut Random, needed: usize, too_little: usize) -> u8 {
    room(random, needed, too_little).min(255) as u8
}

/// How many moves a settle takes until no place is open.
pub fn moves_to_settle(bench: &Bench) -> usize {
    let mut bench = bench.clone();
    let mut moves = 0;
    loop {
        let settled = bench.settle(&mut [FILL; 64]);
        moves += settled.moves;
        if !settled.open {
            return moves;
        }
    }
}

/// An address to ask the image of: mostly one that is stored to.
pub fn address(player: &mut Player) -> u8 {
    match player.random.weighted(&[60, 10, 5, 15, 10]) {
        0 => player.address(),
        1 => player.random.below(ADDRESSES) as u8,
        2 => 63,
        3 => 64,
        _ => player.random.byte_from(65),
    }
}

/// A place to ask the next open of: near the open ones, and past them.
pub fn place(player: &mut Player) -> u8 {
    let open = player.open_places();
    let random = &mut *player.random;
    let (Some(&first), Some(&last)) = (open.first(), open.last()) else {
        return random.one_of(&[0, 8, 71, 72, 255]);
    };
    match random.weighted(&[15, 20, 15, 20, 15, 5, 10]) {
        0 => 0,
        1 => random.one_of(&open),
        2 => random.one_of(&open).saturating_sub(1),
        3 => first + 1,
        4 => random.between(usize::from(last) + 1, 72) as u8,
        5 => 72,
        _ => random.byte_from(73),
    }
}

struct Drawer<'a> {
    player: Player<'a>,
    /// Whether calls can wait, so that there is something to settle.
    waiting: bool,
    requests: Vec<Request>,
}

impl Drawer<'_> {
    fn act(&mut self) {
        let open = if self.waiting { [14, 12] } else { [3, 3] };
        match self
            .player
            .random
            .weighted(&[28, 12, open[0], open[1], 9, 4, 3, 7, 10, 11])
        {
            0 => self.steps(),
            1 => self.run(),
            2 => self.settle(),
            3 => self.next_open(),
            4 => self.image(),
            5 => self.requests.push(Request::Counts),
            6 => self.set_up(),
            7 => self.write(),
            8 => self.file(),
            _ => self.study(),
        }
    }

    fn steps(&mut self) {
        let count = self.player.random.between(1, 4);
        self.player.play(count);
        self.hand_in();
    }

    /// Makes requests of the steps that were played: a long row of them goes into runs.
    fn hand_in(&mut self) {
        let steps = mem::take(&mut self.player.steps);
        let mut left = steps.as_slice();
        while !left.is_empty() {
            let count = match left.len() {
                0..=4 => 1,
                most => self.player.random.between(3, 12).min(most),
            };
            let (steps, later) = left.split_at(count);
            left = later;
            self.requests.push(match *steps {
                [step] => Request::Step(step),
                _ => Request::Run {
                    steps: steps.to_vec(),
                    room: small_room(self.player.random, count, 0),
                },
            });
        }
    }

    /// A run, often with refused steps inside. One that has no room is mostly made again with
    /// room, so that it shows whether the first one changed anything.
    fn run(&mut self) {
        let before = self.player.bench.clone();
        for _ in 0..self.player.random.below(8) {
            if self.player.random.percent(15) {
                let step = self.player.odd_step();
                self.player.make(step);
            } else {
                self.player.any();
            }
        }
        let steps = mem::take(&mut self.player.steps);
        let room = small_room(self.player.random, steps.len(), 35);
        let made = usize::from(room) >= steps.len();
        self.requests.push(Request::Run {
            steps: steps.clone(),
            room,
        });
        if made {
            return;
        }
        if self.player.random.percent(30) {
            self.player.bench = before;
        } else {
            let room = small_room(self.player.random, steps.len(), 0);
            self.requests.push(Request::Run { steps, room });
        }
    }

    fn settle(&mut self) {
        if self.waiting && self.player.bench.next_open(0).is_none() {
            let count = self.player.random.below(5);
            self.player.play(count);
            self.hand_in();
        }
        let needed = moves_to_settle(&self.player.bench);
        let room = small_room(self.player.random, needed, 45);
        self.player.bench.settle(&mut vec![FILL; room.into()]);
        self.requests.push(Request::Settle { room });
    }

    fn next_open(&mut self) {
        for _ in 0..self.player.random.between(1, 2) {
            let place = place(&mut self.player);
            self.requests.push(Request::NextOpen { place });
        }
    }

    fn image(&mut self) {
        for _ in 0..self.player.random.between(1, 3) {
            let address = address(&mut self.player);
            self.requests.push(Request::Image { address });
        }
    }

    fn set_up(&mut self) {
        self.player.bench.set_up();
        self.requests.push(Request::SetUp);
    }

    fn write(&mut self) {
        let random = &mut *self.player.random;
        let code = match random.below(6) {
            0 => random.one_of(&[0, 5]),
            1 => random.byte_from(5),
            _ => random.between(1, 4) as u8,
        };
        let steps: Vec<Step> = (0..random.below(6)).map(|_| blind(random)).collect();
        let file = file::write(&Study {
            code,
            steps: steps.clone(),
        });
        let room = room(random, file.len(), 50) as u16;
        self.requests.push(Request::Write { code, room, steps });
    }

    /// A study file. A faulty one has an output that is too short for any report, or large
    /// enough for that of the study without its fault.
    fn file(&mut self) {
        let random = &mut *self.player.random;
        let bytes = match random.weighted(&[60, 30, 5, 3, 2]) {
            0 => {
                let code = random.between(1, 4) as u8;
                let steps = random.below(7);
                file::write(&play::study(random, code, 10, Length::Exactly(steps)))
            }
            1 => {
                let way = random.one_of(&damage::WAYS);
                damage::once(random, way)
            }
            2 => damage::twice(random),
            3 => damage::blindly(random),
            _ => Vec::new(),
        };
        let room = match file::read(&bytes) {
            Ok(study) => room(random, report::length(study.steps.len()), 50),
            Err(_) => match random.below(4) {
                0 => 0,
                1 => random.between(1, 40),
                2 => report::length(0) - 1,
                _ => report::length(random.below(9)),
            },
        };
        let room = room as u16;
        self.requests.push(Request::File { room, bytes });
    }

    fn study(&mut self) {
        let request = study::draw(&mut self.player);
        self.requests.push(request);
    }
}

/// A step with any bytes in its fields.
fn blind(random: &mut Random) -> Step {
    let mut byte = || random.byte();
    let (core, address, byte, kind) = (byte(), byte(), byte(), byte());
    match kind % 6 {
        0 => Step::Call(Call::Load { core, address }),
        1 => Step::Call(Call::Store {
            core,
            address,
            byte,
        }),
        2 => Step::Call(Call::Acquire { core }),
        3 => Step::Call(Call::Release { core }),
        4 => Step::Call(Call::Evict {
            core,
            line: address,
        }),
        _ => Step::Move { place: address },
    }
}
