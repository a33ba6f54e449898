//! Whole studies in one call, drawn part by part.

use std::mem;

use crate::bench::Bench;
use crate::lists::draw::{address, moves_to_settle, place, small_room};
use crate::lists::format::{Part, Request};
use crate::lists::text;
use crate::play::Player;
use crate::random::Random;
use crate::whole;

/// No study has more room than this in its parts, so that the whole can be written as one byte.
const MOST_ROOM: usize = 200;

/// A study in the making. Its player has the steps that the parts name.
struct Draft<'a> {
    player: Player<'a>,
    parts: Vec<Part>,
}

/// Draws a study, and makes it on the player's bench, which it sets up unless it is turned down.
pub fn draw(player: &mut Player) -> Request {
    let mut draft = Draft {
        player: player.afresh(),
        parts: Vec::new(),
    };
    for _ in 0..draft.player.random.below(11) {
        draft.part();
    }
    draft.past_the_steps();
    let steps = mem::take(&mut draft.player.steps);
    let parts = mem::take(&mut draft.parts);
    let random = &mut *player.random;
    let request = Request::Study {
        answers: small_room(random, parts.len(), 24),
        room: small_room(random, rooms(&parts), 26),
        steps,
        parts,
    };
    make(&mut player.bench, &request);
    request
}

fn make(bench: &mut Bench, request: &Request) {
    text::push_request(&mut String::new(), bench, request);
}

/// The rooms of all parts together.
pub fn rooms(parts: &[Part]) -> usize {
    let requests = text::requests_of(parts, &[]).into_iter();
    requests.map(whole::Request::room).sum()
}

impl Draft<'_> {
    fn random(&mut self) -> &mut Random {
        self.player.random
    }

    /// How many steps there are.
    fn count(&self) -> u8 {
        self.player.steps.len() as u8
    }

    /// Adds a part, unless its room is too much.
    fn push(&mut self, part: Part) {
        if rooms(&self.parts) + rooms(&[part]) <= MOST_ROOM {
            self.parts.push(part);
        }
    }

    fn part(&mut self) {
        // A step past all steps moves place 255, and no other one that is open.
        if self.player.bench.next_open(0) == Some(0) && self.random().percent(40) {
            self.push(Part::Step { index: 255 });
        }
        match self.random().weighted(&[30, 20, 10, 20, 10, 10]) {
            0 => {
                let index = self.count();
                self.player.any();
                self.push(Part::Step { index });
            }
            1 => self.run(),
            2 => self.run_without_room(),
            3 => self.settle(),
            4 => {
                let address = address(&mut self.player);
                self.push(Part::Image { address });
            }
            _ => {
                let place = place(&mut self.player);
                self.push(Part::NextOpen { place });
            }
        }
    }

    /// Plays some steps, and answers where they begin and how many there are.
    fn stretch(&mut self) -> (u8, u8) {
        let from = self.count();
        for _ in 0..self.random().below(6) {
            self.player.any();
        }
        (from, self.count() - from)
    }

    fn run(&mut self) {
        let (from, count) = self.stretch();
        let room = small_room(self.random(), count.into(), 0);
        self.push(Part::Run { from, count, room });
    }

    /// A run that is turned down, and often the same again with room.
    fn run_without_room(&mut self) {
        let before = self.player.bench.clone();
        let (from, count) = self.stretch();
        let room = small_room(self.random(), count.into(), 100);
        self.push(Part::Run { from, count, room });
        if self.random().percent(50) {
            let room = count;
            self.push(Part::Run { from, count, room });
        } else {
            self.player.bench = before;
        }
    }

    /// A settle, mostly with something to move.
    fn settle(&mut self) {
        if self.player.open_places().is_empty() {
            self.run();
        }
        let needed = moves_to_settle(&self.player.bench);
        let room = small_room(self.random(), needed, 45);
        let mut outcomes = vec![text::FILL; room.into()];
        self.player.bench.settle(&mut outcomes);
        self.push(Part::Settle { room });
    }

    /// Now and then a step past the steps, anywhere, and last a run that goes beyond them.
    fn past_the_steps(&mut self) {
        let count = usize::from(self.count());
        if self.random().percent(25) {
            let most = [count, count + 1, 255][self.random().below(3)];
            let index = self.random().between(count, most) as u8;
            let position = self.parts.len();
            let position = self.random().between(0, position);
            self.parts.insert(position, Part::Step { index });
        }
        if self.random().percent(25) {
            let most = count + 2;
            let from = self.random().between(count.saturating_sub(4), most);
            let there = count.saturating_sub(from);
            let beyond = there + self.random().between(1, 9);
            let room = small_room(self.random(), there, 20);
            let (from, count) = (from as u8, beyond as u8);
            self.push(Part::Run { from, count, room });
        }
    }
}
