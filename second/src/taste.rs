//! What a generated study is made to be like.

use crate::protocol::Kind;
use crate::random::Random;
use crate::step::LINE_BYTES;

#[derive(Clone)]
pub struct Taste {
    pub cores: Vec<u8>,
    pub addresses: Vec<u8>,
    /// Weights of load, store, acquire, release, evict.
    pub calls: [usize; 5],
    /// How many of a hundred steps are moves, while a place is open.
    pub moves: usize,
    /// How many of a hundred steps are meant to be refused.
    pub odd: usize,
    /// How many of a hundred steps begin a scene.
    pub scenes: usize,
    /// Messages that are moved seldom.
    pub shunned: &'static [Kind],
    pub order: Order,
    /// Whether a release or an acquire is made in place of a call that would race.
    pub careful: bool,
}

/// Which of the open places is moved.
#[derive(Clone, Copy)]
pub enum Order {
    Any,
    Lowest,
    Highest,
}

impl Taste {
    /// A taste for so many buffers. So many of a hundred steps are meant to be refused.
    pub fn new(random: &mut Random, buffers: u8, odd: usize) -> Self {
        let cores = [1, 2, 3, 4, 8][random.weighted(&[10, 45, 25, 12, 8])];
        let cores = random.some_of(cores, 8);
        // A buffer is full only where there are addresses enough.
        let lines = match buffers {
            0 => [1, 2, 3, 5, 8][random.weighted(&[30, 35, 15, 10, 10])],
            _ => [1, 3, 5, 8][random.weighted(&[15, 30, 30, 25])],
        };
        let offsets = random.between(1, 4);
        let addresses = random
            .some_of(lines, 8)
            .into_iter()
            .flat_map(|line| {
                let offsets = random.some_of(offsets, LINE_BYTES as u8);
                offsets.into_iter().map(move |offset| line * 8 + offset)
            })
            .collect();
        let calls = std::array::from_fn(|call| {
            let most = [6, 10, 4, 4, 4][call];
            random.between(1, most)
        });
        Taste {
            cores,
            addresses,
            calls,
            moves: random.between(25, 85),
            odd,
            scenes: random.one_of(&[0, 10, 25, 50]),
            shunned: random.one_of(&[
                &[],
                &[],
                &[Kind::Put, Kind::PutAck],
                &[Kind::PutAck],
                &[Kind::Close],
                &[Kind::Commit],
                &[Kind::Data],
                &[Kind::PutAllAck],
            ]),
            order: random.one_of(&[Order::Any, Order::Any, Order::Lowest, Order::Highest]),
            careful: random.percent(40),
        }
    }
}
