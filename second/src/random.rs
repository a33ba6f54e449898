//! A small generator of pseudo-random numbers: splitmix64.

pub struct Random(u64);

const STEP: u64 = 0x9e37_79b9_7f4a_7c15;

fn mixed(mut z: u64) -> u64 {
    z = (z ^ (z >> 30)).wrapping_mul(0xbf58_476d_1ce4_e5b9);
    z = (z ^ (z >> 27)).wrapping_mul(0x94d0_49bb_1331_11eb);
    z ^ (z >> 31)
}

impl Random {
    /// The numbers of one case of a seed: each case has its own, whatever came before it.
    pub fn of_case(seed: u64, case: u64) -> Self {
        Random(mixed(
            seed.wrapping_mul(STEP) ^ mixed(case.wrapping_add(STEP)),
        ))
    }

    pub fn next(&mut self) -> u64 {
        self.0 = self.0.wrapping_add(STEP);
        mixed(self.0)
    }

    /// A number below a bound above 0. The bias is of no matter for small bounds.
    pub fn below(&mut self, bound: usize) -> usize {
        (self.next() % bound as u64) as usize
    }

    /// A number from `low` to `high`, both among them.
    pub fn between(&mut self, low: usize, high: usize) -> usize {
        low + self.below(high - low + 1)
    }

    pub fn byte(&mut self) -> u8 {
        self.next() as u8
    }

    /// A byte that is at least `low`.
    pub fn byte_from(&mut self, low: u8) -> u8 {
        self.between(low.into(), 255) as u8
    }

    /// Yes in so many of a hundred cases.
    pub fn percent(&mut self, percent: usize) -> bool {
        self.below(100) < percent
    }

    /// One of a list that is not empty.
    pub fn one_of<T: Copy>(&mut self, list: &[T]) -> T {
        list[self.below(list.len())]
    }

    /// The position of a weight, each as often as it weighs.
    pub fn weighted(&mut self, weights: &[usize]) -> usize {
        let mut left = self.below(weights.iter().sum());
        for (position, &weight) in weights.iter().enumerate() {
            if left < weight {
                return position;
            }
            left -= weight;
        }
        unreachable!("the number is below the sum of the weights")
    }

    /// So many different numbers below a bound, in any order.
    pub fn some_of(&mut self, count: usize, bound: u8) -> Vec<u8> {
        let mut all: Vec<u8> = (0..bound).collect();
        let count = count.min(all.len());
        for position in 0..count {
            let other = self.between(position, all.len() - 1);
            all.swap(position, other);
        }
        all.truncate(count);
        all
    }
}
