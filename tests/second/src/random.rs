//! A small generator of random numbers (splitmix64), the same on every machine.

pub struct Random {
    state: u64,
}

impl Random {
    pub fn new(seed: u64) -> Random {
        Random { state: seed }
    }

    /// A generator of its own for one episode of a run, so that the episode can be made alone.
    pub fn for_episode(seed: u64, episode: u64) -> Random {
        let mut mixed = Random::new(seed ^ episode.wrapping_mul(0xd134_2543_de82_ef95));
        Random::new(mixed.draw())
    }

    pub fn draw(&mut self) -> u64 {
        self.state = self.state.wrapping_add(0x9e37_79b9_7f4a_7c15);
        let mut mixed = self.state;
        mixed = (mixed ^ (mixed >> 30)).wrapping_mul(0xbf58_476d_1ce4_e5b9);
        mixed = (mixed ^ (mixed >> 27)).wrapping_mul(0x94d0_49bb_1331_11eb);
        mixed ^ (mixed >> 31)
    }

    /// A number from 0 up to but not including the limit; 0 when the limit is 0.
    pub fn below(&mut self, limit: usize) -> usize {
        (self.draw() % (limit.max(1) as u64)) as usize
    }

    /// A number from low to high, both included; low when high is less.
    pub fn between(&mut self, low: u32, high: u32) -> u32 {
        let width = u64::from(high.saturating_sub(low)) + 1;
        low + (self.draw() % width) as u32
    }

    /// True so many times in a hundred.
    pub fn chance(&mut self, percent: u32) -> bool {
        self.between(1, 100) <= percent
    }

    /// True so many times in a thousand.
    pub fn rarely(&mut self, per_thousand: u32) -> bool {
        self.between(1, 1000) <= per_thousand
    }

    /// Any byte.
    pub fn byte(&mut self) -> u8 {
        (self.draw() >> 32) as u8
    }

    /// One of a list.
    pub fn pick<T: Copy, const N: usize>(&mut self, items: [T; N]) -> T {
        items[self.below(N)]
    }

    /// An index into a list of weights, each index as often as its weight says.
    pub fn weighted<const N: usize>(&mut self, weights: [usize; N]) -> usize {
        let mut left = self.below(weights.iter().sum());
        for (index, weight) in weights.iter().enumerate() {
            if left < *weight {
                return index;
            }
            left -= weight;
        }
        0
    }
}
