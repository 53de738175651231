//! A small fixed generator of pseudo-random numbers (splitmix64): the same
//! numbers for the same seed on every machine.

#[derive(Clone, Debug)]
pub struct Rng {
    state: u64,
}

impl Rng {
    /// A stream of its own for each seed and purpose.
    pub fn new(seed: u64, purpose: u64) -> Rng {
        let mut rng = Rng {
            state: seed ^ purpose.wrapping_mul(0xD6E8_FEB8_6659_FD93),
        };
        let start = rng.number();
        rng.state ^= start;
        rng
    }

    pub fn number(&mut self) -> u64 {
        self.state = self.state.wrapping_add(0x9E37_79B9_7F4A_7C15);
        let mut mixed = self.state;
        mixed = (mixed ^ (mixed >> 30)).wrapping_mul(0xBF58_476D_1CE4_E5B9);
        mixed = (mixed ^ (mixed >> 27)).wrapping_mul(0x94D0_49BB_1331_11EB);
        mixed ^ (mixed >> 31)
    }

    /// A number from 0 to one less than the limit.
    pub fn below(&mut self, limit: usize) -> usize {
        (self.number() % limit as u64) as usize
    }

    /// A number from the first to the last, both included.
    pub fn between(&mut self, first: u64, last: u64) -> u64 {
        first + self.number() % (last - first + 1)
    }

    /// True once in so many times.
    pub fn once_in(&mut self, times: usize) -> bool {
        self.below(times) == 0
    }

    pub fn percent(&mut self, percent: usize) -> bool {
        self.below(100) < percent
    }

    pub fn pick<'a, T>(&mut self, choices: &'a [T]) -> &'a T {
        &choices[self.below(choices.len())]
    }

    pub fn byte(&mut self) -> u8 {
        self.number() as u8
    }

    pub fn bytes(&mut self, width: usize) -> Vec<u8> {
        (0..width).map(|_| self.byte()).collect()
    }

    /// A text of the given width, each character out of the given ones.
    pub fn text(&mut self, characters: &[u8], width: usize) -> Vec<u8> {
        (0..width).map(|_| *self.pick(characters)).collect()
    }

    pub fn digits(&mut self, width: usize) -> Vec<u8> {
        self.text(b"0123456789", width)
    }

    pub fn shuffle<T>(&mut self, items: &mut [T]) {
        for last in (1..items.len()).rev() {
            items.swap(last, self.below(last + 1));
        }
    }
}
