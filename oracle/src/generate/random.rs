//! Numbers from a seed (splitmix64), the same on every machine.

pub struct Random {
    state: u64,
}

impl Random {
    /// A stream of its own for each seed, word and number.
    pub fn new(seed: u64, word: &str, number: usize) -> Random {
        let mut random = Random { state: seed };
        for byte in word.bytes() {
            random.state = random.next() ^ u64::from(byte);
        }
        random.state = random.next() ^ number as u64;
        random
    }

    fn next(&mut self) -> u64 {
        self.state = self.state.wrapping_add(0x9E37_79B9_7F4A_7C15);
        let mut z = self.state;
        z = (z ^ (z >> 30)).wrapping_mul(0xBF58_476D_1CE4_E5B9);
        z = (z ^ (z >> 27)).wrapping_mul(0x94D0_49BB_1331_11EB);
        z ^ (z >> 31)
    }

    /// A number from `least` to `greatest`, both in.
    pub fn from(&mut self, least: u64, greatest: u64) -> u64 {
        least + self.next() % (greatest - least + 1)
    }

    /// A number from `least` to `greatest` whose size, not its value, is drawn evenly.
    pub fn sized(&mut self, least: u64, greatest: u64) -> u64 {
        let sizes = 64 - (greatest / least).leading_zeros();
        let top = (least << self.from(0, u64::from(sizes))).min(greatest);
        self.from(least, top)
    }

    /// True in one of `n` cases.
    pub fn one_in(&mut self, n: u64) -> bool {
        self.from(1, n) == 1
    }

    pub fn pick<T: Copy>(&mut self, from: &[T]) -> T {
        from[self.from(0, from.len() as u64 - 1) as usize]
    }

    /// A set of some of the `states` states, each in it in one of `n` cases.
    pub fn states(&mut self, states: u8, n: u64) -> u16 {
        (0..states).fold(0, |set, state| set | u16::from(self.one_in(n)) << state)
    }
}
