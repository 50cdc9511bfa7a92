//! A small random generator, and the bytes and lengths that the tests draw from
//! it: bytes that mean something on the bus come often.

/// The splitmix64 generator.
pub struct Random {
    state: u64,
}

/// Bytes with a meaning in a raw run or in a frame.
const TELLING: [u8; 16] = [
    0xA9, 0xAA, 0x00, 0x01, 0xFF, 0x55, 0xA9, 0xAA, 0x00, 0x01, 0xFF, 0xFE, 0x10, 0x08, 0x02, 0x11,
];

impl Random {
    pub fn new(seed: u64) -> Self {
        Random { state: seed }
    }

    /// 64 random bits.
    pub fn draw(&mut self) -> u64 {
        self.state = self.state.wrapping_add(0x9E37_79B9_7F4A_7C15);
        let mut mixed = self.state;
        mixed = (mixed ^ (mixed >> 30)).wrapping_mul(0xBF58_476D_1CE4_E5B9);
        mixed = (mixed ^ (mixed >> 27)).wrapping_mul(0x94D0_49BB_1331_11EB);
        mixed ^ (mixed >> 31)
    }

    /// A number below the bound, which is not 0.
    pub fn below(&mut self, bound: usize) -> usize {
        ((u128::from(self.draw()) * bound as u128) >> 64) as usize
    }

    pub fn one_in(&mut self, bound: usize) -> bool {
        self.below(bound) == 0
    }

    pub fn pick<T: Copy>(&mut self, from: &[T]) -> T {
        from[self.below(from.len())]
    }

    /// A byte: every second one is a telling one.
    pub fn byte(&mut self) -> u8 {
        let drawn = self.draw();
        if drawn & 1 == 0 {
            TELLING[(drawn >> 8) as usize % TELLING.len()]
        } else {
            (drawn >> 16) as u8
        }
    }

    /// Bytes of one of three sorts: all random, every second one telling, or
    /// only a few different ones.
    pub fn bytes(&mut self, length: usize) -> Vec<u8> {
        match self.below(4) {
            0 => (0..length).map(|_| self.draw() as u8).collect(),
            1 => {
                let few = [self.byte(), self.byte(), self.byte()];
                (0..length).map(|_| self.pick(&few)).collect()
            }
            _ => (0..length).map(|_| self.byte()).collect(),
        }
    }

    /// A length of an input: mostly short, at times none, seldom thousands.
    pub fn length(&mut self) -> usize {
        match self.below(200) {
            0..=7 => 0,
            8..=119 => self.below(24),
            120..=196 => self.below(90),
            197 | 198 => self.below(600),
            _ => 1000 + self.below(5000),
        }
    }

    /// The length of an output that needs so many elements: often just enough
    /// or one too few.
    pub fn room(&mut self, needed: usize) -> usize {
        match self.below(10) {
            0 => 0,
            1 | 2 => needed.saturating_sub(1),
            3..=5 => needed,
            6 => needed + 1,
            7 => needed + self.below(50),
            _ => self.below(51),
        }
    }
}
