//! A small seeded source of random numbers: splitmix64 to begin with,
//! xoshiro256** to go on. The same seed gives the same files everywhere.

pub struct Random {
    state: [u64; 4],
}

/// One step of splitmix64.
fn split(state: &mut u64) -> u64 {
    *state = state.wrapping_add(0x9E37_79B9_7F4A_7C15);
    let mut z = *state;
    z = (z ^ (z >> 30)).wrapping_mul(0xBF58_476D_1CE4_E5B9);
    z = (z ^ (z >> 27)).wrapping_mul(0x94D0_49BB_1331_11EB);
    z ^ (z >> 31)
}

impl Random {
    pub fn new(seed: u64) -> Self {
        let mut state = seed;
        Random {
            state: [(); 4].map(|()| split(&mut state)),
        }
    }

    /// The numbers of one file of a seed; each file has its own, so that the
    /// n-th can be made without those before it.
    pub fn of_file(seed: u64, index: u64) -> Self {
        let mut place = index;
        Random::new(seed ^ split(&mut place))
    }

    pub fn draw(&mut self) -> u64 {
        let [a, b, c, d] = &mut self.state;
        let answer = b.wrapping_mul(5).rotate_left(7).wrapping_mul(9);
        let shifted = *b << 17;
        *c ^= *a;
        *d ^= *b;
        *b ^= *c;
        *a ^= *d;
        *c ^= shifted;
        *d = d.rotate_left(45);
        answer
    }

    /// A number below `bound`, which is at least 1.
    pub fn below(&mut self, bound: usize) -> usize {
        ((u128::from(self.draw()) * bound as u128) >> 64) as usize
    }

    /// A number from `low` to `high`, both included.
    pub fn within(&mut self, low: usize, high: usize) -> usize {
        low + self.below(high - low + 1)
    }

    pub fn byte(&mut self) -> u8 {
        self.draw() as u8
    }

    pub fn in_hundred(&mut self, times: usize) -> bool {
        self.below(100) < times
    }

    pub fn pick<T: Copy>(&mut self, list: &[T]) -> T {
        list[self.below(list.len())]
    }

    pub fn shuffle<T>(&mut self, list: &mut [T]) {
        for last in (1..list.len()).rev() {
            list.swap(last, self.below(last + 1));
        }
    }

    /// Mostly a small number, sometimes one at an edge, sometimes any.
    pub fn number(&mut self) -> i32 {
        const EDGES: [i32; 8] = [
            i32::MAX,
            i32::MIN,
            i32::MAX - 1,
            i32::MIN + 1,
            -1,
            0,
            1,
            256,
        ];
        match self.below(10) {
            0 => self.pick(&EDGES),
            1 => self.draw() as i32,
            _ => self.below(9) as i32 - 2,
        }
    }

    /// A byte of the sort that ranges end at.
    pub fn edge(&mut self) -> u8 {
        const EDGES: [u8; 24] = [
            0, 1, 2, 3, 4, 5, 6, 7, 8, 9, 10, 11, 12, 15, 16, 31, 32, 33, 63, 64, 65, 127, 128, 255,
        ];
        self.pick(&EDGES)
    }
}
