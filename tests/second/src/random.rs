//! Random numbers from a seed, the same on every machine, and the values that
//! the tests like to draw.

pub struct Random {
    state: u64,
}

impl Random {
    pub fn new(seed: u64) -> Random {
        Random { state: seed }
    }

    /// The next number of the sequence known as splitmix64.
    pub fn next(&mut self) -> u64 {
        self.state = self.state.wrapping_add(0x9E37_79B9_7F4A_7C15);
        let mut z = self.state;
        z = (z ^ (z >> 30)).wrapping_mul(0xBF58_476D_1CE4_E5B9);
        z = (z ^ (z >> 27)).wrapping_mul(0x94D0_49BB_1331_11EB);
        z ^ (z >> 31)
    }

    /// A number below `n`, which is above 0.
    pub fn below(&mut self, n: u64) -> u64 {
        self.next() % n
    }

    /// A number from `low` to `high`, both included.
    pub fn between(&mut self, low: u64, high: u64) -> u64 {
        low + self.below(high - low + 1)
    }

    pub fn one_in(&mut self, n: u64) -> bool {
        self.below(n) == 0
    }

    pub fn pick<T: Copy>(&mut self, from: &[T]) -> T {
        from[self.below(from.len() as u64) as usize]
    }

    pub fn shuffle<T>(&mut self, list: &mut [T]) {
        for k in (1..list.len()).rev() {
            list.swap(k, self.below(k as u64 + 1) as usize);
        }
    }

    pub fn bytes(&mut self, length: usize) -> Vec<u8> {
        (0..length).map(|_| self.next() as u8).collect()
    }
}

/// How large counts tend to be.
#[derive(Clone, Copy, Debug)]
pub enum Size {
    Zero,
    Few,
    Usual,
    Many,
    Huge,
    Mixed,
}

impl Size {
    pub const ALL: [Size; 6] = [
        Size::Zero,
        Size::Few,
        Size::Usual,
        Size::Many,
        Size::Huge,
        Size::Mixed,
    ];
}

/// Counts at which reserves, fields and totals turn.
const TURNING: [u64; 10] = [
    1,
    2,
    31,
    32,
    122,
    123,
    65_535,
    65_536,
    2_147_483_648,
    4_294_967_295,
];

/// A count of about the size asked for.
pub fn count(random: &mut Random, size: Size) -> u32 {
    let value = match size {
        Size::Zero => 0,
        Size::Few => random.below(8).saturating_sub(5),
        Size::Usual => of_width(random, 7),
        Size::Many => of_width(random, 22),
        Size::Huge => of_width(random, 32),
        Size::Mixed if random.one_in(12) => random.pick(&TURNING),
        Size::Mixed => {
            let size = random.pick(&[Size::Zero, Size::Few, Size::Usual, Size::Many, Size::Huge]);
            u64::from(count(random, size))
        }
    };
    value as u32
}

/// A number of at most `most` digits, every width being as likely.
fn of_width(random: &mut Random, most: u64) -> u64 {
    let width = random.between(1, most);
    random.below(1 << width)
}

/// A list of counts whose total stays within a store's limit.
pub fn counts(random: &mut Random, length: usize, size: Size) -> Vec<u64> {
    counts_to(random, length, size, crate::plain::TOTAL_LIMIT)
}

/// A list of counts whose total is at most this.
pub fn counts_to(random: &mut Random, length: usize, size: Size, most: u64) -> Vec<u64> {
    let mut left = most;
    (0..length)
        .map(|_| {
            let value = u64::from(count(random, size)).min(left);
            left -= value;
            value
        })
        .collect()
}
