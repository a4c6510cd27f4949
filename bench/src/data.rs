//! The counts that are measured.

/// How many inputs of a kind are worked on in turns. A processor that meets one
/// and the same input a hundred times foretells its turns by heart, as it never
/// does where an image is checked or asked once.
pub const INPUTS: u64 = 16;

#[derive(Clone, Copy)]
pub enum Kind {
    /// Most hours without a coin.
    Sparse,
    /// Shut at night, some dozens of coins in the evening.
    Arcade,
    /// Thousands of coins in every hour.
    Heavy,
    /// Some hundred thousand tickets in every hour.
    Tickets,
    /// Shorter, with so many tickets that each page of 64 hours has more than
    /// 32 bits hold.
    Rich,
}

impl Kind {
    pub const COINS: [Kind; 3] = [Kind::Sparse, Kind::Arcade, Kind::Heavy];

    pub fn name(self) -> &'static str {
        match self {
            Kind::Sparse => "sparse",
            Kind::Arcade => "arcade",
            Kind::Heavy => "heavy",
            Kind::Tickets => "tickets",
            Kind::Rich => "rich pages",
        }
    }

    /// Of the images.
    pub fn edition(self) -> u8 {
        match self {
            Kind::Tickets | Kind::Rich => 2,
            _ => 1,
        }
    }

    fn hours(self) -> usize {
        match self {
            Kind::Rich => 12_288,
            _ => 65_536,
        }
    }
}

/// Random numbers, the same in every run.
pub struct Random(u64);

impl Random {
    pub fn new(seed: u64) -> Random {
        Random(seed)
    }

    /// The sequence known as xorshift64*.
    pub fn below(&mut self, n: u64) -> u64 {
        self.0 ^= self.0 >> 12;
        self.0 ^= self.0 << 25;
        self.0 ^= self.0 >> 27;
        let word = self.0.wrapping_mul(0x2545_F491_4F6C_DD1D);
        ((u128::from(word) * u128::from(n)) >> 64) as u64
    }
}

/// A list of a kind, another one for each seed.
pub fn counts(kind: Kind, seed: u64) -> Vec<u32> {
    let mut random = Random::new(7 + seed);
    (0..kind.hours())
        .map(|hour| count(kind, hour % 24, &mut random))
        .collect()
}

fn count(kind: Kind, hour_of_day: usize, random: &mut Random) -> u32 {
    let count = match kind {
        Kind::Sparse if random.below(12) == 0 => 1 + random.below(3),
        Kind::Sparse => 0,
        Kind::Arcade if hour_of_day < 10 => 0,
        Kind::Arcade => random.below(4 * (hour_of_day as u64 - 8)),
        Kind::Heavy => random.below(65_536),
        Kind::Tickets => random.below(1 << 18),
        Kind::Rich => 60_000_000 + random.below(40_000_000),
    };
    count as u32
}

/// Hours to ask for one after another, as a report over some months does.
pub fn in_order(hours: usize, number: usize) -> Vec<u64> {
    let first = (hours - number) as u64 / 2;
    (first..first + number as u64).collect()
}

/// Hours or figures to ask for, below a limit.
pub fn questions(limit: u64, number: usize, seed: u64) -> Vec<u64> {
    let mut random = Random::new(11 + seed);
    (0..number).map(|_| random.below(limit)).collect()
}
