//! A small seeded source of numbers (splitmix64).

#[derive(Clone, Debug)]
pub struct Chance(u64);

fn mix(mut z: u64) -> u64 {
    z = (z ^ (z >> 30)).wrapping_mul(0xBF58_476D_1CE4_E5B9);
    z = (z ^ (z >> 27)).wrapping_mul(0x94D0_49BB_1331_11EB);
    z ^ (z >> 31)
}

impl Chance {
    /// `salt` parts the uses of one seed and index.
    pub fn new(seed: u64, index: u64, salt: u64) -> Chance {
        let a = mix(seed.wrapping_add(0x9E37_79B9_7F4A_7C15));
        let b = mix(a ^ index.wrapping_mul(0xD6E8_FEB8_6659_FD93));
        Chance(mix(b ^ salt.wrapping_mul(0xA076_1D64_78BD_642F)))
    }

    pub fn draw(&mut self) -> u64 {
        self.0 = self.0.wrapping_add(0x9E37_79B9_7F4A_7C15);
        mix(self.0)
    }

    /// 0 to n - 1; 0 for n = 0.
    pub fn below(&mut self, n: u64) -> u64 {
        self.draw() % n.max(1)
    }

    /// A place in something of this length.
    pub fn place(&mut self, length: usize) -> usize {
        self.below(length as u64) as usize
    }

    /// low to high, both included.
    pub fn between(&mut self, low: u64, high: u64) -> u64 {
        low + self.below(high.saturating_sub(low) + 1)
    }

    /// low to high, small numbers as likely as large ones by their length.
    pub fn spread(&mut self, low: u64, high: u64) -> u64 {
        let bits = u64::from(64 - high.leading_zeros());
        let cap = 1u64 << self.between(1, bits.clamp(1, 62));
        self.between(low, high.min(low.max(cap)))
    }

    pub fn percent(&mut self, share: u64) -> bool {
        self.below(100) < share
    }

    pub fn one_in(&mut self, n: u64) -> bool {
        self.below(n) == 0
    }

    pub fn pick<'a, T>(&mut self, from: &'a [T]) -> Option<&'a T> {
        let at = self.place(from.len());
        from.get(at)
    }

    /// `count` different numbers of low to high, rising.
    pub fn some_of(&mut self, low: u64, high: u64, count: u64) -> Vec<u64> {
        let mut all: Vec<u64> = (low..=high).collect();
        while all.len() as u64 > count {
            let at = self.place(all.len());
            if at < all.len() {
                all.remove(at);
            }
        }
        all
    }
}
