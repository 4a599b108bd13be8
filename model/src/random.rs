//! Random numbers that a seed repeats (splitmix64).

pub struct Random(u64);

impl Random {
    pub fn new(seed: u64) -> Random {
        Random(seed)
    }

    pub fn word(&mut self) -> u32 {
        self.0 = self.0.wrapping_add(0x9E37_79B9_7F4A_7C15);
        let mut z = self.0;
        z = (z ^ (z >> 30)).wrapping_mul(0xBF58_476D_1CE4_E5B9);
        z = (z ^ (z >> 27)).wrapping_mul(0x94D0_49BB_1331_11EB);
        ((z ^ (z >> 31)) >> 32) as u32
    }

    pub fn between(&mut self, least: u32, most: u32) -> u32 {
        let count = u64::from(most - least) + 1;
        least + ((u64::from(self.word()) * count) >> 32) as u32
    }

    pub fn one_in(&mut self, n: u32) -> bool {
        self.between(1, n) == 1
    }

    pub fn pick<T: Copy>(&mut self, from: &[T]) -> T {
        from[self.between(0, from.len() as u32 - 1) as usize]
    }

    pub fn shuffle<T>(&mut self, list: &mut [T]) {
        for i in 1..list.len() {
            list.swap(i, self.between(0, i as u32) as usize);
        }
    }

    pub fn bytes(&mut self, count: u32) -> Vec<u8> {
        (0..count).map(|_| self.word() as u8).collect()
    }

    /// A number of any size: near 0, near a power of two, near the greatest, or anywhere.
    pub fn any_size(&mut self) -> u32 {
        match self.between(0, 5) {
            0 => self.between(0, 3),
            1 => u32::MAX - self.between(0, 3),
            2 => (1u32 << self.between(0, 31)).wrapping_add(self.between(0, 2)).wrapping_sub(1),
            3 => self.word() >> self.between(0, 31),
            _ => self.word(),
        }
    }
}
