//! A seeded generator of numbers (splitmix64), so that every run makes the same cases.

#[derive(Clone)]
pub struct Random(u64);

impl Random {
    /// The numbers of one case of one part.
    pub fn new(seed: u64, part: &str, case: u64) -> Self {
        let mut random = Random(seed ^ case.wrapping_mul(0xD1B5_4A32_D192_ED03));
        for byte in part.bytes() {
            random.0 = random.next() ^ u64::from(byte);
        }
        random
    }

    pub fn next(&mut self) -> u64 {
        self.0 = self.0.wrapping_add(0x9E37_79B9_7F4A_7C15);
        let mut word = self.0;
        word = (word ^ (word >> 30)).wrapping_mul(0xBF58_476D_1CE4_E5B9);
        word = (word ^ (word >> 27)).wrapping_mul(0x94D0_49BB_1331_11EB);
        word ^ (word >> 31)
    }

    /// From 0 to below a number over 0.
    pub fn below(&mut self, end: usize) -> usize {
        (self.next() % end as u64) as usize
    }

    pub fn between(&mut self, first: usize, last: usize) -> usize {
        first + self.below(last - first + 1)
    }

    pub fn one_in(&mut self, number: usize) -> bool {
        self.below(number) == 0
    }

    pub fn pick<T: Clone>(&mut self, list: &[T]) -> T {
        list[self.below(list.len())].clone()
    }

    pub fn shuffle<T>(&mut self, list: &mut [T]) {
        for last in (1..list.len()).rev() {
            list.swap(last, self.below(last + 1));
        }
    }

    pub fn bytes(&mut self, length: usize) -> Vec<u8> {
        (0..length).map(|_| self.next() as u8).collect()
    }

    /// Bytes of a text field.
    pub fn text(&mut self, length: usize) -> Vec<u8> {
        (0..length).map(|_| self.between(32, 126) as u8).collect()
    }

    /// Bytes of a few letters, so that they often repeat.
    pub fn few_letters(&mut self, length: usize) -> Vec<u8> {
        (0..length).map(|_| self.pick(b"AB")).collect()
    }
}
