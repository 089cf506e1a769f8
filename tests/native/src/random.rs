//! A seeded generator of numbers (SplitMix64), the same sequence on every machine.

pub struct Random(u64);

impl Random {
    pub fn new(seed: u64) -> Random {
        Random(seed)
    }

    /// Any 64 bits.
    pub fn number(&mut self) -> u64 {
        self.0 = self.0.wrapping_add(0x9E37_79B9_7F4A_7C15);
        let a = (self.0 ^ self.0 >> 30).wrapping_mul(0xBF58_476D_1CE4_E5B9);
        let b = (a ^ a >> 27).wrapping_mul(0x94D0_49BB_1331_11EB);
        b ^ b >> 31
    }

    /// A number below n.
    pub fn below(&mut self, n: u32) -> u32 {
        (self.number() % u64::from(n.max(1))) as u32
    }

    /// True one time in n.
    pub fn one_in(&mut self, n: u32) -> bool {
        self.below(n) == 0
    }

    pub fn pick<T: Copy>(&mut self, from: &[T]) -> T {
        from[self.below(from.len() as u32) as usize]
    }

    pub fn shuffle<T>(&mut self, list: &mut [T]) {
        for i in (1..list.len()).rev() {
            list.swap(i, self.below(i as u32 + 1) as usize);
        }
    }

    /// Some of a list, at least one and at most `most`, in any order.
    pub fn some_of(&mut self, mut list: Vec<u32>, most: u32) -> Vec<u32> {
        self.shuffle(&mut list);
        let kept = 1 + self.below(most.min(list.len() as u32));
        list.truncate(kept as usize);
        list
    }

    /// The numbers below n, in any order.
    pub fn order(&mut self, n: u32) -> Vec<u32> {
        let mut list: Vec<u32> = (0..n).collect();
        self.shuffle(&mut list);
        list
    }

    /// Some of the numbers below n, at least one, in any order.
    pub fn subset(&mut self, n: u32) -> Vec<u32> {
        self.some_of((0..n).collect(), n)
    }

    pub fn bytes(&mut self, n: u32) -> Vec<u8> {
        (0..n).map(|_| self.number() as u8).collect()
    }
}
