//! Seeded chance: the same seed, kind and index give the same case on every machine.

pub struct Chance {
    state: u64,
}

fn mixed(state: u64) -> u64 {
    let a = (state ^ (state >> 30)).wrapping_mul(0xbf58_476d_1ce4_e5b9);
    let b = (a ^ (a >> 27)).wrapping_mul(0x94d0_49bb_1331_11eb);
    b ^ (b >> 31)
}

impl Chance {
    pub fn of(seed: u64, kind: &str, index: u64) -> Chance {
        let named = kind.bytes().fold(mixed(seed), |state, byte| mixed(state ^ u64::from(byte)));
        Chance { state: mixed(named.wrapping_add(index.wrapping_mul(0x9e37_79b9_7f4a_7c15))) }
    }

    pub fn bits(&mut self) -> u64 {
        self.state = self.state.wrapping_add(0x9e37_79b9_7f4a_7c15);
        mixed(self.state)
    }

    /// 0 to limit - 1.
    pub fn below(&mut self, limit: u64) -> u64 {
        ((u128::from(self.bits()) * u128::from(limit)) >> 64) as u64
    }

    /// Both ends may come.
    pub fn between(&mut self, low: i64, high: i64) -> i64 {
        low + self.below((high - low + 1) as u64) as i64
    }

    pub fn len_to(&mut self, most: usize) -> usize {
        self.below(most as u64 + 1) as usize
    }

    pub fn percent(&mut self, part: u64) -> bool {
        self.below(100) < part
    }

    pub fn one_of<T: Copy>(&mut self, list: &[T]) -> T {
        list[self.below(list.len() as u64) as usize]
    }

    pub fn byte(&mut self) -> u8 {
        self.bits() as u8
    }

    pub fn bytes(&mut self, len: usize) -> Vec<u8> {
        (0..len).map(|_| self.byte()).collect()
    }
}
