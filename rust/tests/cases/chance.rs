//! Chance: an own generator, and rounds with a seed each.

/// splitmix64
pub struct Rng(u64);

impl Rng {
    pub fn new(seed: u64) -> Rng {
        Rng(seed)
    }

    pub fn next(&mut self) -> u64 {
        self.0 = self.0.wrapping_add(0x9E37_79B9_7F4A_7C15);
        let mut z = self.0;
        z = (z ^ (z >> 30)).wrapping_mul(0xBF58_476D_1CE4_E5B9);
        z = (z ^ (z >> 27)).wrapping_mul(0x94D0_49BB_1331_11EB);
        z ^ (z >> 31)
    }

    pub fn below(&mut self, n: usize) -> usize {
        (self.next() % n as u64) as usize
    }

    pub fn between(&mut self, from: usize, to: usize) -> usize {
        from + self.below(to - from + 1)
    }

    pub fn one_in(&mut self, n: usize) -> bool {
        self.below(n) == 0
    }

    pub fn pick<'a, T>(&mut self, of: &'a [T]) -> &'a T {
        &of[self.below(of.len())]
    }

    pub fn bytes(&mut self, n: usize) -> Vec<u8> {
        let mut bytes = Vec::with_capacity(n + 8);
        while bytes.len() < n {
            bytes.extend(self.next().to_le_bytes());
        }
        bytes.truncate(n);
        bytes
    }
}

/// Runs a test so many times, each with a seed of its own. LOES_SEED is the first seed, LOES_ROUNDS a factor on the times. A
/// failure tells the seed with which it is the first round.
pub fn rounds(name: &str, times: usize, test: impl Fn(&mut Rng)) {
    struct Failing(u64, String);
    impl Drop for Failing {
        fn drop(&mut self) {
            if std::thread::panicking() {
                eprintln!("{} fails with LOES_SEED={}", self.1, self.0);
            }
        }
    }
    let number = |name: &str| {
        std::env::var(name).ok().map(|text| text.parse::<f64>().unwrap_or_else(|_| panic!("{name}={text} is no number")))
    };
    let first = std::env::var("LOES_SEED").map_or(1, |text| text.parse::<u64>().expect("LOES_SEED is a number"));
    let times = (times as f64 * number("LOES_ROUNDS").unwrap_or(1.0)).ceil().max(1.0) as u64;
    for round in 0..times {
        let seed = first.wrapping_add(round);
        let failing = Failing(seed, name.to_string());
        let salt = name.bytes().fold(0, |hash: u64, byte| hash.wrapping_mul(0x100_0000_01B3) ^ u64::from(byte));
        test(&mut Rng::new(Rng::new(seed).next() ^ salt));
        drop(failing);
    }
}
