//! Random numbers by splitmix64, from a seed that can be set.

use std::env;

/// The seed where none is set.
pub const SEED: u64 = 20_231_115;

/// So many rounds of a random test, or where `SPARDIMPLE_MORE` is set that many times as many. The
/// gate takes few: it may run under an emulator.
#[must_use]
pub fn rounds(few: u64) -> u64 {
    let more = env::var("SPARDIMPLE_MORE").ok();
    few * more.and_then(|more| more.parse().ok()).unwrap_or(1)
}

/// Random numbers by splitmix64.
///
/// ```
/// use inputs::Random;
///
/// let (mut one, mut other) = (Random::new(7), Random::new(7));
/// assert_eq!(one.any(), other.any());
/// assert!((3..=5).contains(&one.between(3, 5)));
/// ```
pub struct Random(u64);

impl Random {
    /// The numbers of a seed.
    #[must_use]
    pub const fn new(seed: u64) -> Self {
        Random(seed)
    }

    /// The numbers for one test, which also prints the seed: that of [`seed`].
    #[must_use]
    pub fn for_test() -> Self {
        let seed = seed();
        println!("seed {seed}");
        Random(seed)
    }

    /// Any number.
    pub fn any(&mut self) -> u64 {
        self.0 = self.0.wrapping_add(0x9E37_79B9_7F4A_7C15);
        let mut z = self.0;
        z = (z ^ (z >> 30)).wrapping_mul(0xBF58_476D_1CE4_E5B9);
        z = (z ^ (z >> 27)).wrapping_mul(0x94D0_49BB_1331_11EB);
        z ^ (z >> 31)
    }

    /// A number from `least` to `most`, both counted in.
    pub fn between(&mut self, least: u64, most: u64) -> u64 {
        least + self.any() % (most - least + 1)
    }

    /// From 0 to 1, and not 1.
    #[allow(clippy::cast_precision_loss)] // 53 bits are what a float holds
    pub fn unit(&mut self) -> f64 {
        (self.any() >> 11) as f64 / (1_u64 << 53) as f64
    }

    /// A place in something of that length.
    #[allow(clippy::cast_possible_truncation)] // it is below a length
    pub fn place(&mut self, length: usize) -> usize {
        (self.any() % length as u64) as usize
    }

    /// True once in n times.
    pub fn once_in(&mut self, n: u64) -> bool {
        self.any() % n == 0
    }

    /// One of the items.
    pub fn pick<T: Copy>(&mut self, items: &[T]) -> T {
        items[self.place(items.len())]
    }

    /// A byte.
    pub fn byte(&mut self) -> u8 {
        self.any().to_le_bytes()[0]
    }
}

/// The seed that the environment variable `SPARDIMPLE_SEED` sets, so that a failure can be repeated
/// or another run asked for, and else [`SEED`].
///
/// # Panics
///
/// The variable holds no number.
#[must_use]
pub fn seed() -> u64 {
    match env::var("SPARDIMPLE_SEED") {
        Ok(seed) => seed.parse().expect("SPARDIMPLE_SEED is a number"),
        Err(_) => SEED,
    }
}
