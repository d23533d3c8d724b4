//! A small generator with a seed: splitmix64. The seed is 1, or what the environment variable WEMSTEKY_SEED gives; a
//! test that fails prints it.

/// The generator of one trial of a test. Each trial has its own, so that it can be repeated alone.
pub struct Random {
    test: &'static str,
    trial: usize,
    state: u64,
}

pub fn seed() -> u64 {
    match std::env::var("WEMSTEKY_SEED") {
        Ok(text) => text.parse().unwrap_or_else(|_| panic!("WEMSTEKY_SEED is not a number of 64 bits: {text}")),
        Err(_) => 1,
    }
}

fn mixed(word: u64) -> u64 {
    let word = (word ^ (word >> 30)).wrapping_mul(0xBF58_476D_1CE4_E5B9);
    let word = (word ^ (word >> 27)).wrapping_mul(0x94D0_49BB_1331_11EB);
    word ^ (word >> 31)
}

impl Random {
    pub fn new(test: &'static str, trial: usize) -> Random {
        let named = test.bytes().fold(mixed(seed()), |state, byte| mixed(state ^ u64::from(byte)));
        Random { test, trial, state: mixed(named ^ trial as u64) }
    }

    /// Any 64 bits.
    pub fn word(&mut self) -> u64 {
        self.state = self.state.wrapping_add(0x9E37_79B9_7F4A_7C15);
        mixed(self.state)
    }

    pub fn below(&mut self, bound: usize) -> usize {
        (self.word() % bound as u64) as usize
    }

    pub fn between(&mut self, least: usize, most: usize) -> usize {
        least + self.below(most - least + 1)
    }

    /// True once in so many times.
    pub fn once_in(&mut self, times: usize) -> bool {
        self.below(times) == 0
    }

    pub fn pick<T: Copy>(&mut self, choices: &[T]) -> T {
        choices[self.below(choices.len())]
    }
}

impl Drop for Random {
    fn drop(&mut self) {
        if std::thread::panicking() {
            eprintln!("failed with WEMSTEKY_SEED={}, test {}, trial {}", seed(), self.test, self.trial);
        }
    }
}
