//! What the environment sets.

use std::env;

#[derive(Clone, Copy)]
pub struct Settings {
    /// The seed of all that is chosen: QALITHONDA_SEED.
    pub seed: u64,
    /// How many cases each function is tried on in guarded memory: QALITHONDA_ROUNDS.
    pub rounds: usize,
}

impl Settings {
    pub fn from_environment() -> Settings {
        Settings { seed: number("QALITHONDA_SEED", 2152), rounds: number("QALITHONDA_ROUNDS", 20_000) as usize }
    }
}

fn number(name: &str, default: u64) -> u64 {
    match env::var(name) {
        Ok(value) => value.parse().unwrap_or_else(|_| panic!("{name} is a number")),
        Err(_) => default,
    }
}
