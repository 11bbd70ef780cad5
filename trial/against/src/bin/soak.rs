//! A long run: every kind of case, seed after seed, until the time is up or something differs.
//!
//!     soak [MINUTES] [FIRST SEED]

use against::CASES;
use std::time::{Duration, Instant};

fn main() {
    let mut words = std::env::args().skip(1);
    let minutes: u64 = words.next().and_then(|word| word.parse().ok()).unwrap_or(10);
    let first: u64 = words.next().and_then(|word| word.parse().ok()).unwrap_or(1_000_000);
    let end = Instant::now() + Duration::from_secs(60 * minutes);
    let mut seed = first;
    while Instant::now() < end {
        for (name, case) in CASES {
            if let Err(difference) = case(seed) {
                eprintln!("{name}, seed {seed}: {difference}");
                std::process::exit(1);
            }
        }
        seed += 1;
    }
    println!(
        "{} cases of each of {} kinds, seeds {first} to {}: no difference",
        seed - first,
        CASES.len(),
        seed - 1
    );
}
