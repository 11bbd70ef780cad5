//! The proved library held against the model: the same input to both, and every number, place,
//! count and lane compared.
//!
//! A case is dealt from one seed, so a difference is found again by its seed. It is also printed
//! with its whole input, and goes to `stored` once it is settled.

pub mod asked;
pub mod asking;
pub mod baseline;
pub mod books;
pub mod calls;
pub mod catalogue;
pub mod closings;
pub mod difference;
pub mod peers;
pub mod places;
pub mod plain_triples;
pub mod process;
pub mod questions;
pub mod records;
pub mod rounds;
pub mod running;
pub mod runs;
pub mod stored;
pub mod stored_lists;
pub mod stored_questions;
pub mod tables;
pub mod triples;

use difference::Difference;

/// Runs one case of one kind from its seed.
pub type Case = fn(u64) -> Result<(), Difference>;

/// Every kind of case, by name.
pub const CASES: [(&str, Case); 11] = [
    ("check", tables::check),
    ("add", tables::add),
    ("read", books::read),
    ("write", books::write),
    ("read triples", triples::read),
    ("write triples", triples::write),
    ("close", closings::close),
    ("close book", closings::close_book),
    ("compile", questions::compile),
    ("ask", runs::ask),
    ("run", runs::any_run),
];

/// Runs a kind of case at each seed and stops at the first difference.
pub fn run(name: &str, case: Case, seeds: std::ops::Range<u64>) {
    for seed in seeds {
        if let Err(difference) = case(seed) {
            panic!("{name}, seed {seed}: {difference}");
        }
    }
}
