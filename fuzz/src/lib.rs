//! What must come back for arbitrary bytes: judged by its form alone first, then against the model.
//!
//! The fuzzer's harnesses (`program.c`, `exported.c`, `triples.c`) and the replay of the kept corpus both judge by
//! these functions.

pub mod entry;
pub mod exported;
pub mod inputs;
pub mod lines;
pub mod programs;
pub mod triples;

/// What is wrong with what came back.
pub type Fault = String;

/// A fault unless the condition holds.
pub fn must(holds: bool, fault: impl FnOnce() -> Fault) -> Result<(), Fault> {
    if holds {
        Ok(())
    } else {
        Err(fault())
    }
}
