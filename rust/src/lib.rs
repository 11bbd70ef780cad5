//! Trackvesper's proved library as safe Rust functions: fitting books, what follows from them,
//! questions about them, makers' lists. `calls` has the types and what can be asked; `proved` asks
//! the library (`proved::Proved`), and is there where it is linked, on x86-64.
//!
//! Every call takes anything, and answers what docs/REFERENCE.md says; nothing here panics.

pub mod calls;
#[cfg(proved)]
pub mod proved;
