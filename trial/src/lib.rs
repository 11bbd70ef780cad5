//! An independent model of Trackvesper, written from its documents alone.
//!
//! Every call of the document stands here once more, by the simplest means: maps, lists, plain
//! recursion. It is slow and short so that it can be read against the document, and it is used
//! to try another implementation with the cases that `random` deals out.
//!
//! Refusals are the document's own numbers; 0 is done. No function here panics, whatever it is
//! handed.

pub mod annotation;
pub mod book;
pub mod closing;
pub mod export;
pub mod meaning;
pub mod ntriples;
pub mod pattern;
pub mod programs;
pub mod question;
pub mod random;
pub mod rules;
pub mod steps;
pub mod table;
pub mod term;
