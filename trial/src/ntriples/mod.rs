//! Makers' lists as N-Triples (request C-11): reading a file into a table and a names list, and
//! writing a table with its names list back.
//!
//! A line is judged on its characters by the productions of RDF 1.1 N-Triples, one function each;
//! what it means is three texts. The letters and numbers in the comments (N1, L2, R8, W4) are
//! those of the settled readings of C-11.

pub mod character;
pub mod grammar;
pub mod names;
pub mod reading;
pub mod text;
pub mod writing;

pub use names::Names;
pub use reading::{read_triples, ReadOut};
pub use text::{Sort, Text};
pub use writing::{write_triples, WriteOut};
