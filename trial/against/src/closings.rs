//! Closing a table, the exported call, and the closing program as a process.

use crate::calls;
use crate::difference::{same, Difference};
use crate::process;
use std::path::Path;
use trial::random::{books, closings, Random};
use trial::table::Lanes;
use trial::{book, closing, export, programs};

/// A table dealt from the seed, closed; the room is often exactly the closure's, or one row less.
pub fn close(seed: u64) -> Result<(), Difference> {
    let mut random = Random::new(seed);
    let (kind, rules, lanes, count) = closings::any(&mut random);
    close_one(kind, rules, &lanes, count)
}

pub fn close_one(kind: u8, rules: u8, lanes: &Lanes, count: usize) -> Result<(), Difference> {
    let (mut proved_lanes, mut model_lanes) = (lanes.clone(), lanes.clone());
    let proved = calls::close(kind, rules, &mut proved_lanes, count);
    let model = closing::close(kind, rules, &mut model_lanes, count);
    let input = || format!("kind {kind}, rules {rules}, count {count}, {lanes:?}");
    same("close: answer", &proved, &model, input)?;
    same("close: lanes", &proved_lanes, &model_lanes, input)
}

/// A book dealt from the seed: now and then any book at all, mostly one whose closure is of interest.
pub fn book_bytes(random: &mut Random) -> Vec<u8> {
    if random.chance(4) {
        return books::any(random);
    }
    let kind = trial::random::legal_kind(random);
    let rules = trial::random::legal_rules(random);
    let rows = match random.below(24) {
        0 => closings::brim(random, kind, rules),
        _ => closings::rows(random, kind),
    };
    book::bytes_of(kind, books::base(random, kind), rules, &rows)
}

/// The exported call, into output of about the length it needs.
pub fn close_book(seed: u64) -> Result<(), Difference> {
    let mut random = Random::new(seed);
    let bytes = book_bytes(&mut random);
    let mut room = vec![0; 17_416];
    let whole = export::close_book(&bytes, &mut room);
    let need = (whole & 0xFFFF_FFFF) as usize;
    let length = random.pick(&[need, need, need.saturating_sub(1), need + 5, 0, 17_416]);
    let out: Vec<u8> = (0..length).map(|_| random.draw() as u8).collect();
    let (mut proved_out, mut model_out) = (out.clone(), out);
    let proved = calls::close_book(&bytes, &mut proved_out);
    let model = export::close_book(&bytes, &mut model_out);
    let input = || format!("output of {length} bytes, book {bytes:?}");
    same("close book: answer", &proved, &model, input)?;
    same("close book: output", &proved_out, &model_out, input)
}

/// The closing program as a process.
pub fn close_book_program(program: &Path, seed: u64) -> Result<(), Difference> {
    let mut random = Random::new(seed);
    let bytes = book_bytes(&mut random);
    let proved = process::run(program, &bytes);
    let model = programs::close_book_program(&bytes);
    same("closing program", &proved, &model, || format!("input {bytes:?}"))
}
