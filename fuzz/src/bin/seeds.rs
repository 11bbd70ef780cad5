//! Inputs to begin with, dealt by the model's generators: seeds TARGET FOLDER COUNT

use fuzz::inputs;
use std::path::Path;
use trial::book;
use trial::pattern::{AnnSlot, Pattern, Slot};
use trial::question::{bytes_of, Part};
use trial::random::counters::behind_length;
use trial::random::Random;
use trial::random::{books, closings, counters, files, legal_kind, legal_rules, lists, questions};

/// Any book at all, or one whose closure is of interest.
fn a_book(random: &mut Random) -> Vec<u8> {
    if random.chance(2) {
        return books::any(random);
    }
    let kind = legal_kind(random);
    let rows = closings::rows(random, kind);
    let base = books::base(random, kind);
    book::bytes_of(kind, base, legal_rules(random), &rows)
}

fn an_exported_input(random: &mut Random) -> Vec<u8> {
    let length = random.pick(&[17_416u16, 17_416, 65_535, 0, 7, 8, 24, 58, 144]);
    [&length.to_be_bytes()[..], &a_book(random)].concat()
}

/// A TRIPLE that every row matches, with variables of its own from `first` on.
fn every_row(first: u16) -> Box<Part> {
    let [subj, pred, obj] = [first, first + 1, first + 2].map(Slot::variable);
    Box::new(Part::Triple(Pattern { subj, pred, obj, ann: AnnSlot::constant(1) }))
}

/// The model's own input; or a book of few rows with questions of up to 33 parts, or of every row
/// beside every row, which soon is more than 256 answers.
fn a_counter_input(random: &mut Random) -> Vec<u8> {
    let kind = legal_kind(random);
    let fields = random.below(24);
    let mut bytes = behind_length(&books::of_length(random, kind, fields));
    let question = match random.below(4) {
        0 => questions::any(random, kind),
        1 => bytes_of(&Part::Both(every_row(0), every_row(3))),
        _ => return counters::input(random),
    };
    bytes.extend(behind_length(&question));
    bytes
}

/// A makers' list to read, with lanes for it.
fn a_reading(random: &mut Random) -> Vec<u8> {
    inputs::of_reading(&files::reading(random))
}

/// A table and a names list to write.
fn a_writing(random: &mut Random) -> Vec<u8> {
    inputs::of_writing(&lists::writing(random))
}

fn main() {
    let words: Vec<String> = std::env::args().collect();
    let [_, target, folder, count] = &words[..] else {
        panic!("seeds TARGET FOLDER COUNT");
    };
    let deal = match target.as_str() {
        "exported" => an_exported_input,
        "read_triples" => a_reading,
        "write_triples" => a_writing,
        "counter" => a_counter_input,
        _ => a_book,
    };
    for seed in 0..count.parse().expect("a count") {
        let bytes = deal(&mut Random::new(seed));
        std::fs::write(Path::new(folder).join(format!("seed-{seed}")), bytes).expect("a folder");
    }
}
