//! Input for the counter's program: a book, then questions, each behind a length.

use super::{annotation, books, closings, damage, legal_kind, legal_rules, questions, Random};
use crate::book;
use crate::pattern::{AnnSlot, Pattern, Slot};
use crate::question::{bytes_of, Part};

/// Bytes behind their length; too many for a length are cut.
pub fn behind_length(bytes: &[u8]) -> Vec<u8> {
    let length = u16::try_from(bytes.len()).unwrap_or(u16::MAX);
    let mut all = length.to_be_bytes().to_vec();
    all.extend(bytes.iter().take(usize::from(length)));
    all
}

/// A book whose closing is of interest, or one of few fields, or any.
fn book_bytes(random: &mut Random, kind: u8) -> Vec<u8> {
    match random.below(8) {
        0 => books::damaged(random, kind),
        1..=3 => {
            let fields = random.below(6);
            books::of_length(random, kind, fields)
        }
        _ => {
            let rows = closings::rows(random, kind);
            let base = books::base(random, kind);
            book::bytes_of(kind, base, legal_rules(random), &rows)
        }
    }
}

/// A question of at most two TRIPLEs, for the program allows 4,294,967,295 looks and a table of
/// a thousand rows would take them.
fn question_bytes(random: &mut Random, kind: u8) -> Vec<u8> {
    let parts = random.from_to(1, 4);
    let part = match random.below(6) {
        0 => return questions::damaged(random, kind).into_iter().take(90).collect(),
        1 => return Vec::new(),
        2 => Part::Triple(Pattern {
            subj: Slot::variable(0),
            pred: Slot::constant(random.below(5) as u16),
            obj: Slot::variable(1),
            ann: AnnSlot::constant(annotation(random, kind)),
        }),
        _ => questions::valid(random, kind, parts),
    };
    bytes_of(&part)
}

/// The whole input, cut or damaged now and then.
pub fn input(random: &mut Random) -> Vec<u8> {
    let kind = legal_kind(random);
    let mut bytes = behind_length(&book_bytes(random, kind));
    for _ in 0..random.below(4) {
        bytes.extend(behind_length(&question_bytes(random, kind)));
    }
    match random.below(8) {
        0 => bytes.truncate(random.below(bytes.len() + 1)),
        1 => bytes.push(0),
        2 => damage(random, &mut bytes),
        _ => {}
    }
    bytes
}
