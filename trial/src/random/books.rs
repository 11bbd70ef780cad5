//! Books of both editions and rule sets: valid in any order with equal triples, damaged, cut, with
//! several faults at once.

use super::{bad_row, damage, legal_kind, row, Random};
use crate::book;

/// A base year that is legal in the kind.
pub fn base(random: &mut Random, kind: u8) -> u16 {
    match kind {
        1 => random.pick(&[1900, 1901, 2000, 2024, 2099, 2100]),
        _ => 0,
    }
}

/// A legal head: edition 1, or edition 2 with rule set 1 or 2.
pub fn legal_head(random: &mut Random, kind: u8) -> Vec<u8> {
    let base = base(random, kind);
    if random.chance(2) {
        return book::head(1, kind, base);
    }
    book::long_head(2, kind, base, random.pick(&[1, 2, 2]))
}

/// The number of triple fields: mostly few, sometimes as many as a book holds.
fn length(random: &mut Random) -> usize {
    match random.below(24) {
        0 => 3854,
        1 => random.from_to(1000, 1100),
        2 => random.below(3854),
        _ => random.below(12),
    }
}

/// A book of so many triple fields, in no order, with equal triples.
pub fn of_length(random: &mut Random, kind: u8, fields: usize) -> Vec<u8> {
    let mut bytes = legal_head(random, kind);
    for _ in 0..fields {
        bytes.extend(book::triple_field(row(random, kind)));
    }
    bytes
}

/// A valid book; with many fields it may ask for more rows than there is room.
pub fn valid(random: &mut Random, kind: u8) -> Vec<u8> {
    let fields = length(random);
    of_length(random, kind, fields)
}

/// Any head: each of its contents may be wrong, and its tag and length too. One with a rule set that
/// there is not is mostly legal else, so that it comes to be judged.
pub fn head(random: &mut Random) -> Vec<u8> {
    let kind = random.pick(&[0, 1, 1, 1, 2, 3, 4, 5, 6, 255]);
    let edition = random.pick(&[0, 1, 1, 1, 2, 2, 2, 3, 255]);
    let year = random.pick(&[0, 0, 1, 1899, 1900, 2000, 2100, 2101, 65_535]);
    let rules = random.pick(&[0, 1, 2, 2, 3, 4, 255]);
    // A length that suits the edition, mostly.
    let short = (edition == 1) != random.chance(5);
    let mut bytes = match random.below(4) {
        0 => long_head_of(random, rules),
        _ if short => book::head(edition, kind, year),
        _ => book::long_head(edition, kind, year, rules),
    };
    if random.chance(6) {
        resize(random, &mut bytes);
    }
    if random.chance(6) {
        bytes[0] = random.pick(&[0, 2, 3, 16, 255]);
    }
    bytes
}

/// A head of edition 2, legal but for its rule set.
fn long_head_of(random: &mut Random, rules: u8) -> Vec<u8> {
    let kind = legal_kind(random);
    book::long_head(2, kind, base(random, kind), rules)
}

/// Changes a field's length by one or two, and its value with it or not.
fn resize(random: &mut Random, bytes: &mut Vec<u8>) {
    let by = random.from_to(1, 2);
    let shorter = random.chance(2);
    if random.chance(2) {
        let new = if shorter { bytes.len().saturating_sub(by) } else { bytes.len() + by };
        bytes.resize(new, 0);
    }
    if let Some(low) = bytes.get_mut(2) {
        *low = if shorter { low.wrapping_sub(by as u8) } else { low.wrapping_add(by as u8) };
    }
}

/// A field after the head with something wrong: tag, length, content, or a second head.
fn bad_field(random: &mut Random, kind: u8) -> Vec<u8> {
    let mut bytes = book::triple_field(bad_row(random, kind));
    match random.below(6) {
        0 => bytes = head(random),
        1 => bytes[0] = random.pick(&[0, 2, 4, 16, 255]),
        2 => resize(random, &mut bytes),
        3 => bytes = vec![random.pick(&[1, 3, 9]), 0, 0],
        _ => {}
    }
    bytes
}

/// A book with faults: in its head, in one to three of its fields, in its bytes.
pub fn damaged(random: &mut Random, kind: u8) -> Vec<u8> {
    let good_head = legal_head(random, kind);
    let mut fields = vec![if random.chance(4) { head(random) } else { good_head }];
    for _ in 0..random.below(10) {
        fields.push(book::triple_field(row(random, kind)));
    }
    for _ in 0..random.below(4) {
        let at = random.from_to(1, fields.len());
        fields.insert(at, bad_field(random, kind));
    }
    if random.chance(8) {
        fields.remove(0);
    }
    let mut bytes = fields.concat();
    for _ in 0..random.below(3) {
        damage(random, &mut bytes);
    }
    bytes
}

/// A book at or over 65,535 bytes, perhaps with faults in it as well.
pub fn long(random: &mut Random, kind: u8) -> Vec<u8> {
    let mut bytes = of_length(random, kind, 3854);
    bytes.resize(random.pick(&[65_534, 65_535, 65_536, 65_537, 70_000]), 3);
    if random.chance(2) {
        damage(random, &mut bytes);
    }
    bytes
}

/// Any book at all.
pub fn any(random: &mut Random) -> Vec<u8> {
    let kind = legal_kind(random);
    match random.below(32) {
        0 => long(random, kind),
        1 => (0..random.below(24)).map(|_| random.draw() as u8).collect(),
        2 => head(random),
        3..=12 => valid(random, kind),
        13..=16 => {
            let mut bytes = of_length(random, kind, 3);
            bytes.truncate(random.below(bytes.len() + 1));
            bytes
        }
        _ => damaged(random, kind),
    }
}
