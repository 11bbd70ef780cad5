//! Cases dealt out by a small deterministic generator, for trying two implementations against
//! each other. The same seed deals the same cases on every machine.
//!
//! Pools are small so that terms meet: equal triples, rules that fire, variables that agree.

pub mod books;
pub mod closings;
pub mod counters;
pub mod files;
pub mod lines;
pub mod lists;
pub mod questions;
pub mod slow;
pub mod steps;
pub mod tables;

use crate::annotation::LARGER;
use crate::table::{Row, Triple};
use crate::term::{SC, TYPE};

/// Splitmix64.
#[derive(Clone, Debug)]
pub struct Random {
    state: u64,
}

impl Random {
    pub fn new(seed: u64) -> Random {
        Random { state: seed }
    }

    pub fn draw(&mut self) -> u64 {
        self.state = self.state.wrapping_add(0x9E37_79B9_7F4A_7C15);
        let mut mixed = self.state;
        mixed = (mixed ^ (mixed >> 30)).wrapping_mul(0xBF58_476D_1CE4_E5B9);
        mixed = (mixed ^ (mixed >> 27)).wrapping_mul(0x94D0_49BB_1331_11EB);
        mixed ^ (mixed >> 31)
    }

    /// A number below `end`, or 0 where there is none.
    pub fn below(&mut self, end: usize) -> usize {
        (self.draw() % (end.max(1) as u64)) as usize
    }

    /// A number from `low` to `high`, both included.
    pub fn from_to(&mut self, low: usize, high: usize) -> usize {
        low.saturating_add(self.below(high.saturating_sub(low).saturating_add(1)))
    }

    /// True once in `of` times.
    pub fn chance(&mut self, of: usize) -> bool {
        self.below(of) == 0
    }

    /// One of these; the default where there are none.
    pub fn pick<T: Copy + Default>(&mut self, from: &[T]) -> T {
        from.get(self.below(from.len())).copied().unwrap_or_default()
    }
}

/// The small pool of legal terms: the five known names, more names, blanks, literals, values.
pub const TERMS: [u16; 21] = [
    0, 1, 2, 3, 4, 10, 11, 12, 13, 20, 21, 22, 16_383, 16_384, 16_385, 32_768, 32_769, 49_151,
    49_152, 49_652, 65_534,
];

/// The names of the pool.
pub const NAMES: [u16; 13] = [0, 1, 2, 3, 4, 10, 11, 12, 13, 20, 21, 22, 16_383];

/// A pool so small that questions over it are mostly answered.
pub const TIGHT_TERMS: [u16; 4] = [10, 11, 16_384, 49_652];
pub const TIGHT_NAMES: [u16; 3] = [SC, TYPE, 20];

/// The term that is not legal.
pub const BAD_TERMS: [u16; 1] = [65_535];

/// Legal terms that are no names, so no predicates.
pub const NO_NAMES: [u16; 9] =
    [16_384, 16_385, 32_767, 32_768, 32_769, 49_151, 49_152, 49_652, 65_534];

pub fn legal_kind(random: &mut Random) -> u8 {
    random.pick(&[1, 3, 4, 5, 5])
}

/// Mostly legal.
pub fn kind(random: &mut Random) -> u8 {
    if random.chance(16) {
        return random.pick(&[0, 2, 6, 255]);
    }
    legal_kind(random)
}

/// A rule set, 2 as often as 1.
pub fn legal_rules(random: &mut Random) -> u8 {
    random.pick(&[1, 2])
}

/// Mostly legal.
pub fn rules(random: &mut Random) -> u8 {
    if random.chance(16) {
        return random.pick(&[0, 3, 4, 255]);
    }
    legal_rules(random)
}

/// A legal annotation; for an illegal kind, anything.
pub fn annotation(random: &mut Random, kind: u8) -> u64 {
    match kind {
        1 => year_set(random),
        3 => random.pick(&[1, 2, 400, 500, 600, 700, 999, 1000, 1000]),
        4 => random.pick(&[1, 400, 500, 600, 700, 800, 900, 999, 1000, 1000]),
        5 => sheet_set(random),
        _ => random.draw(),
    }
}

/// Mostly a few of the same low bits, so that sets overlap often but not always.
fn year_set(random: &mut Random) -> u64 {
    let set = match random.below(8) {
        0 => u64::MAX,
        1 => 1 << random.below(64),
        2 => random.draw(),
        _ => random.draw() & 0xFF,
    };
    set.max(1)
}

/// Kind 5: the combinations that hold all the sheets of `k`; sheet i alone is `with(1 << i)`.
pub fn with(k: usize) -> u64 {
    LARGER.get(k).copied().unwrap_or(0)
}

/// Few sheets, mostly the same few, so that combinations meet; the empty one now and then.
fn combination(random: &mut Random) -> usize {
    match random.below(8) {
        0 => random.below(64),
        1 => 1 << random.below(6),
        2 => random.pick(&[0, 63]),
        _ => random.pick(&[1, 2, 3, 4, 5, 6, 8, 32]),
    }
}

/// Built from pieces, each a combination and all larger ones: of 2^64 numbers only 7,828,353 are
/// legal in kind 5.
fn sheet_set(random: &mut Random) -> u64 {
    (0..random.from_to(1, 3)).fold(0, |set, _| set | with(combination(random)))
}

/// A legal annotation of kind 5 less one of the larger combinations that it must have; or a few
/// bits at will, of which the larger are missing.
fn torn_sheet_set(random: &mut Random) -> u64 {
    match random.below(4) {
        0 => 1 << random.below(63),
        1 => random.draw() & !(1 << 63),
        2 => sheet_set(random) & !(1 << random.pick(&[63, 62, 31, 7])),
        _ => random.pick(&[1, 2, 4, 8, 0xFF, u64::MAX >> 1]),
    }
}

/// A legal annotation to ask for: low, so that it is often at most a row's.
pub fn threshold(random: &mut Random, kind: u8) -> u64 {
    if random.chance(4) {
        return annotation(random, kind);
    }
    match kind {
        3 | 4 => random.pick(&[1, 1, 2, 400, 500]),
        5 => with(random.pick(&[1, 3, 3, 7, 15, 33, 63])),
        _ => 1 << random.below(8),
    }
}

/// An annotation illegal in the kind: 0, over 1000 in kinds 3 and 4, or in kind 5 one that (but for
/// a few) misses a larger combination.
pub fn bad_annotation(random: &mut Random, kind: u8) -> u64 {
    match kind {
        3 | 4 => random.pick(&[0, 1001, 1 << 32, u64::MAX]),
        5 if !random.chance(3) => torn_sheet_set(random),
        _ => 0,
    }
}

pub fn triple(random: &mut Random) -> Triple {
    // Half of the predicates are among the five the rules know.
    let known = random.chance(2);
    let pred = if known { random.below(5) as u16 } else { random.pick(&NAMES) };
    (random.pick(&TERMS), pred, random.pick(&TERMS))
}

/// A triple of the tight pool; there are 48 of them.
pub fn tight_triple(random: &mut Random) -> Triple {
    (random.pick(&TIGHT_TERMS), random.pick(&TIGHT_NAMES), random.pick(&TIGHT_TERMS))
}

/// A legal row of the small pool.
pub fn row(random: &mut Random, kind: u8) -> Row {
    (triple(random), annotation(random, kind))
}

/// A row with one to three faults in it: 65,535, a predicate that is no name, an illegal
/// annotation.
pub fn bad_row(random: &mut Random, kind: u8) -> Row {
    let ((mut subj, mut pred, mut obj), mut ann) = row(random, kind);
    for _ in 0..random.from_to(1, 3) {
        match random.below(5) {
            0 => subj = random.pick(&BAD_TERMS),
            1 => pred = random.pick(&BAD_TERMS),
            2 => obj = random.pick(&BAD_TERMS),
            3 => pred = random.pick(&NO_NAMES),
            _ => ann = bad_annotation(random, kind),
        }
    }
    ((subj, pred, obj), ann)
}

/// Damages bytes in one way: a byte changed, removed, put in; the end cut off or gone on with.
pub fn damage(random: &mut Random, bytes: &mut Vec<u8>) {
    let at = random.below(bytes.len());
    let new = random.draw() as u8;
    let byte = random.pick(&[0, 1, 2, 3, 4, 14, 16, 17, 18, 19, 20, 64, 192, 255, new]);
    match random.below(7) {
        0 => bytes.truncate(at),
        1 => bytes.extend([byte; 3].iter().take(random.from_to(1, 3))),
        2 => bytes.insert(at, byte),
        3 if at < bytes.len() => {
            bytes.remove(at);
        }
        _ => {
            if let Some(old) = bytes.get_mut(at) {
                *old = byte;
            }
        }
    }
}
