//! Questions: valid ones of up to 33 parts, and ones damaged in every way.

use super::{annotation, bad_annotation, damage, threshold, Random};
use super::{BAD_TERMS, NAMES, NO_NAMES, TERMS, TIGHT_NAMES, TIGHT_TERMS};
use crate::pattern::{AnnSlot, Pattern, Slot};
use crate::question::{self, bytes_of, pattern_value, surely_bound, test_value};
use crate::question::{Bound, Part, Test};
use crate::question::{BOTH, EITHER, ONLY, TEST, TRIPLE};

/// Annotation variables any TRIPLE may use.
const COMMON: [u64; 3] = [0, 1, 2];

/// Builds trees. A spare annotation variable is kept for the part of one ONLY, so that a test
/// may name it and pass 22.
struct Builder<'a> {
    random: &'a mut Random,
    kind: u8,
    spare: Vec<u64>,
}

/// A question of exactly so many parts that passes the check, 20 aside. Its ONLY places are
/// all 0: parse its bytes for the true ones.
pub fn valid(random: &mut Random, kind: u8, parts: usize) -> Part {
    let mut builder = Builder { random, kind, spare: vec![3, 4, 5, 6, 7] };
    builder.part(parts.max(1), &COMMON)
}

/// A number of parts from 1 to 33: mostly few, often at the limit.
pub fn parts(random: &mut Random) -> usize {
    match random.below(6) {
        0 => random.from_to(31, 33),
        1 => random.from_to(1, 33),
        _ => random.from_to(1, 7),
    }
}

impl Builder<'_> {
    fn part(&mut self, parts: usize, anns: &[u64]) -> Part {
        if parts == 1 {
            return Part::Triple(self.pattern(anns));
        }
        if parts == 2 || self.random.chance(4) {
            return self.only(parts - 1, anns);
        }
        // Trees that lean to one side are as common as even ones.
        let some = self.random.from_to(1, parts - 2);
        let left = self.random.pick(&[1, parts - 2, some]);
        let left_part = Box::new(self.part(left, anns));
        let right_part = Box::new(self.part(parts - 1 - left, anns));
        if self.random.chance(2) {
            Part::Both(left_part, right_part)
        } else {
            Part::Either(left_part, right_part)
        }
    }

    fn only(&mut self, parts: usize, anns: &[u64]) -> Part {
        let own = if self.random.chance(2) { self.spare.pop() } else { None };
        let mut inner = anns.to_vec();
        if let Some(own) = own {
            inner = vec![own, own, own, self.random.pick(anns)];
        }
        let part = self.part(parts, &inner);
        let bound = surely_bound(&part);
        let test = match own {
            Some(own) if bound.anns.contains(&own) => {
                Test::AtLeast(own as u16, threshold(self.random, self.kind))
            }
            _ => self.term_test(&bound),
        };
        Part::Only { place: 0, part: Box::new(part), test }
    }

    fn term_test(&mut self, bound: &Bound) -> Test {
        let known: Vec<u16> = bound.terms.iter().copied().collect();
        let mut slot = || {
            if known.is_empty() || self.random.chance(3) {
                return Slot::constant(self.random.pick(&TIGHT_TERMS));
            }
            Slot::variable(self.random.pick(&known))
        };
        let (left, right) = (slot(), slot());
        if self.random.chance(3) {
            Test::Equal(left, right)
        } else {
            Test::Unequal(left, right)
        }
    }

    fn pattern(&mut self, anns: &[u64]) -> Pattern {
        let subj = self.end();
        let pred = match self.random.below(8) {
            // Mostly variables apart, for a predicate seldom is a subject too.
            0..=2 => Slot::variable(self.random.pick(&[6, 6, 7, 7, 0])),
            3 => Slot::constant(self.random.below(5) as u16),
            4 => Slot::constant(self.random.pick(&NAMES)),
            _ => Slot::constant(self.random.pick(&TIGHT_NAMES)),
        };
        let obj = self.end();
        let ann = if self.random.chance(4) {
            AnnSlot::constant(threshold(self.random, self.kind))
        } else {
            AnnSlot::variable(self.random.pick(anns))
        };
        Pattern { subj, pred, obj, ann }
    }

    /// A subject's or an object's slot.
    fn end(&mut self) -> Slot {
        match self.random.below(12) {
            0 => Slot::constant(self.random.pick(&TERMS)),
            1 | 2 => Slot::constant(self.random.pick(&TIGHT_TERMS)),
            _ => self.variable(),
        }
    }

    fn variable(&mut self) -> Slot {
        Slot::variable(self.random.pick(&[0, 0, 1, 1, 2, 2, 3, 4, 5, 15]))
    }
}

/// The bytes of a valid question (of 33 parts now and then, which is 20).
pub fn valid_bytes(random: &mut Random, kind: u8) -> Vec<u8> {
    let parts = parts(random);
    bytes_of(&valid(random, kind, parts))
}

/// Writes a tree, spoiling each thing it writes once in `rate` times.
struct Spoiler<'a> {
    random: &'a mut Random,
    kind: u8,
    rate: usize,
}

impl Spoiler<'_> {
    fn hit(&mut self) -> bool {
        self.random.chance(self.rate)
    }

    /// Contents are spoilt more often, for tags and lengths hide what is in them.
    fn hit_content(&mut self) -> bool {
        self.random.chance(self.rate.div_ceil(4))
    }

    fn part(&mut self, part: &Part) -> Vec<u8> {
        match part {
            Part::Triple(pattern) => {
                let mut value = pattern_value(pattern);
                if self.hit_content() {
                    self.spoil_pattern(&mut value);
                }
                self.field(TRIPLE, value)
            }
            Part::Both(left, right) => {
                let held = vec![self.part(left), self.part(right)];
                self.holder(BOTH, held)
            }
            Part::Either(left, right) => {
                let held = vec![self.part(left), self.part(right)];
                self.holder(EITHER, held)
            }
            Part::Only { part, test, .. } => {
                let held = vec![self.part(part), self.test(test)];
                self.holder(ONLY, held)
            }
        }
    }

    /// A holder: a field missing, twice, in the wrong order, or stray bytes at the end.
    fn holder(&mut self, tag: u8, mut held: Vec<Vec<u8>>) -> Vec<u8> {
        if self.hit() {
            match self.random.below(6) {
                0 => drop(held.pop()),
                1 => held.clear(),
                2 => held.extend_from_within(..1),
                3 => held.extend(held.last().cloned()),
                4 => held.reverse(),
                _ => held.push(vec![TRIPLE; self.random.from_to(1, 4)]),
            }
        }
        self.field(tag, held.concat())
    }

    /// A field: a wrong tag, or a length that is not its value's.
    fn field(&mut self, tag: u8, value: Vec<u8>) -> Vec<u8> {
        let mut bytes = question::field(tag, &value);
        if self.hit() {
            bytes[0] = self.random.pick(&[0, 1, 3, 15, 16, 17, 18, 19, 20, 20, 21, 255]);
        }
        if self.hit() {
            let length = bytes.len() - 3;
            let near = self.random.pick(&[1, 2, 3, 21]);
            let new = self.random.pick(&[length + near, length.saturating_sub(near), 0, 65_535]);
            let [high, low] = (new.min(65_535) as u16).to_be_bytes();
            (bytes[1], bytes[2]) = (high, low);
        }
        bytes
    }

    /// A test: any variable, a wrong mark, slots that are illegal, a wrong length.
    fn test(&mut self, test: &Test) -> Vec<u8> {
        let mut value = test_value(test);
        if self.hit_content() {
            let bad = bad_annotation(self.random, self.kind);
            let good = annotation(self.random, self.kind);
            let var = self.random.pick(&[0, 1, 2, 3, 7, 8, 256, 65_535]);
            let (left, right) = (self.any_slot(), self.any_slot());
            value = match self.random.below(6) {
                0 => test_value(&Test::Equal(left, right)),
                1 => test_value(&Test::Unequal(left, right)),
                2 => test_value(&Test::AtLeast(var, bad)),
                3 => test_value(&Test::AtLeast(var, good)),
                4 => vec![self.random.pick(&[0, 1, 2, 3, 255]); self.random.pick(&[0, 1, 7, 11])],
                _ => value,
            };
            if self.random.chance(4) {
                spoil_size(self.random, &mut value);
            }
        }
        self.field(TEST, value)
    }

    fn any_slot(&mut self) -> Slot {
        let bad = self.random.pick(&BAD_TERMS);
        let value = self.random.pick(&[0, 1, 2, 3, 15, 16, 255, 256, 32_769, 65_535, bad]);
        Slot { mark: self.random.pick(&[0, 0, 1, 1, 1, 2, 255]), value }
    }

    /// Spoils one to three of a TRIPLE's slots, or its size.
    fn spoil_pattern(&mut self, value: &mut Vec<u8>) {
        for _ in 0..self.random.from_to(1, 3) {
            let at = self.random.pick(&[0, 3, 6]);
            let bad = bad_annotation(self.random, self.kind);
            let var = self.random.pick(&[8, 255, 1 << 8, 1 << 16, 1 << 32, 1 << 56, u64::MAX]);
            match self.random.below(7) {
                0 => put(value, self.random.pick(&[0, 3, 6, 9]), &[self.random.pick(&[2, 255])]),
                1 => {
                    let slot = self.any_slot();
                    let [high, low] = slot.value.to_be_bytes();
                    put(value, at, &[slot.mark, high, low]);
                }
                2 => put(value, 3, &with_mark(0, &self.random.pick(&NO_NAMES).to_be_bytes())),
                3 => put(value, 9, &with_mark(0, &bad.to_be_bytes())),
                4 => put(value, 9, &with_mark(1, &var.to_be_bytes())),
                5 => put(value, at, &with_mark(0, &self.random.pick(&BAD_TERMS).to_be_bytes())),
                _ => spoil_size(self.random, value),
            }
        }
    }
}

fn with_mark(mark: u8, number: &[u8]) -> Vec<u8> {
    [&[mark], number].concat()
}

fn put(value: &mut [u8], at: usize, bytes: &[u8]) {
    for (old, new) in value.iter_mut().skip(at).zip(bytes) {
        *old = *new;
    }
}

fn spoil_size(random: &mut Random, value: &mut Vec<u8>) {
    let new = random.pick(&[0, 1, 7, 11, 18, value.len() + 1, value.len().saturating_sub(1)]);
    value.resize(new, 0);
}

/// A question with faults: usually several, in its tree and in its bytes.
pub fn damaged(random: &mut Random, kind: u8) -> Vec<u8> {
    let parts = parts(random);
    let part = valid(random, kind, parts);
    // About as many hits whatever the size, so that large questions are not always lost early.
    let rate = random.pick(&[2, 4, 8, 1000]) * parts.max(2);
    let mut bytes = Spoiler { random, kind, rate }.part(&part);
    for _ in 0..random.pick(&[0, 0, 1, 2]) {
        damage(random, &mut bytes);
    }
    bytes
}

/// A question whose tests name variables at will, so that 21 and 22 are common.
pub fn loose(random: &mut Random, kind: u8) -> Vec<u8> {
    let parts = random.from_to(2, 9);
    let part = valid(random, kind, parts);
    bytes_of(&loosened(random, kind, &part))
}

fn loosened(random: &mut Random, kind: u8, part: &Part) -> Part {
    match part {
        Part::Triple(pattern) => Part::Triple(*pattern),
        Part::Both(left, right) => Part::Both(
            Box::new(loosened(random, kind, left)),
            Box::new(loosened(random, kind, right)),
        ),
        Part::Either(left, right) => Part::Either(
            Box::new(loosened(random, kind, left)),
            Box::new(loosened(random, kind, right)),
        ),
        Part::Only { part, .. } => {
            let part = Box::new(loosened(random, kind, part));
            let test = loose_test(random, kind, &surely_bound(&part));
            Part::Only { place: 0, part, test }
        }
    }
}

/// Names what is surely bound in the part, which others may use too, or anything.
fn loose_test(random: &mut Random, kind: u8, bound: &Bound) -> Test {
    let known: Vec<u16> = bound.anns.iter().map(|var| *var as u16).collect();
    let (one, other) = (random.below(4) as u16, random.below(4) as u16);
    match random.below(8) {
        0 => Test::Equal(Slot::variable(one), Slot::variable(other)),
        1 => Test::Unequal(Slot::variable(one), Slot::constant(10)),
        2 => Test::AtLeast(one, threshold(random, kind)),
        _ => Test::AtLeast(random.pick(&known), threshold(random, kind)),
    }
}

/// Any question at all.
pub fn any(random: &mut Random, kind: u8) -> Vec<u8> {
    match random.below(12) {
        0 => (0..random.below(30)).map(|_| random.draw() as u8).collect(),
        1..=3 => valid_bytes(random, kind),
        4 | 5 => loose(random, kind),
        _ => damaged(random, kind),
    }
}
