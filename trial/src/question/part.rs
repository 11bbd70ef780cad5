//! The tree of parts, and the bytes of a tree.

use crate::pattern::{Pattern, Slot};

pub const TRIPLE: u8 = 16;
pub const BOTH: u8 = 17;
pub const EITHER: u8 = 18;
pub const ONLY: u8 = 19;
pub const TEST: u8 = 20;

/// The 33rd part is 20.
pub const MOST_PARTS: usize = 32;

#[derive(Clone, Copy, Debug, PartialEq, Eq)]
pub enum Test {
    Equal(Slot, Slot),
    Unequal(Slot, Slot),
    /// An annotation variable, and the constant it must be at least.
    AtLeast(u16, u64),
}

#[derive(Clone, Debug, PartialEq, Eq)]
pub enum Part {
    Triple(Pattern),
    Both(Box<Part>, Box<Part>),
    Either(Box<Part>, Box<Part>),
    /// The place is that of the ONLY field, which 21 and 22 name.
    Only {
        place: usize,
        part: Box<Part>,
        test: Test,
    },
}

impl Part {
    /// How many parts it counts for: every part, whatever its depth, but no test.
    pub fn parts(&self) -> usize {
        match self {
            Part::Triple(_) => 1,
            Part::Both(left, right) | Part::Either(left, right) => 1 + left.parts() + right.parts(),
            Part::Only { part, .. } => 1 + part.parts(),
        }
    }
}

/// One field: tag, length, value. A value too long for a length is cut.
pub fn field(tag: u8, value: &[u8]) -> Vec<u8> {
    let length = u16::try_from(value.len()).unwrap_or(u16::MAX);
    let mut bytes = vec![tag];
    bytes.extend(length.to_be_bytes());
    bytes.extend(value.iter().take(usize::from(length)));
    bytes
}

/// The bytes of a part, judging nothing.
pub fn bytes_of(part: &Part) -> Vec<u8> {
    match part {
        Part::Triple(pattern) => field(TRIPLE, &pattern_value(pattern)),
        Part::Both(left, right) => field(BOTH, &[bytes_of(left), bytes_of(right)].concat()),
        Part::Either(left, right) => field(EITHER, &[bytes_of(left), bytes_of(right)].concat()),
        Part::Only { part, test, .. } => {
            field(ONLY, &[bytes_of(part), field(TEST, &test_value(test))].concat())
        }
    }
}

/// The 18 bytes of a TRIPLE's value.
pub fn pattern_value(pattern: &Pattern) -> Vec<u8> {
    let mut value = Vec::new();
    for slot in [pattern.subj, pattern.pred, pattern.obj] {
        value.push(slot.mark);
        value.extend(slot.value.to_be_bytes());
    }
    value.push(pattern.ann.mark);
    value.extend(pattern.ann.value.to_be_bytes());
    value
}

/// The 7 or 11 bytes of a test's value.
pub fn test_value(test: &Test) -> Vec<u8> {
    let slots = |mark: u8, left: &Slot, right: &Slot| {
        let mut value = vec![mark];
        for slot in [left, right] {
            value.push(slot.mark);
            value.extend(slot.value.to_be_bytes());
        }
        value
    };
    match test {
        Test::Equal(left, right) => slots(0, left, right),
        Test::Unequal(left, right) => slots(1, left, right),
        Test::AtLeast(var, least) => {
            let mut value = vec![2];
            value.extend(var.to_be_bytes());
            value.extend(least.to_be_bytes());
            value
        }
    }
}
