//! Slots and the triple patterns made of them: what questions ask and steps seek. A slot is a mark and a number, which is a
//! constant or a variable's.

use crate::{annotation, term};

pub const CONSTANT: u8 = 0;
pub const VARIABLE: u8 = 1;

/// A term slot.
#[derive(Clone, Copy, Debug, Default, PartialEq, Eq)]
pub struct Slot {
    pub mark: u8,
    pub value: u16,
}

impl Slot {
    pub fn constant(value: u16) -> Slot {
        Slot { mark: CONSTANT, value }
    }

    pub fn variable(value: u16) -> Slot {
        Slot { mark: VARIABLE, value }
    }
}

/// An annotation slot; a variable's number is all 8 bytes of the value.
#[derive(Clone, Copy, Debug, Default, PartialEq, Eq)]
pub struct AnnSlot {
    pub mark: u8,
    pub value: u64,
}

impl AnnSlot {
    pub fn constant(value: u64) -> AnnSlot {
        AnnSlot { mark: CONSTANT, value }
    }

    pub fn variable(value: u64) -> AnnSlot {
        AnnSlot { mark: VARIABLE, value }
    }
}

/// A triple pattern.
#[derive(Clone, Copy, Debug, Default, PartialEq, Eq)]
pub struct Pattern {
    pub subj: Slot,
    pub pred: Slot,
    pub obj: Slot,
    pub ann: AnnSlot,
}

/// 18 mark, 19 variable, 8 unbound, 9 predicate; 0 if legal. Only the second slot of a TRIPLE is a
/// predicate.
pub fn judge_term(slot: Slot, predicate: bool) -> u32 {
    match slot.mark {
        VARIABLE if slot.value > 15 => 19,
        VARIABLE => 0,
        CONSTANT if !term::legal(slot.value) => 8,
        CONSTANT if predicate && !term::name(slot.value) => 9,
        CONSTANT => 0,
        _ => 18,
    }
}

/// 18 mark, 19 variable, 10 and 28 constant; 0 if legal.
pub fn judge_ann(kind: u8, slot: AnnSlot) -> u32 {
    match slot.mark {
        VARIABLE if slot.value > 7 => 19,
        VARIABLE => 0,
        CONSTANT => annotation::judge(kind, slot.value),
        _ => 18,
    }
}
