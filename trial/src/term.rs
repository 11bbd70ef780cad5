//! Terms: 16-bit numbers whose top two bits are their sort.

pub const SP: u16 = 0;
pub const SC: u16 = 1;
pub const TYPE: u16 = 2;
pub const DOM: u16 = 3;
pub const RANGE: u16 = 4;

/// Stands in an answer lane where a variable is unbound; the only term that is not legal (C-17).
pub const UNBOUND: u16 = 65_535;

/// 0 a name, 1 a blank, 2 a literal, 3 a measured value: its number is from 0 to 16,382 milliamps.
pub fn sort(term: u16) -> u16 {
    term >> 14
}

pub fn legal(term: u16) -> bool {
    term != UNBOUND
}

pub fn name(term: u16) -> bool {
    sort(term) == 0
}
