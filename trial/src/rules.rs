//! Rule sets (C-23): 1 has the rules of the first document, 2 adds the reflexive lines that have a
//! premise.

/// Any other number is 36.
pub fn legal(rules: u8) -> bool {
    matches!(rules, 1 | 2)
}

/// Whether the ten lines of C-23 are drawn.
pub fn reflexive(rules: u8) -> bool {
    rules == 2
}
