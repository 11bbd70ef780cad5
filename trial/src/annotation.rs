//! The four kinds of annotation: 1 years, 3 degree, 4 strict degree, 5 sheets.
//!
//! Every call judges the kind first, so the operations never meet an illegal kind; to be total
//! they then answer bottom (0) or false.

/// No row holds it.
pub const BOTTOM: u64 = 0;

pub fn kind_legal(kind: u8) -> bool {
    matches!(kind, 1 | 3 | 4 | 5)
}

/// 10 for what the kind does not have, then, in kind 5, 28 for what misses a larger combination;
/// 0 if legal.
pub fn judge(kind: u8, ann: u64) -> u32 {
    let had = match kind {
        1 | 5 => ann != BOTTOM,
        3 | 4 => (1..=1000).contains(&ann),
        _ => false,
    };
    if !had {
        10
    } else if kind == 5 && misses_larger(ann) {
        28
    } else {
        0
    }
}

pub fn legal(kind: u8, ann: u64) -> bool {
    judge(kind, ann) == 0
}

/// Kind 5: bit k stands for the combination of the sheets whose numbers are the set bits of k. For
/// each combination, those that hold all its sheets, itself among them.
pub const LARGER: [u64; 64] = {
    let mut larger = [0; 64];
    let mut pair = 0;
    while pair < 64 * 64 {
        let (k, m) = (pair / 64, pair % 64);
        if k & m == k {
            larger[k] |= 1 << m;
        }
        pair += 1;
    }
    larger
};

/// "If a combination is enough, so is every larger one": whether one is and a larger one is not.
fn misses_larger(ann: u64) -> bool {
    (0..64).any(|k| ann >> k & 1 == 1 && LARGER[k] & !ann != 0)
}

pub fn top(kind: u8) -> u64 {
    match kind {
        1 | 5 => u64::MAX,
        3 | 4 => 1000,
        _ => BOTTOM,
    }
}

/// And (x).
pub fn and(kind: u8, left: u64, right: u64) -> u64 {
    match kind {
        1 | 5 => left & right,
        3 => left.min(right),
        4 => left.saturating_add(right).saturating_sub(1000),
        _ => BOTTOM,
    }
}

/// Join (+).
pub fn join(kind: u8, left: u64, right: u64) -> u64 {
    match kind {
        1 | 5 => left | right,
        3 | 4 => left.max(right),
        _ => BOTTOM,
    }
}

/// Whether `low` is at most `high`.
pub fn at_most(kind: u8, low: u64, high: u64) -> bool {
    match kind {
        1 | 5 => low & high == low,
        3 | 4 => low <= high,
        _ => false,
    }
}
