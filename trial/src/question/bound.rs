//! The two checks over the whole tree: 21, a test's variables are surely bound by its own part;
//! 22, its annotation variable stands in no TRIPLE outside that part.

use super::part::{Part, Test};
use crate::pattern::{AnnSlot, Pattern, Slot, VARIABLE};
use crate::table::Verdict;
use std::collections::BTreeSet;

/// The variables a part surely binds; terms and annotations are numbered apart.
#[derive(Clone, Debug, Default, PartialEq, Eq)]
pub struct Bound {
    pub terms: BTreeSet<u16>,
    pub anns: BTreeSet<u64>,
}

/// A TRIPLE surely binds its variables, BOTH those of either part, EITHER those of both parts
/// at once, ONLY those of its part.
pub fn surely_bound(part: &Part) -> Bound {
    match part {
        Part::Triple(pattern) => pattern_bound(pattern),
        Part::Both(left, right) => {
            let (left, right) = (surely_bound(left), surely_bound(right));
            Bound { terms: &left.terms | &right.terms, anns: &left.anns | &right.anns }
        }
        Part::Either(left, right) => {
            let (left, right) = (surely_bound(left), surely_bound(right));
            Bound { terms: &left.terms & &right.terms, anns: &left.anns & &right.anns }
        }
        Part::Only { part, .. } => surely_bound(part),
    }
}

fn pattern_bound(pattern: &Pattern) -> Bound {
    let mut bound = Bound::default();
    for slot in [pattern.subj, pattern.pred, pattern.obj] {
        if slot.mark == VARIABLE {
            bound.terms.insert(slot.value);
        }
    }
    if pattern.ann.mark == VARIABLE {
        bound.anns.insert(pattern.ann.value);
    }
    bound
}

/// One ONLY of the tree: its place, its part, its test.
type Guard<'a> = (usize, &'a Part, &'a Test);

/// Every ONLY, lowest place first.
fn guards(part: &Part) -> Vec<Guard<'_>> {
    let mut found = match part {
        Part::Triple(_) => Vec::new(),
        Part::Both(left, right) | Part::Either(left, right) => {
            [guards(left), guards(right)].concat()
        }
        Part::Only { place, part, test } => [vec![(*place, &**part, test)], guards(part)].concat(),
    };
    found.sort_by_key(|(place, _, _)| *place);
    found
}

/// 21 at the lowest ONLY whose test names a variable not surely bound by its own part.
pub fn judge_unbound(question: &Part) -> Result<(), Verdict> {
    for (place, part, test) in guards(question) {
        let bound = surely_bound(part);
        let known = |slot: &Slot| slot.mark != VARIABLE || bound.terms.contains(&slot.value);
        let passes = match test {
            Test::Equal(left, right) | Test::Unequal(left, right) => known(left) && known(right),
            Test::AtLeast(var, _) => bound.anns.contains(&u64::from(*var)),
        };
        if !passes {
            return Err(Verdict::new(21, place));
        }
    }
    Ok(())
}

/// 22 at the lowest ONLY whose test's annotation variable stands in more TRIPLEs of the whole
/// question than of its own part.
pub fn judge_outside(question: &Part) -> Result<(), Verdict> {
    for (place, part, test) in guards(question) {
        if let Test::AtLeast(var, _) = test {
            let slot = AnnSlot::variable(u64::from(*var));
            if triples_with(question, slot) > triples_with(part, slot) {
                return Err(Verdict::new(22, place));
            }
        }
    }
    Ok(())
}

/// How many TRIPLEs have this annotation slot.
fn triples_with(part: &Part, slot: AnnSlot) -> usize {
    match part {
        Part::Triple(pattern) => usize::from(pattern.ann == slot),
        Part::Both(left, right) | Part::Either(left, right) => {
            triples_with(left, slot) + triples_with(right, slot)
        }
        Part::Only { part, .. } => triples_with(part, slot),
    }
}
