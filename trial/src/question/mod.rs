//! Questions: the tree of parts, its bytes, its checks, and compiling it into steps.

mod bound;
mod flat;
mod parse;
mod part;

pub use bound::{surely_bound, Bound};
pub use flat::flat;
pub use parse::parse;
pub use part::{bytes_of, field, pattern_value, test_value, Part, Test};
pub use part::{BOTH, EITHER, MOST_PARTS, ONLY, TEST, TRIPLE};

use crate::annotation;
use crate::steps::{Step, MOST_STEPS};
use crate::table::Verdict;

#[derive(Clone, Copy, Debug, PartialEq, Eq)]
pub struct Compiled {
    pub number: u32,
    pub place: u64,
    /// Steps written; 0 in a refusal, which changes no record.
    pub steps: usize,
}

/// Compiles a question: 4, 11, its fields as read, then 21, 22. Records past the steps are
/// untouched; more than 48 may be lent, and 48 are always enough.
pub fn compile(kind: u8, question: &[u8], records: &mut [Step]) -> Compiled {
    let compiled = judge_call(kind, records.len())
        .and_then(|()| checked(kind, question))
        .map(|part| flat(&part));
    match compiled {
        Err(verdict) => Compiled { number: verdict.number, place: verdict.place, steps: 0 },
        Ok(steps) => {
            for (record, step) in records.iter_mut().zip(&steps) {
                *record = *step;
            }
            Compiled { number: 0, place: 0, steps: steps.len() }
        }
    }
}

fn judge_call(kind: u8, records: usize) -> Result<(), Verdict> {
    if !annotation::kind_legal(kind) {
        return Err(Verdict::new(4, 0));
    }
    if records < MOST_STEPS {
        return Err(Verdict::new(11, 0));
    }
    Ok(())
}

/// The tree of a question that passes the check: its fields, then 21 over all, then 22.
pub fn checked(kind: u8, question: &[u8]) -> Result<Part, Verdict> {
    let part = parse(kind, question)?;
    bound::judge_unbound(&part)?;
    bound::judge_outside(&part)?;
    Ok(part)
}
