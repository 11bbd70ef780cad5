//! Compiling a tree into one list of steps.

use super::part::{Part, Test};
use crate::steps::Step;

/// The steps of a question: those of its part, and one GIVE at the end.
pub fn flat(part: &Part) -> Vec<Step> {
    let mut steps = Vec::new();
    lay(part, &mut steps);
    steps.push(Step::give());
    steps
}

fn lay(part: &Part, steps: &mut Vec<Step>) {
    match part {
        Part::Triple(pattern) => steps.push(Step::seek(*pattern)),
        Part::Both(left, right) => {
            lay(left, steps);
            lay(right, steps);
        }
        Part::Either(left, right) => lay_either(left, right, steps),
        Part::Only { part, test, .. } => {
            lay(part, steps);
            steps.push(match test {
                Test::Equal(left, right) => Step::test_terms(0, *left, *right),
                Test::Unequal(left, right) => Step::test_terms(1, *left, *right),
                Test::AtLeast(var, least) => Step::test_ann(*var, *least),
            });
        }
    }
}

/// FORK to the right part, left, GO past the right part, right.
fn lay_either(left: &Part, right: &Part, steps: &mut Vec<Step>) {
    let fork = steps.len();
    steps.push(Step::fork(0));
    lay(left, steps);
    let go = steps.len();
    steps.push(Step::go(0));
    steps[fork] = Step::fork(number(steps.len()));
    lay(right, steps);
    steps[go] = Step::go(number(steps.len()));
}

/// A tree built by hand may pass every step number; it is refused for its length then.
fn number(step: usize) -> u16 {
    u16::try_from(step).unwrap_or(u16::MAX)
}
