//! Step lists, legal and illegal, and what else a run is lent.

use super::{bad_annotation, questions, threshold, Random};
use super::{BAD_TERMS, NO_NAMES, TERMS, TIGHT_NAMES, TIGHT_TERMS};
use crate::pattern::{AnnSlot, Pattern, Slot};
use crate::question::flat;
use crate::steps::{Step, FORK, GO, MOST_STEPS};

fn slot(random: &mut Random, constants: &[u16]) -> Slot {
    if random.chance(3) {
        return Slot::constant(random.pick(constants));
    }
    Slot::variable(random.pick(&[0, 0, 1, 1, 2, 15]))
}

fn pattern(random: &mut Random, kind: u8) -> Pattern {
    let ann = if random.chance(3) {
        AnnSlot::constant(threshold(random, kind))
    } else {
        AnnSlot::variable(random.pick(&[0, 0, 1, 7]))
    };
    let (subj, pred) = (slot(random, &TIGHT_TERMS), slot(random, &TIGHT_NAMES));
    Pattern { subj, pred, obj: slot(random, &TIGHT_TERMS), ann }
}

/// A legal step at a number; FORK and GO only where a later step is left to go to.
fn step(random: &mut Random, kind: u8, at: usize, step_count: usize) -> Step {
    let far = random.from_to(at + 1, step_count.saturating_sub(1)) as u16;
    let target = random.pick(&[at as u16 + 1, far]);
    match random.below(10) {
        0..=2 if at + 1 < step_count => Step::fork(target),
        3 if at + 1 < step_count => Step::go(target),
        4 => Step::test_terms(random.below(2) as u8, slot(random, &TERMS), slot(random, &TERMS)),
        5 => Step::test_ann(random.pick(&[0, 0, 1, 7]), threshold(random, kind)),
        6 => Step::give(),
        _ => Step::seek(pattern(random, kind)),
    }
}

/// A legal list of its own making: not what any question compiles to.
pub fn legal(random: &mut Random, kind: u8) -> Vec<Step> {
    let step_count = match random.below(4) {
        0 => random.from_to(1, MOST_STEPS),
        1 => random.from_to(46, MOST_STEPS),
        _ => random.from_to(1, 8),
    };
    let mut steps: Vec<Step> =
        (0..step_count - 1).map(|at| step(random, kind, at, step_count)).collect();
    steps.push(Step::give());
    if random.chance(4) {
        for step in &mut steps {
            fill_unused(random, step);
        }
    }
    steps
}

/// Up to 46 FORKs in a row, then a test that is false or a pattern, then GIVE.
pub fn forks(random: &mut Random, kind: u8) -> Vec<Step> {
    let forks = random.from_to(1, MOST_STEPS - 2);
    let last = forks as u16 + 1;
    let mut steps: Vec<Step> = (0..forks as u16)
        .map(|at| Step::fork(random.pick(&[at + 1, at + 1, last.min(at + 2)])))
        .collect();
    steps.push(match random.below(3) {
        0 => Step::seek(pattern(random, kind)),
        1 => Step::test_terms(1, Slot::variable(0), Slot::constant(10)),
        _ => Step::test_terms(0, Slot::constant(10), Slot::constant(11)),
    });
    steps.push(Step::give());
    steps
}

/// Garbage in the fields a step does not use, which are not judged.
fn fill_unused(random: &mut Random, step: &mut Step) {
    let number = random.draw();
    let junk = Slot { mark: number as u8, value: number as u16 };
    if matches!(step.kind, FORK | GO) {
        (step.subj, step.pred, step.obj) = (junk, junk, junk);
        step.ann = AnnSlot { mark: number as u8, value: number };
        (step.test, step.left, step.right) = (number as u8, junk, junk);
        (step.var, step.least) = (number as u16, number);
    } else {
        step.target = number as u16;
    }
}

/// Spoils one field of one step; it may be one the step does not use.
fn spoil(random: &mut Random, kind: u8, steps: &mut [Step]) {
    let at = random.below(steps.len());
    let target = random.pick(&[0, at, steps.len(), steps.len() + 1, 47, 48, 65_535]) as u16;
    let var = random.pick(&[16, 255, 256, 65_535]);
    let Some(step) = steps.get_mut(at) else {
        return;
    };
    match random.below(14) {
        0 => step.kind = random.pick(&[5, 6, 255]),
        1 => step.kind = random.pick(&[0, 1, 2, 3, 4]),
        2 => step.target = target,
        3 => step.test = random.pick(&[0, 1, 2, 3, 255]),
        4 => step.subj = Slot::variable(var),
        5 => step.pred = Slot::constant(random.pick(&NO_NAMES)),
        6 => step.obj = Slot::constant(random.pick(&BAD_TERMS)),
        7 => step.ann = AnnSlot::constant(bad_annotation(random, kind)),
        8 => step.ann = AnnSlot::variable(random.pick(&[8, 1 << 8, 1 << 32, u64::MAX])),
        9 => step.left = Slot { mark: random.pick(&[0, 1, 2]), value: var },
        10 => step.right = Slot::constant(random.pick(&BAD_TERMS)),
        11 => step.var = random.pick(&[7, 8, 256, 65_535]),
        12 => step.least = bad_annotation(random, kind),
        _ => step.pred.mark = random.pick(&[2, 255]),
    }
}

/// Records and a step count, of any worth: compiled lists, lists of their own making, rows of
/// FORKs; half of them spoilt in one to three places, or with a wrong count.
pub fn any(random: &mut Random, kind: u8) -> (Vec<Step>, usize) {
    let mut steps = match random.below(4) {
        0 => {
            let parts = random.from_to(1, 9);
            flat(&questions::valid(random, kind, parts))
        }
        1 => forks(random, kind),
        _ => legal(random, kind),
    };
    if random.chance(2) {
        for _ in 0..random.from_to(1, 3) {
            spoil(random, kind, &mut steps);
        }
    }
    let step_count = match random.below(10) {
        0 => random.pick(&[0, 1, 47, 48, 49, 65_536, usize::MAX]),
        1 => random.from_to(0, steps.len() + 1),
        _ => steps.len(),
    };
    // Records past the count may hold anything.
    for _ in 0..random.pick(&[0, 0, 1, 48]) {
        steps.push(Step { kind: random.draw() as u8, ..Step::default() });
    }
    (steps, step_count)
}

/// Looks allowed: mostly few, so that a run is cut at every point and none goes on for long.
pub fn allowed(random: &mut Random) -> u32 {
    match random.below(4) {
        0 => random.below(4) as u32,
        1 => random.below(20_000) as u32,
        _ => random.below(200) as u32,
    }
}

/// The lengths of the two answer lanes: mostly fit, for few answers or for 256.
pub fn answer_lengths(random: &mut Random) -> (usize, usize) {
    let some = random.below(12);
    let n = random.pick(&[0, 1, 2, 255, 256, some, some]);
    match random.below(12) {
        0 => (16 * n + 1, 8 * n),
        1 => (16 * n, 8 * n + 8),
        2 => (16 * 257, 8 * 257),
        3 => (random.below(5000), random.below(5000)),
        _ => (16 * n, 8 * n),
    }
}
