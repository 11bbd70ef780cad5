//! The readings under "Meaning, steps, runs", in their order.

mod common;
use common::*;
use trial::meaning::{self, Answer, Asked};
use trial::pattern::{AnnSlot, Slot};
use trial::question::Test;
use trial::steps::{self, Step};
use trial::table::{self, Lanes, Row};

const BAD: u16 = 65_535;

fn seek(subj: Slot, pred: Slot, obj: Slot, ann: AnnSlot) -> Step {
    Step { subj, pred, obj, ann, ..Step::default() }
}

fn any_row() -> Step {
    seek(v(0), v(1), v(2), va(0))
}

/// Number, place, answers, looks over a table of kind 1.
fn outcome(rows: &[Row], steps: &[Step], allowed: u32, room: usize) -> (u32, u64, usize, u32) {
    let table = lanes(rows, rows.len());
    let (ran, _) = run_steps(1, (&table, rows.len()), steps, allowed, room);
    (ran.number, ran.place, ran.answers, ran.looks)
}

#[test]
fn shared_variables_are_those_bound_in_both_answers() {
    // The left EITHER binds ?1 in its first answers only; ?1 is written in the right part too.
    let rows = [row(10, 5, 11, 3), row(10, 6, 12, 5)];
    let left = either(triple(v(0), c(5), v(1), va(0)), triple(v(0), c(6), v(2), va(1)));
    let part = both(left, triple(v(0), c(6), v(1), va(0)));
    let table = lanes(&rows, 2);
    let (ran, lines) = run_part(1, (&table, 2), &part, 100, 9);
    // First the left answer with ?1 = 11, which does not agree with 12; then the one without.
    assert_eq!((ran.number, ran.answers, ran.looks), (0, 1, 8));
    let mut terms = [65_535; 16];
    (terms[0], terms[1], terms[2]) = (10, 12, 12);
    assert_eq!(lines, [(terms, [5, 5, 0, 0, 0, 0, 0, 0])]);
    let meant = meaning::answers(Asked { kind: 1, rows: &rows }, &part);
    assert_eq!(meant.iter().map(Answer::lanes).collect::<Vec<_>>(), lines);
}

#[test]
fn a_look_for_every_row_below_the_count() {
    let rows = [row(1, 1, 1, 1), row(2, 1, 1, 1), row(3, 1, 1, 1)];
    let none = [seek(c(9), c(9), c(9), ca(1)), Step::give()];
    assert_eq!(outcome(&rows, &none, 9, 4), (0, 0, 0, 3));
    assert_eq!(outcome(&[], &none, 0, 0), (0, 0, 0, 0));
    let table = lanes(&rows, 3);
    assert_eq!(run_steps(1, (&table, 2), &none, 9, 4).0.looks, 2);
}

#[test]
fn matching_a_row() {
    let rows = [row(5, 5, 5, 6), row(5, 5, 7, 8)];
    let answers = |step: Step| outcome(&rows, &[step, Step::give()], 9, 9).2;
    // A constant annotation matches where it is at most the row's.
    assert_eq!(answers(seek(v(0), v(1), v(2), ca(2))), 1);
    assert_eq!(answers(seek(v(0), v(1), v(2), ca(3))), 0);
    // A term variable used twice must agree.
    assert_eq!(answers(seek(v(0), v(1), v(0), va(0))), 1);
    assert_eq!(answers(seek(v(0), v(0), v(1), va(0))), 2);
    assert_eq!(answers(seek(c(5), c(5), c(7), va(7))), 1);
}

#[test]
fn the_order_of_a_runs_refusals() {
    let table = lanes(&[row(1, 1, 1, 1)], 1);
    let broken = lanes(&[row(1, 1, 1, 0)], 1);
    let run = |kind, lanes: &Lanes, count, terms, anns, steps: &[Step], step_count| {
        let (mut terms, mut anns) = (vec![7; terms], vec![7; anns]);
        let ran = steps::run(kind, lanes, count, steps, step_count, 0, &mut terms, &mut anns);
        assert!(terms.iter().all(|term| *term == 7) && anns.iter().all(|ann| *ann == 7));
        assert_eq!((ran.answers, ran.looks), (0, 0));
        (ran.number, ran.place)
    };
    let steps = [any_row(), Step::give()];
    assert_eq!(run(0, &Lanes::zero(1025), 9, 1, 1, &[], 0), (4, 0));
    assert_eq!(run(1, &Lanes::zero(1025), 9, 1, 1, &[], 0), (11, 0));
    assert_eq!(run(1, &broken, 2, 1, 1, &[], 0), (14, 0));
    assert_eq!(run(1, &broken, 1, 1, 1, &[], 0), (10, 0));
    for (terms, anns) in
        [(1, 1), (16, 0), (0, 8), (16, 16), (32, 8), (15, 8), (4112, 2056), (4096, 2056)]
    {
        assert_eq!(run(1, &table, 1, terms, anns, &[], 0), (11, 0), "{terms} {anns}");
    }
    for n in [0, 1, 2, 255, 256] {
        assert_eq!(run(1, &table, 1, 16 * n, 8 * n, &[], 0), (23, 0));
        assert_eq!(run(1, &table, 1, 16 * n, 8 * n, &steps, 2), (24, 0));
    }
}

fn check(steps: &[Step], step_count: usize) -> Option<u64> {
    let verdict = steps::check(1, steps, step_count);
    assert_eq!(verdict.number, if verdict.done() { 0 } else { 23 });
    (!verdict.done()).then_some(verdict.place)
}

#[test]
fn twenty_three_counts_and_the_last_step() {
    let give = Step::give();
    assert_eq!(check(&[], 0), Some(0));
    assert_eq!(check(&[give], 0), Some(0));
    assert_eq!(check(&[give], 2), Some(0));
    assert_eq!(check(&[give; 60], 49), Some(0));
    assert_eq!(check(&[give; 60], usize::MAX), Some(0));
    assert_eq!(check(&[give; 60], 48), None);
    // No minimum of records lent in running.
    assert_eq!(check(&[give], 1), None);
    assert_eq!(check(&[give, any_row()], 2), Some(1));
    // The lowest illegal step before the last.
    let bad = Step { kind: 9, ..Step::default() };
    assert_eq!(check(&[give, bad, bad, any_row()], 4), Some(1));
    // Records past the count are not looked at.
    assert_eq!(check(&[give, bad], 1), None);
    // Steps that nothing reaches must be legal too.
    assert_eq!(check(&[Step::go(2), bad, give], 3), Some(1));
}

#[test]
fn twenty_three_targets() {
    let give = Step::give();
    assert_eq!(check(&[Step::fork(1), give], 2), None);
    assert_eq!(check(&[Step::go(1), give], 2), None);
    for bad in [0, 2, 3, 65_535] {
        assert_eq!(check(&[Step::fork(bad), give], 2), Some(0));
        assert_eq!(check(&[Step::go(bad), give], 2), Some(0));
    }
    assert_eq!(check(&[give, Step::go(1), give], 3), Some(1));
    assert_eq!(check(&[give, Step::fork(2), give], 3), None);
    assert_eq!(check(&[give, Step::go(2)], 2), Some(1));
}

#[test]
fn twenty_three_slots_for_the_kind() {
    let legal = |kind: u8, step: Step| steps::check(kind, &[step, Step::give()], 2).done();
    let ann = |kind: u8, ann: AnnSlot| legal(kind, seek(v(0), v(1), v(2), ann));
    assert!(ann(1, ca(u64::MAX)) && !ann(3, ca(1001)) && ann(3, ca(1000)) && !ann(5, ca(0)));
    assert!(!ann(5, ca(2)) && ann(5, ca(trial::random::with(1))));
    assert!(ann(1, va(7)) && !ann(1, va(8)) && !ann(1, va(1 << 32)));
    assert!(!ann(1, AnnSlot { mark: 2, value: 0 }));
    let slot = |mark, value| Slot { mark, value };
    for bad in [slot(2, 0), v(16), c(BAD)] {
        assert!(!legal(1, seek(bad, v(0), v(0), va(0))));
        assert!(!legal(1, seek(v(0), bad, v(0), va(0))));
        assert!(!legal(1, seek(v(0), v(0), bad, va(0))));
        for test in [0, 1] {
            assert!(!legal(1, Step::test_terms(test, bad, v(0))));
            assert!(!legal(1, Step::test_terms(test, v(0), bad)));
        }
    }
    assert!(!legal(1, seek(v(0), c(16_384), v(0), va(0))));
    assert!(legal(1, seek(c(16_384), v(0), c(32_768), va(0))));
    assert!(legal(1, Step::test_ann(7, 1)) && !legal(1, Step::test_ann(8, 1)));
    assert!(!legal(1, Step::test_ann(0, 0)) && !legal(4, Step::test_ann(0, 1001)));
    for test in [3, 255] {
        assert!(!legal(1, Step { test, ..Step::test_ann(0, 1) }));
    }
}

#[test]
fn twenty_three_judges_no_field_that_a_step_does_not_use() {
    let legal = |step: Step| steps::check(1, &[step, Step::give()], 2).done();
    let slot = |mark, value| Slot { mark, value };
    let junk = Step {
        kind: 0,
        subj: slot(9, BAD),
        pred: slot(9, BAD),
        obj: slot(9, BAD),
        ann: AnnSlot { mark: 9, value: 0 },
        target: 0,
        test: 9,
        left: slot(9, BAD),
        right: slot(9, BAD),
        var: 9,
        least: 0,
    };
    assert!(legal(Step { kind: steps::GIVE, ..junk }));
    assert!(legal(Step { kind: steps::GO, target: 1, ..junk }));
    assert!(legal(Step { kind: steps::FORK, target: 1, ..junk }));
    assert!(legal(Step { kind: steps::TEST, test: 0, left: v(0), right: c(1), ..junk }));
    assert!(legal(Step { kind: steps::TEST, test: 2, var: 0, least: 1, ..junk }));
    let pattern = Step { kind: steps::SEEK, ..any_row() };
    assert!(legal(Step { target: 0, test: 9, left: slot(9, BAD), ..pattern }));
    // 21 and 22 are not asked of steps.
    let loose = [any_row(), Step::test_ann(0, 1), any_row(), Step::test_ann(5, 1), Step::give()];
    assert_eq!(check(&loose, 5), None);
}

#[test]
fn a_test_with_an_unbound_variable_ends_the_line() {
    let give = Step::give();
    for test in [
        Step::test_terms(0, v(0), v(0)),
        Step::test_terms(1, v(0), c(5)),
        Step::test_terms(1, c(5), v(0)),
        Step::test_ann(0, 1),
    ] {
        assert_eq!(outcome(&[row(1, 1, 1, 1)], &[test, give], 9, 9), (0, 0, 0, 0));
    }
    let passes = |step: Step| outcome(&[row(5, 5, 6, 6)], &[any_row(), step, give], 9, 9).2 == 1;
    assert!(passes(Step::test_terms(0, v(0), v(1))) && !passes(Step::test_terms(1, v(0), v(1))));
    assert!(passes(Step::test_terms(1, v(0), v(2))) && !passes(Step::test_terms(0, v(2), c(5))));
    assert!(passes(Step::test_ann(0, 2)) && !passes(Step::test_ann(0, 3)));
    assert!(passes(Step::test_terms(0, c(7), c(7))) && !passes(Step::test_terms(1, c(7), c(7))));
}

#[test]
fn depth_first_and_looks_made() {
    // Two rows, each with all of its second seek before the next look.
    let rows = [row(1, 1, 1, 1), row(2, 1, 1, 1)];
    let steps = [seek(v(0), c(1), c(1), ca(1)), seek(v(1), c(1), c(1), ca(1)), Step::give()];
    let table = lanes(&rows, 2);
    let mut answers = Vec::new();
    for allowed in 0..=7 {
        let (ran, lines) = run_steps(1, (&table, 2), &steps, allowed, 9);
        // With 24 the looks made equal the looks allowed.
        let number = if allowed < 6 { 24 } else { 0 };
        assert_eq!((ran.number, ran.place, ran.looks), (number, 0, allowed.min(6)));
        answers.push(ran.answers);
        let pairs: Vec<_> = lines.iter().map(|line| (line.0[0], line.0[1])).collect();
        assert_eq!(pairs, &[(1, 1), (1, 2), (2, 1), (2, 2)][..ran.answers]);
    }
    assert_eq!(answers, [0, 0, 1, 2, 2, 3, 4, 4]);
    // 12 when an answer is due and no row is left, with the looks made before it.
    for (room, looks) in [(0, 2), (1, 3), (2, 5), (3, 6)] {
        assert_eq!(outcome(&rows, &steps, 100, room), (12, 0, room, looks));
    }
    assert_eq!(outcome(&rows, &steps, 6, 4), (0, 0, 4, 6));
    // Whichever comes first.
    assert_eq!(outcome(&rows, &steps, 2, 0), (12, 0, 0, 2));
    assert_eq!(outcome(&rows, &steps, 1, 0), (24, 0, 0, 1));
}

#[test]
fn forks_go_on_with_the_bindings_of_the_fork() {
    let give = Step::give();
    assert_eq!(outcome(&[], &[Step::fork(1), give], 0, 9), (0, 0, 2, 0));
    let rows = [row(1, 1, 1, 1)];
    let steps = [Step::fork(2), any_row(), Step::go(3), give];
    let table = lanes(&rows, 1);
    let (ran, lines) = run_steps(1, (&table, 1), &steps, 9, 9);
    assert_eq!((ran.number, ran.answers, ran.looks), (0, 2, 1));
    assert_eq!((lines[0].0[0], lines[1].0[0]), (1, 65_535));
}

#[test]
fn forty_six_forks_end_quickly() {
    let mut steps: Vec<Step> = (1..=46).map(Step::fork).collect();
    steps.push(Step::test_terms(0, c(5), c(6)));
    steps.push(Step::give());
    assert_eq!(outcome(&[row(1, 1, 1, 1)], &steps, u32::MAX, 256), (0, 0, 0, 0));
    // Before a SEEK over no rows, and before one that looks but never matches.
    steps[46] = seek(c(9), c(9), c(9), ca(1));
    assert_eq!(outcome(&[], &steps, u32::MAX, 256), (0, 0, 0, 0));
    assert_eq!(outcome(&[row(1, 1, 1, 1)], &steps, 5000, 256), (24, 0, 0, 5000));
    // Before GIVE: 256 answers, then 12.
    steps[46] = Step::go(47);
    assert_eq!(outcome(&[], &steps, 0, 256), (12, 0, 256, 0));
    // After a SEEK: a fresh start for each row's bindings, 2^44 lines each if taken singly.
    let mut steps = vec![any_row()];
    steps.extend((2..=45).map(Step::fork));
    steps.push(Step::test_terms(0, v(0), c(2)));
    steps.push(Step::go(47));
    steps.push(Step::give());
    let rows: Vec<Row> = (5..105).map(|at| row(at, 1, 1, 1)).collect();
    assert_eq!(outcome(&rows, &steps, u32::MAX, 256), (0, 0, 0, 100));
}

/// Passing over barren steps leaves the trace as it is: compared with taking each line singly.
#[test]
fn passing_over_changes_no_trace() {
    let mut random = trial::random::Random::new(11);
    for _ in 0..1500 {
        let kind = trial::random::legal_kind(&mut random);
        let (table, count) = trial::random::tables::small(&mut random, kind, 4);
        let steps = trial::random::steps::legal(&mut random, kind);
        if steps.len() > 14 {
            continue;
        }
        let allowed = random.below(60) as u32;
        let room = random.below(6);
        let (ran, lines) = run_steps(kind, (&table, count), &steps, allowed, room);
        let rows = table::rows(&table, count);
        let mut plain = Plain { kind, rows, steps, allowed, room, looks: 0, lines: Vec::new() };
        let number = plain.go(0, &Answer::default()).err().unwrap_or(0);
        assert_eq!((ran.number, ran.looks, lines), (number, plain.looks, plain.lines));
    }
}

/// A run without passing over anything, on the meaning's answers.
struct Plain {
    kind: u8,
    rows: Vec<Row>,
    steps: Vec<Step>,
    allowed: u32,
    room: usize,
    looks: u32,
    lines: Vec<Line>,
}

impl Plain {
    fn go(&mut self, at: usize, bound: &Answer) -> Result<(), u32> {
        let step = self.steps[at];
        let target = usize::from(step.target);
        match step.kind {
            steps::SEEK => self.seek(at, bound),
            steps::FORK => self.go(at + 1, bound).and_then(|()| self.go(target, bound)),
            steps::GO => self.go(target, bound),
            steps::TEST => {
                let test = match step.test {
                    0 => Test::Equal(step.left, step.right),
                    1 => Test::Unequal(step.left, step.right),
                    _ => Test::AtLeast(step.var, step.least),
                };
                let holds = meaning::holds(self.kind, &test, bound);
                if holds {
                    self.go(at + 1, bound)
                } else {
                    Ok(())
                }
            }
            _ if self.lines.len() == self.room => Err(12),
            _ => {
                self.lines.push(bound.lanes());
                Ok(())
            }
        }
    }

    fn seek(&mut self, at: usize, bound: &Answer) -> Result<(), u32> {
        let step = self.steps[at];
        let part = triple(step.subj, step.pred, step.obj, step.ann);
        for row in self.rows.clone() {
            if self.looks == self.allowed {
                return Err(24);
            }
            self.looks += 1;
            let one = meaning::answers(Asked { kind: self.kind, rows: &[row] }, &part);
            let next = one.first().and_then(|own| meaning::joined(self.kind, bound, own));
            if let Some(next) = next {
                self.go(at + 1, &next)?;
            }
        }
        Ok(())
    }
}
