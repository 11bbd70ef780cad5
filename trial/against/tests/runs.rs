//! Runs and the counter's program against the model, and the document's examples.

use against::running::Running;
use against::{asked, process, run, runs, stored, stored_questions};
use std::path::PathBuf;
use std::time::Instant;
use trial::pattern::{AnnSlot, Pattern, Slot};
use trial::steps::{Ran, Step};

fn program() -> PathBuf {
    PathBuf::from(env!("CARGO_MANIFEST_DIR")).join("../../target/bin/counter")
}

#[test]
fn questions_asked_of_random_tables_agree() {
    run("ask", runs::ask, 0..1_500);
}

#[test]
fn any_step_list_over_any_table_agrees() {
    run("run", runs::any_run, 0..4_000);
}

#[test]
fn the_counter_agrees() {
    for seed in 0..200 {
        if let Err(difference) = runs::counter_program(&program(), seed) {
            panic!("seed {seed}: {difference}");
        }
    }
}

/// P1's table, closed: 10 is of class 11 and of 12, and 11 lies within 12.
fn p1_closed(steps: Vec<Step>, allowed: u32) -> Running {
    let rows = [((10, 2, 11), 120), ((10, 2, 12), 96), ((11, 1, 12), 2016)];
    Running {
        kind: 1,
        lanes: stored::lanes(&rows, 3),
        count: 3,
        step_count: steps.len(),
        steps,
        allowed,
        terms: vec![7; 32],
        anns: vec![7; 16],
    }
}

fn ran(running: &Running) -> (Ran, Vec<u16>, Vec<u64>) {
    runs::run_one(running).unwrap();
    let (mut terms, mut anns) = (running.terms.clone(), running.anns.clone());
    let ran = against::calls::run(running, &mut terms, &mut anns);
    (ran, terms, anns)
}

/// A run goes as deep as there are steps: 47 SEEKs and a GIVE on a thread that has the stack that the header names.
#[test]
fn the_deepest_run_keeps_within_its_stack() {
    let lamp = Pattern {
        subj: Slot::constant(10),
        pred: Slot::constant(2),
        obj: Slot::constant(11),
        ann: AnnSlot::variable(0),
    };
    let mut steps = vec![Step::seek(lamp); 47];
    steps.push(Step::give());
    let running = p1_closed(steps, 1_000);
    let deep = move || {
        let (mut terms, mut anns) = (running.terms.clone(), running.anns.clone());
        against::calls::run(&running, &mut terms, &mut anns)
    };
    let thread = std::thread::Builder::new().stack_size(128 * 1024).spawn(deep).unwrap();
    let ran = thread.join().unwrap();
    assert_eq!((ran.number, ran.answers), (0, 1));
}

/// 46 FORKs in a row before a false TEST would be 2^46 lines of work if each were walked.
#[test]
fn forks_that_lead_nowhere_end_at_once() {
    let mut steps: Vec<Step> = (1..=46).map(Step::fork).collect();
    steps.push(Step::test_terms(0, Slot::constant(10), Slot::constant(11)));
    steps.push(Step::give());
    let running = p1_closed(steps, u32::MAX);
    let start = Instant::now();
    assert_eq!(ran(&running).0, Ran { number: 0, place: 0, answers: 0, looks: 0 });
    assert!(start.elapsed().as_secs() < 1, "the FORKs were walked");
}

/// "P12 3 allowed: 24, one answer; 2 allowed: 24, none", and every other number of looks for P11.
#[test]
fn p11_with_every_number_of_looks() {
    let mut steps = vec![Step::default(); 48];
    let compiled = trial::question::compile(1, &stored_questions::p11(), &mut steps);
    steps.truncate(compiled.steps);
    for allowed in 0..8 {
        let (ran, terms, anns) = ran(&p1_closed(steps.clone(), allowed));
        let number = if allowed < 6 { 24 } else { 0 };
        let answers = usize::from(allowed >= 3);
        assert_eq!(ran, Ran { number, place: 0, answers, looks: allowed.min(6) });
        let first = if answers == 1 { (10, 96) } else { (7, 7) };
        assert_eq!((terms[0], anns[0]), first);
    }
}

#[test]
fn stored_inputs_give_their_answers() {
    for (name, input, output) in asked::countings() {
        assert_eq!(process::run(&program(), &input), output, "{name}");
        assert_eq!(trial::programs::counter_program(&input), output, "{name}, model");
    }
}

fn pattern(subj: Slot, pred: Slot, obj: Slot, ann: AnnSlot) -> Step {
    Step::seek(Pattern { subj, pred, obj, ann })
}

/// (?0 type ?1):?0
fn any_type() -> Step {
    pattern(Slot::variable(0), Slot::constant(2), Slot::variable(1), AnnSlot::variable(0))
}

/// A legal step, this one, and GIVE.
fn between(step: Step) -> Vec<Step> {
    vec![any_type(), step, Step::give()]
}

/// Each way for a single step to be illegal; it is step 1 of three.
fn illegal_steps() -> Vec<(&'static str, Step)> {
    let (v, c) = (Slot::variable, Slot::constant);
    let a = AnnSlot::variable(0);
    let odd = |value| Slot { mark: 2, value };
    vec![
        ("no such step", Step { kind: 5, ..Step::default() }),
        ("subject's mark", pattern(odd(0), c(2), v(1), a)),
        ("predicate's mark", pattern(v(0), odd(2), v(1), a)),
        ("object's mark", pattern(v(0), c(2), odd(1), a)),
        ("annotation's mark", pattern(v(0), c(2), v(1), AnnSlot { mark: 2, value: 1 })),
        ("subject's variable", pattern(v(16), c(2), v(1), a)),
        ("predicate's variable", pattern(v(0), v(16), v(1), a)),
        ("object's variable", pattern(v(0), c(2), v(16), a)),
        ("annotation's variable", pattern(v(0), c(2), v(1), AnnSlot::variable(8))),
        ("subject 65,535", pattern(c(65_535), c(2), v(1), a)),
        ("predicate 65,535", pattern(v(0), c(65_535), v(1), a)),
        ("predicate a value", pattern(v(0), c(49_152), v(1), a)),
        ("predicate no name", pattern(v(0), c(16_384), v(1), a)),
        ("object 65,535", pattern(v(0), c(2), c(65_535), a)),
        ("annotation 0", pattern(v(0), c(2), v(1), AnnSlot::constant(0))),
        ("FORK to itself", Step::fork(1)),
        ("FORK back", Step::fork(0)),
        ("FORK past the last", Step::fork(3)),
        ("GO to itself", Step::go(1)),
        ("GO past the last", Step::go(3)),
        ("test's mark", Step::test_terms(3, v(0), v(1))),
        ("test's first mark", Step::test_terms(0, odd(0), v(1))),
        ("test's second variable", Step::test_terms(1, v(0), v(16))),
        ("test's first 65,535", Step::test_terms(1, c(65_535), v(1))),
        ("test's annotation variable", Step::test_ann(8, 1)),
        ("test's constant", Step::test_ann(0, 0)),
    ]
}

#[test]
fn every_illegal_step_is_23_at_its_number() {
    let refused = |place| Ran { number: 23, place, answers: 0, looks: 0 };
    for (name, step) in illegal_steps() {
        assert_eq!(ran(&p1_closed(between(step), 9)).0, refused(1), "{name}");
    }
    let unreached = vec![Step::give(), Step::fork(0), Step::give()];
    assert_eq!(ran(&p1_closed(unreached, 9)).0, refused(1), "a step that nothing reaches");
    let two = vec![any_type(), Step::go(0), Step::fork(9), Step::give()];
    assert_eq!(ran(&p1_closed(two, 9)).0, refused(1), "the lowest of two");
    let no_give = vec![Step::give(), any_type()];
    assert_eq!(ran(&p1_closed(no_give, 9)).0, refused(1), "the last not GIVE");
    for (name, count, lent) in [("none", 0, 3), ("over 48", 49, 49), ("over the lent", 4, 3)] {
        let steps = vec![Step::give(); lent];
        let running = Running { step_count: count, ..p1_closed(steps, 9) };
        assert_eq!(ran(&running).0, refused(0), "{name}");
    }
    let of_1001 =
        pattern(Slot::variable(0), Slot::constant(2), Slot::variable(1), AnnSlot::constant(1001));
    let legal_for_years = p1_closed(between(of_1001), 9);
    assert_eq!(ran(&legal_for_years).0.number, 0, "a constant that kind 1 allows");
}

/// "Running: 4, table, answer lanes, 23": each is taken away in turn.
#[test]
fn a_run_is_refused_in_the_documents_order() {
    let mut running = Running { kind: 2, count: 4, ..p1_closed(vec![], 9) };
    running.terms.push(7);
    assert_eq!(ran(&running).0.number, 4);
    running.kind = 1;
    assert_eq!(ran(&running).0.number, 14);
    running.count = 3;
    running.lanes.subj.swap(1, 2);
    running.lanes.pred.swap(1, 2);
    assert_eq!((ran(&running).0.number, ran(&running).0.place), (15, 2));
    running.lanes.subj.swap(1, 2);
    running.lanes.pred.swap(1, 2);
    assert_eq!(ran(&running).0.number, 11);
    running.terms.pop();
    assert_eq!(ran(&running).0.number, 23);
}
