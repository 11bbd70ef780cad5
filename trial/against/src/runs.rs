//! Runs: questions compiled and asked of a table, step lists of any worth, and the counter's
//! program as a process.

use crate::calls;
use crate::difference::{same, Difference};
use crate::process;
use crate::running::Running;
use std::path::Path;
use trial::random::{counters, questions, steps as any_steps, tables, Random};
use trial::steps::{Step, MOST_STEPS};
use trial::{programs, question};

/// Both run it; number, place, answers, looks and both answer lanes are compared.
pub fn run_one(running: &Running) -> Result<(), Difference> {
    let (model, model_terms, model_anns) = running.model();
    let (mut terms, mut anns) = (running.terms.clone(), running.anns.clone());
    let proved = calls::run(running, &mut terms, &mut anns);
    let input = || format!("{running:?}");
    same("run: answer", &proved, &model, input)?;
    same("run: term lane", &terms, &model_terms, input)?;
    same("run: annotation lane", &anns, &model_anns, input)
}

/// The run as it is, then with looks and answer rows around the point where they run out.
fn around(random: &mut Random, running: &Running) -> Result<(), Difference> {
    run_one(running)?;
    let (whole, ..) = running.model();
    if whole.number != 0 && whole.number != 12 && whole.number != 24 {
        return Ok(());
    }
    for _ in 0..3 {
        let fewer = random.below(whole.looks as usize + 1) as u32;
        let allowed =
            random.pick(&[whole.looks, whole.looks.saturating_sub(1), whole.looks + 1, fewer, 0]);
        let rows = random.pick(&[
            whole.answers,
            whole.answers.saturating_sub(1),
            (whole.answers + 1).min(256),
            0,
            256,
        ]);
        let tight = Running { allowed, ..running.clone() }.room(random, rows);
        run_one(&tight)?;
    }
    Ok(())
}

/// A valid question of up to 32 parts, compiled by the model and asked of a sound table.
pub fn ask(seed: u64) -> Result<(), Difference> {
    let mut random = Random::new(seed);
    let kind = trial::random::legal_kind(&mut random);
    let most = random.pick(&[3, 8, 20, 60]);
    let (lanes, count) = tables::small(&mut random, kind, most);
    let bytes = questions::valid_bytes(&mut random, kind);
    let mut steps = vec![Step::default(); MOST_STEPS];
    let compiled = question::compile(kind, &bytes, &mut steps);
    if compiled.number != 0 {
        return Ok(());
    }
    let running = Running {
        kind,
        lanes,
        count,
        steps,
        step_count: compiled.steps,
        allowed: 200_000,
        terms: Vec::new(),
        anns: Vec::new(),
    };
    let running = running.room(&mut random, 256);
    around(&mut random, &running)
}

/// Step lists, tables and answer lanes of any worth.
pub fn any_run(seed: u64) -> Result<(), Difference> {
    let mut random = Random::new(seed);
    let kind = trial::random::kind(&mut random);
    let (lanes, count) = if random.chance(6) {
        tables::any(&mut random, kind)
    } else {
        tables::small(&mut random, kind, 12)
    };
    let (steps, step_count) = any_steps::any(&mut random, kind);
    let allowed = random.pick(&[0, 1, 7, 500, 20_000]);
    let rows = random.pick(&[0, 1, 2, 255, 256, 257]);
    let running = Running {
        kind,
        lanes,
        count,
        steps,
        step_count,
        allowed,
        terms: Vec::new(),
        anns: Vec::new(),
    };
    let mut running = running.room(&mut random, rows);
    if random.chance(8) {
        running.terms.resize(random.pick(&[0, 1, 15, 16, 17, 31, 4096, 4112]), 7);
    }
    if random.chance(8) {
        running.anns.resize(random.pick(&[0, 1, 7, 8, 9, 15, 2048, 2056]), 7);
    }
    around(&mut random, &running)
}

/// The counter's program as a process.
pub fn counter_program(program: &Path, seed: u64) -> Result<(), Difference> {
    let mut random = Random::new(seed);
    let input = counters::input(&mut random);
    let proved = process::run(program, &input);
    let model = programs::counter_program(&input);
    same("counter", &proved, &model, || format!("input {input:?}"))
}
