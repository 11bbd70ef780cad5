//! Compiling questions: number, place, count and every field of every record lent.

use crate::calls;
use crate::difference::{same, Difference};
use crate::records::{marked, record_of, StepRecord};
use trial::question::{self, Compiled};
use trial::random::{self, questions, Random};
use trial::steps::{Step, MOST_STEPS};

/// A question dealt from the seed: valid, loose in its tests, damaged in one or several ways, or
/// no question at all; now and then too few records, or an illegal kind.
pub fn compile(seed: u64) -> Result<(), Difference> {
    let mut random = Random::new(seed);
    let kind = random::kind(&mut random);
    let bytes = questions::any(&mut random, kind);
    let room = match random.below(8) {
        0 => random.pick(&[0, 1, 47, 46]),
        1 => random.pick(&[49, 50, 100, 5000]),
        _ => MOST_STEPS,
    };
    compile_one(kind, &bytes, room)
}

/// The steps stand in front, and what was there before behind them.
pub fn compile_one(kind: u8, bytes: &[u8], room: usize) -> Result<(), Difference> {
    let mut steps = vec![Step::default(); room];
    let model = question::compile(kind, bytes, &mut steps);
    let (proved, records) = compiled(kind, bytes, room);
    let input = || format!("kind {kind}, room {room}, question {bytes:?}");
    same("compile: answer", &proved, &model, input)?;
    let mut wanted = marked(room);
    for (record, step) in wanted.iter_mut().zip(&steps[..model.steps]) {
        *record = record_of(step);
    }
    same("compile: records", &records, &wanted, input)
}

/// Compiles into so many marked records.
pub fn compiled(kind: u8, bytes: &[u8], room: usize) -> (Compiled, Vec<StepRecord>) {
    let mut records = marked(room);
    (calls::compile(kind, bytes, &mut records), records)
}
