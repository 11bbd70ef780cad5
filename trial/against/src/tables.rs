//! The table check and adding.

use crate::calls;
use crate::difference::{same, Difference};
use trial::random::{self, tables, Random};
use trial::table::{self, Lanes, Row};

/// The table check on a table dealt from the seed, sound or broken.
pub fn check(seed: u64) -> Result<(), Difference> {
    let mut random = Random::new(seed);
    let kind = random::kind(&mut random);
    let (lanes, count) = tables::any(&mut random, kind);
    check_one(kind, &lanes, count)
}

pub fn check_one(kind: u8, lanes: &Lanes, count: usize) -> Result<(), Difference> {
    let proved = calls::check(kind, lanes, count);
    let model = table::check(kind, lanes, count);
    same("check", &proved, &model, || format!("kind {kind}, count {count}, {lanes:?}"))
}

/// Some triples added one after another to a table dealt from the seed.
pub fn add(seed: u64) -> Result<(), Difference> {
    let mut random = Random::new(seed);
    let kind = random::kind(&mut random);
    let (mut lanes, mut count) = tables::any(&mut random, kind);
    for _ in 0..random.from_to(1, 6) {
        let row = tables::to_add(&mut random, kind, &lanes, count);
        (lanes, count) = add_one(kind, lanes, count, row)?;
    }
    Ok(())
}

/// One adding by both; gives back the lanes and count that both left.
pub fn add_one(
    kind: u8,
    lanes: Lanes,
    count: usize,
    row: Row,
) -> Result<(Lanes, usize), Difference> {
    let (mut proved_lanes, mut model_lanes) = (lanes.clone(), lanes.clone());
    let proved = calls::add(kind, &mut proved_lanes, count, row);
    let model = table::add(kind, &mut model_lanes, count, row.0, row.1);
    let input = || format!("kind {kind}, count {count}, adding {row:?}, {lanes:?}");
    same("add: answer", &proved, &model, input)?;
    same("add: lanes", &proved_lanes, &model_lanes, input)?;
    Ok((model_lanes, model.count))
}
