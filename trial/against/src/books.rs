//! Reading and writing books.

use crate::calls;
use crate::difference::{same, Difference};
use trial::book;
use trial::random::{self, books, tables, Random};
use trial::table::Lanes;

/// Lanes to read into: mostly fit, with old content in them.
fn lent(random: &mut Random) -> Lanes {
    if random.chance(12) {
        return tables::broken(random, 1).0;
    }
    let room = match random.below(4) {
        0 => 1024,
        1 => random.below(4),
        _ => tables::lane_length(random).min(1024),
    };
    tables::lanes_of(random, &[], room)
}

/// A book dealt from the seed, valid or damaged, read into lanes.
pub fn read(seed: u64) -> Result<(), Difference> {
    let mut random = Random::new(seed);
    let bytes = books::any(&mut random);
    let lanes = lent(&mut random);
    read_one(&bytes, &lanes)
}

pub fn read_one(bytes: &[u8], lanes: &Lanes) -> Result<(), Difference> {
    let (mut proved_lanes, mut model_lanes) = (lanes.clone(), lanes.clone());
    let proved = calls::read(bytes, &mut proved_lanes);
    let model = book::read(bytes, &mut model_lanes);
    let input = || format!("room {}, book {bytes:?}, {lanes:?}", lanes.subj.len());
    same("read: answer", &proved, &model, input)?;
    same("read: lanes", &proved_lanes, &model_lanes, input)
}

/// A table dealt from the seed written into bytes of about the length it needs, and, where that
/// is done, read back.
pub fn write(seed: u64) -> Result<(), Difference> {
    let mut random = Random::new(seed);
    let kind = random::kind(&mut random);
    let (lanes, count) = tables::any(&mut random, kind);
    let base = match random.below(8) {
        0 => random.pick(&[1, 1899, 2101, 65_535]),
        _ => books::base(&mut random, kind),
    };
    let rules = random::rules(&mut random);
    let need = 17usize.saturating_mul(count.min(2000)) + random.pick(&[7, 8]);
    let room = match random.below(6) {
        0 => need - 1,
        1 => need,
        2 => random.below(need + 40),
        _ => need + random.below(40),
    };
    let out: Vec<u8> = (0..room).map(|_| random.draw() as u8).collect();
    write_one((kind, base, rules), &lanes, count, &out)
}

/// With the kind, the base year and the rule set that the head is to say.
pub fn write_one(
    head: (u8, u16, u8),
    lanes: &Lanes,
    count: usize,
    out: &[u8],
) -> Result<(), Difference> {
    let (kind, base, rules) = head;
    let (mut proved_out, mut model_out) = (out.to_vec(), out.to_vec());
    let proved = calls::write(kind, base, rules, lanes, count, &mut proved_out);
    let model = book::write(kind, base, rules, lanes, count, &mut model_out);
    let input = || {
        let bytes = out.len();
        format!("kind {kind}, base {base}, rules {rules}, count {count}, {lanes:?}, {bytes} bytes")
    };
    same("write: answer", &proved, &model, input)?;
    same("write: bytes", &proved_out, &model_out, input)?;
    if proved.number == 0 {
        let mut back = Lanes::zero(count);
        let read = calls::read(&proved_out[..proved.length], &mut back);
        same(
            "write: read back",
            &(read.number, read.kind, read.base, read.rules, read.count),
            &(0, kind, base, rules, count),
            input,
        )?;
        same(
            "write: rows back",
            &trial::table::rows(&back, count),
            &trial::table::rows(lanes, count),
            input,
        )?;
    }
    Ok(())
}
