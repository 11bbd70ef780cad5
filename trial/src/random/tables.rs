//! Tables, sound and broken, and triples to add to them.

use super::{annotation, bad_annotation, bad_row, row, tight_triple, triple};
use super::{Random, BAD_TERMS, NO_NAMES};
use crate::table::{self, Lanes, Row, Triple};
use std::collections::BTreeMap;

/// A lane length from 0 to 1,025: mostly small, often at the limits.
pub fn lane_length(random: &mut Random) -> usize {
    match random.below(8) {
        0 => random.below(1026),
        1 => random.pick(&[1023, 1024, 1025]),
        2 => random.below(3),
        _ => random.below(24),
    }
}

/// So many legal rows, at most 1,025, strictly ascending.
pub fn ascending(random: &mut Random, kind: u8, count: usize) -> Vec<Row> {
    let count = count.min(table::LONGEST + 1);
    let tight = count <= 24 && !random.chance(3);
    let mut map: BTreeMap<Triple, u64> = BTreeMap::new();
    while map.len() < count {
        let mut triple = if tight { tight_triple(random) } else { triple(random) };
        // The pool holds about 4,000 triples; where it is crowded, wider terms are taken.
        if map.contains_key(&triple) && count > 600 {
            triple.0 = random.draw() as u16 & 0x3FFF;
        }
        map.insert(triple, annotation(random, kind));
    }
    map.into_iter().collect()
}

/// A sound table with these rows and this room; past the count there is zero or old garbage.
pub fn lanes_of(random: &mut Random, rows: &[Row], room: usize) -> Lanes {
    let mut lanes = Lanes::zero(room.max(rows.len()));
    table::fill(&mut lanes, rows);
    if random.chance(2) {
        for at in rows.len()..lanes.room() {
            let old = (random.draw() as u16, random.draw() as u16, random.draw() as u16);
            lanes.put(at, (old, random.draw()));
        }
    }
    lanes
}

/// A sound table of up to 1,024 rows: full, empty, or between.
pub fn sound(random: &mut Random, kind: u8) -> (Lanes, usize) {
    let room = lane_length(random).min(table::LONGEST);
    let count = match random.below(4) {
        0 => room,
        1 => room.min(random.below(4)),
        _ => random.from_to(0, room),
    };
    let rows = ascending(random, kind, count);
    (lanes_of(random, &rows, room), count)
}

/// A sound table of few rows, for work that grows fast with them.
pub fn small(random: &mut Random, kind: u8, most: usize) -> (Lanes, usize) {
    let count = random.from_to(0, most.min(table::LONGEST));
    let rows = ascending(random, kind, count);
    let room = (count + random.below(4)).min(table::LONGEST);
    (lanes_of(random, &rows, room), count)
}

/// A table with one to three faults; with few rows a fault may miss and leave it sound.
pub fn broken(random: &mut Random, kind: u8) -> (Lanes, usize) {
    let (mut lanes, mut count) = sound(random, kind);
    for _ in 0..random.from_to(1, 3) {
        match random.below(6) {
            0 => unequal(random, &mut lanes),
            1 => count = over(random, &lanes),
            2 => disorder(random, &mut lanes, count),
            3 => too_long(random, &mut lanes),
            _ => bad_content(random, kind, &mut lanes, count),
        }
    }
    (lanes, count)
}

/// Sound or broken.
pub fn any(random: &mut Random, kind: u8) -> (Lanes, usize) {
    if random.chance(2) {
        return sound(random, kind);
    }
    broken(random, kind)
}

/// Makes one lane, or several, longer or shorter than the rest.
fn unequal(random: &mut Random, lanes: &mut Lanes) {
    let new = |random: &mut Random, old: usize| match random.below(4) {
        0 => old + 1,
        1 => old.saturating_sub(1),
        2 => 0,
        _ => random.below(1026),
    };
    for lane in [&mut lanes.subj, &mut lanes.pred, &mut lanes.obj] {
        if random.chance(3) {
            lane.resize(new(random, lane.len()), 7);
        }
    }
    if random.chance(3) {
        lanes.ann.resize(new(random, lanes.ann.len()), 7);
    }
}

fn over(random: &mut Random, lanes: &Lanes) -> usize {
    let room = lanes.room();
    random.pick(&[room + 1, room + 2, 1024, 1025, 65_536, 1 << 32, usize::MAX])
}

/// Lanes of 1,025, equal but too long.
fn too_long(random: &mut Random, lanes: &mut Lanes) {
    if random.chance(2) {
        for lane in [&mut lanes.subj, &mut lanes.pred, &mut lanes.obj] {
            lane.resize(1025, 0);
        }
        lanes.ann.resize(1025, 0);
    }
}

/// Puts one row below the count somewhere else, or repeats it.
fn disorder(random: &mut Random, lanes: &mut Lanes, count: usize) {
    let rows = table::rows(lanes, count);
    let (from, to) = (random.below(rows.len()), random.below(rows.len()));
    let (Some(one), Some(other)) = (rows.get(from), rows.get(to)) else {
        return;
    };
    lanes.put(to, *one);
    match random.below(3) {
        0 => lanes.put(from, *other),
        1 => lanes.put((from + 1).min(rows.len() - 1), (one.0, other.1)),
        _ => {}
    }
}

/// Spoils one entry of a row below the count, or the whole row.
fn bad_content(random: &mut Random, kind: u8, lanes: &mut Lanes, count: usize) {
    let rows = table::rows(lanes, count);
    let at = random.below(rows.len());
    let Some(((mut subj, mut pred, mut obj), mut ann)) = rows.get(at).copied() else {
        return;
    };
    match random.below(6) {
        0 => subj = random.pick(&BAD_TERMS),
        1 => pred = random.pick(&BAD_TERMS),
        2 => obj = random.pick(&BAD_TERMS),
        3 => pred = random.pick(&NO_NAMES),
        4 => ann = bad_annotation(random, kind),
        _ => ((subj, pred, obj), ann) = bad_row(random, kind),
    }
    lanes.put(at, ((subj, pred, obj), ann));
}

/// A triple to add: often equal or next to a row of the table, sometimes illegal.
pub fn to_add(random: &mut Random, kind: u8, lanes: &Lanes, count: usize) -> Row {
    let rows = table::rows(lanes, count);
    let near = rows.get(random.below(rows.len())).map(|row| row.0);
    match (random.below(8), near) {
        (0, _) => bad_row(random, kind),
        (1..=3, Some(triple)) => (triple, annotation(random, kind)),
        (4, Some((subj, pred, obj))) => {
            let by = random.pick(&[1, u16::MAX]);
            ((subj, pred, obj.wrapping_add(by)), annotation(random, kind))
        }
        (5, Some((subj, pred, obj))) => {
            ((subj.wrapping_add(1), pred, obj), annotation(random, kind))
        }
        _ => row(random, kind),
    }
}
