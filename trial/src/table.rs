//! Tables: four lanes and a count; the table check and adding a triple.

use crate::{annotation, term};
use std::collections::BTreeMap;

/// The longest a lane may be.
pub const LONGEST: usize = 1024;

/// Four lanes as they are lent: of any length each, with anything in them.
#[derive(Clone, Debug, Default, PartialEq, Eq)]
pub struct Lanes {
    pub subj: Vec<u16>,
    pub pred: Vec<u16>,
    pub obj: Vec<u16>,
    pub ann: Vec<u64>,
}

impl Lanes {
    /// Four lanes of `room` zeros.
    pub fn zero(room: usize) -> Lanes {
        Lanes { subj: vec![0; room], pred: vec![0; room], obj: vec![0; room], ann: vec![0; room] }
    }

    /// The lane length, once the lanes are known to be fit.
    pub fn room(&self) -> usize {
        self.subj.len()
    }

    /// Lanes are fit when they are of equal length and not too long; 11 otherwise.
    pub fn fit(&self) -> bool {
        let room = self.subj.len();
        room <= LONGEST
            && [self.pred.len(), self.obj.len(), self.ann.len()].iter().all(|len| *len == room)
    }

    /// Writes one row; a row outside the lanes is not written.
    pub fn put(&mut self, at: usize, row: Row) {
        let ((subj, pred, obj), ann) = row;
        put_in(&mut self.subj, at, subj);
        put_in(&mut self.pred, at, pred);
        put_in(&mut self.obj, at, obj);
        put_in(&mut self.ann, at, ann);
    }
}

fn put_in<T>(lane: &mut [T], at: usize, value: T) {
    if let Some(entry) = lane.get_mut(at) {
        *entry = value;
    }
}

/// Subject, predicate, object; tables ascend in exactly this order.
pub type Triple = (u16, u16, u16);

pub type Row = (Triple, u64);

/// A number of the document's list, and its place; 0 at 0 is done.
#[derive(Clone, Copy, Debug, PartialEq, Eq)]
pub struct Verdict {
    pub number: u32,
    pub place: u64,
}

impl Verdict {
    pub const DONE: Verdict = Verdict { number: 0, place: 0 };

    pub fn new(number: u32, place: usize) -> Verdict {
        Verdict { number, place: place as u64 }
    }

    pub fn done(self) -> bool {
        self.number == 0
    }

    /// This one if it is a refusal, else what is judged next.
    pub fn or_else(self, next: impl FnOnce() -> Verdict) -> Verdict {
        if self.done() {
            next()
        } else {
            self
        }
    }
}

/// The first `count` rows, as far as all four lanes reach.
pub fn rows(lanes: &Lanes, count: usize) -> Vec<Row> {
    let terms = lanes.subj.iter().zip(&lanes.pred).zip(&lanes.obj);
    let whole = terms.zip(&lanes.ann).take(count);
    whole.map(|(((subj, pred), obj), ann)| ((*subj, *pred, *obj), *ann)).collect()
}

/// Writes the rows and zeros all that stands past them, in every lane.
pub fn fill(lanes: &mut Lanes, rows: &[Row]) {
    for lane in [&mut lanes.subj, &mut lanes.pred, &mut lanes.obj] {
        lane.fill(0);
    }
    lanes.ann.fill(0);
    for (at, row) in rows.iter().enumerate() {
        lanes.put(at, *row);
    }
}

/// A row or an added triple by number: 8 for any of its terms, then 9, then 10, then 28; 0 if
/// legal.
pub fn judge(kind: u8, row: Row) -> u32 {
    let ((subj, pred, obj), ann) = row;
    if ![subj, pred, obj].iter().all(|one| term::legal(*one)) {
        8
    } else if !term::name(pred) {
        9
    } else {
        annotation::judge(kind, ann)
    }
}

/// The table check: 4, 11, 14, then row by row 8, 9, 10, 28, 15.
pub fn check(kind: u8, lanes: &Lanes, count: usize) -> Verdict {
    if !annotation::kind_legal(kind) {
        return Verdict::new(4, 0);
    }
    if !lanes.fit() {
        return Verdict::new(11, 0);
    }
    if count > lanes.room() {
        return Verdict::new(14, 0);
    }
    let rows = rows(lanes, count);
    for (at, row) in rows.iter().enumerate() {
        let number = judge(kind, *row);
        if number != 0 {
            return Verdict::new(number, at);
        }
        if at > 0 && rows[at - 1].0 >= row.0 {
            return Verdict::new(15, at);
        }
    }
    Verdict::DONE
}

#[derive(Clone, Copy, Debug, PartialEq, Eq)]
pub struct Added {
    pub number: u32,
    pub place: u64,
    /// The new count; on a refusal the count handed in, for the call then changes nothing.
    pub count: usize,
}

/// Adds a triple, or joins it to its equal: the table's refusals, then 8, 9, 10, 28, then 12.
pub fn add(kind: u8, lanes: &mut Lanes, count: usize, triple: Triple, ann: u64) -> Added {
    let refused = |verdict: Verdict| Added { number: verdict.number, place: verdict.place, count };
    let verdict = check(kind, lanes, count);
    if !verdict.done() {
        return refused(verdict);
    }
    let number = judge(kind, (triple, ann));
    if number != 0 {
        return refused(Verdict::new(number, 0));
    }
    let mut map: BTreeMap<Triple, u64> = rows(lanes, count).into_iter().collect();
    join_in(kind, &mut map, (triple, ann));
    if map.len() > lanes.room() {
        return refused(Verdict::new(12, 0));
    }
    // Only rows below the new count are written: adding touches none past it.
    for (at, (triple, ann)) in map.iter().enumerate() {
        lanes.put(at, (*triple, *ann));
    }
    Added { number: 0, place: 0, count: map.len() }
}

/// Rule 6: equal triples join. Says whether the map has changed.
pub fn join_in(kind: u8, map: &mut BTreeMap<Triple, u64>, row: Row) -> bool {
    let (triple, ann) = row;
    let old = map.get(&triple).copied();
    let new = old.map_or(ann, |old| annotation::join(kind, old, ann));
    map.insert(triple, new);
    old != Some(new)
}
