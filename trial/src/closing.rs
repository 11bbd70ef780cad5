//! Closing: the least closed table at or above the one handed in, by drawing every conclusion
//! over and over until nothing changes.

use crate::table::{self, Lanes, Row, Triple, Verdict};
use crate::term::{self, DOM, RANGE, SC, SP, TYPE};
use crate::{annotation, rules};
use std::collections::BTreeMap;

#[derive(Clone, Copy, Debug, PartialEq, Eq)]
pub struct CloseOut {
    pub number: u32,
    pub place: u64,
    /// After a 12 it is 0; after any other refusal the count handed in.
    pub count: usize,
}

/// Closes a table under a rule set: 4, 36, the table's other refusals, which change nothing, then 12
/// where the least closed table has more rows than the lanes, which leaves all rows zero.
pub fn close(kind: u8, rules: u8, lanes: &mut Lanes, count: usize) -> CloseOut {
    let verdict = judge(kind, rules).or_else(|| table::check(kind, lanes, count));
    if !verdict.done() {
        return CloseOut { number: verdict.number, place: verdict.place, count };
    }
    match closure(kind, rules, &table::rows(lanes, count), lanes.room()) {
        Some(rows) => {
            table::fill(lanes, &rows);
            CloseOut { number: 0, place: 0, count: rows.len() }
        }
        None => {
            table::fill(lanes, &[]);
            CloseOut { number: 12, place: 0, count: 0 }
        }
    }
}

/// The kind, then the rule set.
fn judge(kind: u8, rules: u8) -> Verdict {
    if !annotation::kind_legal(kind) {
        Verdict::new(4, 0)
    } else if !rules::legal(rules) {
        Verdict::new(36, 0)
    } else {
        Verdict::DONE
    }
}

/// The rows of the closure, or nothing if it has more than `room`.
///
/// What has been drawn never goes away again, so a map that outgrows the room on the way shows
/// that the closure does.
pub fn closure(kind: u8, rules: u8, rows: &[Row], room: usize) -> Option<Vec<Row>> {
    let mut map: BTreeMap<Triple, u64> = BTreeMap::new();
    for row in rows {
        table::join_in(kind, &mut map, *row);
    }
    loop {
        if map.len() > room {
            return None;
        }
        let rows: Vec<Row> = map.iter().map(|(triple, ann)| (*triple, *ann)).collect();
        let mut changed = false;
        for row in conclusions(kind, rules, &rows) {
            changed |= table::join_in(kind, &mut map, row);
        }
        if !changed {
            return Some(rows);
        }
    }
}

/// Subject, object and annotation of a row whose predicate is known.
type Pair = (u16, u16, u64);

/// A graph's rows by their predicate.
struct Graph {
    kind: u8,
    by_pred: BTreeMap<u16, Vec<Pair>>,
}

impl Graph {
    fn of(&self, pred: u16) -> &[Pair] {
        self.by_pred.get(&pred).map_or(&[], |pairs| pairs)
    }

    fn and(&self, left: u64, right: u64) -> u64 {
        annotation::and(self.kind, left, right)
    }
}

/// Every conclusion of every rule of the set from these rows in one round; those with a predicate
/// that is no name, or with bottom, are not drawn.
pub fn conclusions(kind: u8, rules: u8, rows: &[Row]) -> Vec<Row> {
    let mut graph = Graph { kind, by_pred: BTreeMap::new() };
    for ((subj, pred, obj), ann) in rows {
        graph.by_pred.entry(*pred).or_default().push((*subj, *obj, *ann));
    }
    let mut drawn = Vec::new();
    chain(&graph, SP, &mut drawn);
    sub_property(&graph, &mut drawn);
    chain(&graph, SC, &mut drawn);
    sub_class(&graph, &mut drawn);
    typing(&graph, &mut drawn);
    implicit_typing(&graph, &mut drawn);
    if rules::reflexive(rules) {
        for row in rows {
            reflexive(*row, &mut drawn);
        }
    }
    drawn.retain(|((_, pred, _), ann)| term::name(*pred) && *ann != annotation::BOTTOM);
    drawn
}

/// 2a and 3a: (A p B), (B p C) gives (A p C), for sp and for sc.
fn chain(graph: &Graph, pred: u16, drawn: &mut Vec<Row>) {
    for (a, b, l) in graph.of(pred) {
        for (_, c, m) in graph.of(pred).iter().filter(|(from, _, _)| from == b) {
            drawn.push(((*a, pred, *c), graph.and(*l, *m)));
        }
    }
}

/// 2b: (D sp E), (X D Y) gives (X E Y).
fn sub_property(graph: &Graph, drawn: &mut Vec<Row>) {
    for (d, e, l) in graph.of(SP) {
        for (x, y, m) in graph.of(*d) {
            drawn.push(((*x, *e, *y), graph.and(*l, *m)));
        }
    }
}

/// 3b: (A sc B), (X type A) gives (X type B).
fn sub_class(graph: &Graph, drawn: &mut Vec<Row>) {
    for (a, b, l) in graph.of(SC) {
        for (x, _, m) in graph.of(TYPE).iter().filter(|(_, class, _)| class == a) {
            drawn.push(((*x, TYPE, *b), graph.and(*l, *m)));
        }
    }
}

/// 4a: (D dom B), (X D Y) gives (X type B). 4b: (D range B), (X D Y) gives (Y type B).
fn typing(graph: &Graph, drawn: &mut Vec<Row>) {
    for (d, b, l) in graph.of(DOM) {
        for (x, _, m) in graph.of(*d) {
            drawn.push(((*x, TYPE, *b), graph.and(*l, *m)));
        }
    }
    for (d, b, l) in graph.of(RANGE) {
        for (_, y, m) in graph.of(*d) {
            drawn.push(((*y, TYPE, *b), graph.and(*l, *m)));
        }
    }
}

/// 5a: (A dom B), (D sp A), (X D Y) gives (X type B). 5b: the same with range and (Y type B).
/// Not implied by 2b and 4: A may be a blank, which 2b makes no predicate of.
fn implicit_typing(graph: &Graph, drawn: &mut Vec<Row>) {
    for (d, a, l) in graph.of(SP) {
        for (_, b, m) in graph.of(DOM).iter().filter(|(of, _, _)| of == a) {
            for (x, _, n) in graph.of(*d) {
                drawn.push(((*x, TYPE, *b), graph.and(graph.and(*l, *m), *n)));
            }
        }
        for (_, b, m) in graph.of(RANGE).iter().filter(|(of, _, _)| of == a) {
            for (_, y, n) in graph.of(*d) {
                drawn.push(((*y, TYPE, *b), graph.and(graph.and(*l, *m), *n)));
            }
        }
    }
}

/// Rule set 2's lines 9 to 18, each of one premise and with its annotation.
fn reflexive(premise: Row, drawn: &mut Vec<Row>) {
    let ((subj, pred, obj), ann) = premise;
    let mut sub_property_of_itself = |term: u16| drawn.push(((term, SP, term), ann));
    // 9: (X A Y) gives (A sp A).
    sub_property_of_itself(pred);
    match pred {
        // 10, 11: (A sp B) gives (A sp A), (B sp B).
        SP => {
            sub_property_of_itself(subj);
            sub_property_of_itself(obj);
        }
        // 12, 13: (A dom B) or (A range B) gives (A sp A).
        DOM | RANGE => sub_property_of_itself(subj),
        _ => {}
    }
    let mut sub_class_of_itself = |term: u16| drawn.push(((term, SC, term), ann));
    match pred {
        // 14, 15: (A sc B) gives (A sc A), (B sc B).
        SC => {
            sub_class_of_itself(subj);
            sub_class_of_itself(obj);
        }
        // 16, 17, 18: (X type A), (X dom A) or (X range A) gives (A sc A).
        TYPE | DOM | RANGE => sub_class_of_itself(obj),
        _ => {}
    }
}
