//! Tables to close: chains, webs, blanks and literals and the five names as properties, what comes
//! one row after another; with room exactly for the closure, or for one row less.

use super::{annotation, legal_kind, legal_rules, row, slow, tables, Random, TERMS};
use crate::table::{self, Lanes, Row, Triple};
use crate::term::{DOM, RANGE, SC, SP, TYPE};
use crate::{annotation as annotations, closing};
use std::collections::BTreeMap;

/// Triples with equal ones joined, as ascending rows.
fn rows_of(random: &mut Random, kind: u8, triples: &[Triple]) -> Vec<Row> {
    let mut map = BTreeMap::new();
    for triple in triples {
        table::join_in(kind, &mut map, (*triple, annotation(random, kind)));
    }
    map.into_iter().collect()
}

/// A chain of sc or sp, sometimes bent into a ring, with something hung on to it.
fn chain(random: &mut Random) -> Vec<Triple> {
    let pred = random.pick(&[SC, SP]);
    let length = random.pick(&[2, 5, 9, 20, 30, 31, 32, 43, 44, 45, 46]) as u16;
    let ring = random.chance(3);
    let first = random.pick(&[100, 100, 16_370]);
    let mut triples: Vec<Triple> =
        (0..length).map(|at| (first + at, pred, first + at + 1)).collect();
    if ring {
        triples.push((first + length, pred, first));
    }
    for at in 0..random.below(3) as u16 {
        triples.push(match pred {
            SC => (10 + at, TYPE, first + at),
            _ => (10, first + at, 11 + at),
        });
    }
    triples
}

/// A web of sp, dom and range over few properties, blanks among them, with uses of them. All
/// it knows are names, blanks and literals of the pool, the five names included.
fn web(random: &mut Random) -> Vec<Triple> {
    let properties = [0, 1, 2, 3, 4, 20, 20, 21, 21, 22, 16_384, 16_384, 32_768];
    let things = [10, 11, 12, 16_385, 32_769];
    let mut triples = Vec::new();
    for _ in 0..random.from_to(1, 9) {
        let (one, other) = (random.pick(&properties), random.pick(&properties));
        let (thing, class) = (random.pick(&things), random.pick(&things));
        triples.push(match random.below(7) {
            0 | 1 => (one, SP, other),
            2 => (one, DOM, class),
            3 => (one, RANGE, class),
            4 => (thing, SC, class),
            _ => (thing, random.pick(&[20, 20, 21, 22]), class),
        });
    }
    triples
}

/// Rows of the small pool at will, few of them.
fn pool(random: &mut Random) -> Vec<Triple> {
    (0..random.below(9)).map(|_| row(random, 1).0).collect()
}

/// Classes in layers: many ways to one conclusion, so that annotations keep rising.
fn layers(random: &mut Random) -> Vec<Triple> {
    let mut triples = vec![(10, TYPE, 100), (16_385, TYPE, 101)];
    for layer in 0..random.from_to(1, 5) as u16 {
        for _ in 0..random.from_to(2, 6) {
            let (from, to) = (random.below(3) as u16, random.below(3) as u16);
            triples.push((100 + 3 * layer + from, SC, 103 + 3 * layer + to));
        }
    }
    if random.chance(3) {
        triples.push((random.pick(&[103, 106, 109]), SC, 100));
    }
    triples
}

/// Rows with many uses of one property: closures of a thousand rows from few rounds.
fn broad(random: &mut Random) -> Vec<Triple> {
    let uses = random.from_to(200, 500) as u16;
    let mut triples = vec![(20, SP, 21)];
    if random.chance(2) {
        triples.push((20, random.pick(&[DOM, RANGE]), random.pick(&TERMS)));
    }
    triples.extend((0..uses).map(|at| (1000 + at, 20, 30)));
    triples
}

/// Legal rows, ascending, of one of these makes.
pub fn rows(random: &mut Random, kind: u8) -> Vec<Row> {
    let triples = match random.below(18) {
        0 | 1 => chain(random),
        2..=4 => layers(random),
        5..=7 => pool(random),
        8 => broad(random),
        9 | 10 => return slow::small(random, kind),
        _ => web(random),
    };
    rows_of(random, kind, &triples)
}

/// At most 1,024 rows whose closure has 1,023 to 1,025: few of a web, and uses of a property that the
/// web does not know. They have the top, and each of them but the first is one row more.
pub fn brim(random: &mut Random, kind: u8, rules: u8) -> Vec<Row> {
    let used = |at: usize| ((1000 + at as u16, 23, 30), annotations::top(kind));
    let closed_with = |rows: &[Row], uses: usize| {
        let rows: Vec<Row> = rows.iter().copied().chain((0..uses).map(used)).collect();
        let closed = closing::closure(kind, rules, &rows, table::LONGEST);
        closed.map_or(table::LONGEST, |closed| closed.len())
    };
    let triples = web(random);
    let mut rows = rows_of(random, kind, &triples);
    // A web with (sp sp dom) types every use in rule set 2, and others do the like.
    if closed_with(&rows, 2) != closed_with(&rows, 1) + 1 {
        rows.clear();
    }
    let wanted = table::LONGEST + random.below(3) - 1;
    let uses = wanted.saturating_sub(closed_with(&rows, 1)) + 1;
    let uses = uses.min(table::LONGEST - rows.len());
    rows.extend((0..uses).map(used));
    rows.sort_unstable();
    rows
}

/// A sound table to close under a rule set. The room is often exactly the closure's, or one row less.
pub fn sound(random: &mut Random, kind: u8, rules: u8) -> (Lanes, usize) {
    if random.chance(24) {
        let rows = brim(random, kind, rules);
        return (tables::lanes_of(random, &rows, table::LONGEST), rows.len());
    }
    let rows = rows(random, kind);
    let closed = closing::closure(kind, rules, &rows, table::LONGEST);
    let closed = closed.map_or(table::LONGEST, |closed| closed.len());
    let some = random.from_to(rows.len(), table::LONGEST);
    let room = random.pick(&[closed, closed, closed.saturating_sub(1), closed + 1, 1024, some]);
    let room = room.clamp(rows.len(), table::LONGEST.max(rows.len()));
    (tables::lanes_of(random, &rows, room), rows.len())
}

/// A kind, a rule set and a table to close, broken now and then.
pub fn any(random: &mut Random) -> (u8, u8, Lanes, usize) {
    if random.chance(6) {
        let (kind, rules) = (super::kind(random), super::rules(random));
        let (lanes, count) = tables::broken(random, kind);
        return (kind, rules, lanes, count);
    }
    let (kind, rules) = (legal_kind(random), legal_rules(random));
    let (lanes, count) = sound(random, kind, rules);
    // A sound table, and yet no rule set of this number.
    let rules = if random.chance(24) { random.pick(&[0, 3, 4, 255]) } else { rules };
    (kind, rules, lanes, count)
}
