//! Books made to make closing slow: what they give comes one row, or one year, after another, in an
//! order of the terms' numbers that a round cannot follow.

use super::{with, Random};
use crate::annotation;
use crate::table::{Row, Triple};
use crate::term::{DOM, SC, SP, TYPE};
use std::collections::BTreeMap;

/// The orders in which the rungs of a ladder are numbered.
pub const ORDERS: [&str; 4] = ["up", "down", "turns", "shuffled"];

const RUNG: u16 = 100;
const PROPERTY: u16 = 50;
const CLASS: u16 = 60;
const BLANK: u16 = 16_384;

fn rungs(order: &str, count: u16) -> Vec<u16> {
    let mut numbers: Vec<u16> = (RUNG..RUNG + count).collect();
    match order {
        "down" => numbers.reverse(),
        "turns" => {
            let (low, high) = numbers.split_at(numbers.len() / 2);
            let mut turns = Vec::new();
            for at in 0..high.len() {
                turns.extend(low.get(at));
                turns.push(high[high.len() - 1 - at]);
            }
            numbers = turns;
        }
        "shuffled" => {
            let mut random = Random::new(u64::from(count));
            for at in (1..numbers.len()).rev() {
                numbers.swap(at, (random.draw() % (at as u64 + 1)) as usize);
            }
        }
        _ => {}
    }
    numbers
}

/// (q0 sp sp), then (q1 q0 sp), (q2 q1 sp) ..: each (q sp sp) needs the one before it.
fn ladder(rungs: &[u16]) -> Vec<Triple> {
    let mut triples = vec![(rungs[0], SP, SP)];
    triples.extend(rungs.windows(2).map(|two| (two[1], two[0], SP)));
    triples
}

/// So many blanks above a property, each with the class as its domain, and uses of the property.
fn ways(count: u16) -> Vec<Triple> {
    (0..count)
        .flat_map(|at| {
            [(PROPERTY, SP, BLANK + at), (BLANK + at, DOM, CLASS), (2000 + at, PROPERTY, 4000 + at)]
        })
        .collect()
}

/// Uses of a property that has another above it, with domains.
fn uses(count: u16) -> Vec<Triple> {
    let mut triples =
        vec![(PROPERTY, SP, 51), (51, DOM, CLASS), (PROPERTY, DOM, 61), (51, SP, BLANK)];
    triples.extend((0..count).map(|at| (2000 + at, PROPERTY, 4000 + at)));
    triples
}

fn sorted(kind: u8, triples: Vec<Triple>) -> Vec<Row> {
    let ann = if kind == 1 { 7 } else { 1000 };
    triples
        .into_iter()
        .map(|triple| (triple, ann))
        .collect::<BTreeMap<_, _>>()
        .into_iter()
        .collect()
}

/// A ring of classes whose links are of slowly falling degrees: values rise step by step.
fn ring(count: u16) -> Vec<Row> {
    let mut rows: Vec<Row> = (0..count)
        .map(|at| ((RUNG + at, SC, RUNG + (at + 1) % count), 1000 - u64::from(at) * 7 % 13))
        .collect();
    rows.sort_unstable();
    rows
}

/// Things that are of a class in one year more with every rung.
fn years(rungs: &[u16], things: u16) -> Vec<Row> {
    let mut rows: BTreeMap<Triple, u64> =
        ladder(rungs).into_iter().map(|triple| (triple, u64::MAX)).collect();
    for (at, rung) in rungs.iter().enumerate() {
        let relation = 1000 + at as u16;
        rows.insert((relation, *rung, TYPE), u64::MAX);
        for thing in 0..things {
            rows.insert((2000 + thing, relation, CLASS), 1 << (at % 64));
        }
    }
    rows.into_iter().collect()
}

/// Ways of rule 2 that come one after another to a property with many below it, in years in which
/// nothing follows.
fn serial(rungs: &[u16]) -> Vec<Row> {
    let mut rows: BTreeMap<Triple, u64> =
        ladder(rungs).into_iter().map(|triple| (triple, 2)).collect();
    for (at, rung) in rungs.iter().enumerate() {
        rows.insert((PROPERTY, *rung, 4000 + at as u16), 2);
        rows.insert((2000 + at as u16, SP, PROPERTY), 1);
    }
    rows.into_iter().collect()
}

/// The books of a size, which is 16 or more; their closures in rule set 1 have up to about that many
/// rows: a name, the kind, the rows.
pub fn books(order: &str, size: u16) -> Vec<(&'static str, u8, Vec<Row>)> {
    let size = size.max(16);
    let links = rungs(order, (f64::from(size) * 2.0).sqrt() as u16 - 2);
    let mut classes = vec![(3000, TYPE, links[0])];
    classes.extend(links.windows(2).map(|two| (two[0], SC, two[1])));
    let with = |mut triples: Vec<Triple>, more: Vec<Triple>| {
        triples.extend(more);
        sorted(1, triples)
    };
    vec![
        ("ladder", 1, sorted(1, ladder(&rungs(order, size / 2)))),
        ("beside 5", 1, with(ladder(&rungs(order, size / 6)), ways(size / 6))),
        ("beside 2b, 4", 1, with(ladder(&rungs(order, size / 4)), uses(size / 10))),
        ("sc and type", 3, sorted(3, classes)),
        ("years", 1, years(&rungs(order, (size / 9).min(64)), 5)),
        ("serial", 1, serial(&rungs(order, size / 5))),
        ("ring", 4, ring(f64::from(size).sqrt() as u16 - 1)),
        ("grid of 5", 1, sorted(1, ways(size / 4))),
    ]
}

/// A small book of one of these makes in any kind: years rising one by one are then degrees, or
/// combinations of sheets.
pub fn small(random: &mut Random, kind: u8) -> Vec<Row> {
    let order = random.pick(&ORDERS);
    let size = random.from_to(16, 60) as u16;
    let mut books = books(order, size);
    books.retain(|(_, of, _)| *of == kind || *of == 1);
    let at = random.below(books.len());
    let Some((_, of, mut rows)) = books.into_iter().nth(at) else {
        return Vec::new();
    };
    for (_, ann) in rows.iter_mut().filter(|_| of != kind) {
        *ann = of_years(kind, *ann);
    }
    rows
}

/// What stands in another kind for the years of a row of these books: the top for all of them, else
/// by the first of them.
fn of_years(kind: u8, years: u64) -> u64 {
    let first = years.trailing_zeros().min(63);
    match kind {
        _ if years == u64::MAX => annotation::top(kind),
        3 | 4 => 40 + 15 * u64::from(first),
        5 => with(first as usize),
        _ => years,
    }
}
