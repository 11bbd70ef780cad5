//! Year by year (C-20): a bit of a closure is what the plain rules draw from the lines of that bit
//! alone, and two tables whose lines of a bit agree have closures that agree there. In kind 1 a bit
//! is a year, in kind 5 a combination of sheets. In either rule set, the same on both sides.

mod common;
use common::*;
use std::collections::BTreeSet;
use trial::closing;
use trial::random::{self, closings, legal_rules, Random};
use trial::table::{self, Row, Triple};

/// The triples of a table whose annotation has this bit.
fn lines(rows: &[Row], bit: usize) -> BTreeSet<Triple> {
    rows.iter().filter(|row| row.1 >> bit & 1 == 1).map(|row| row.0).collect()
}

/// What the plain rules draw from these lines, in any number of steps: every line has the top of
/// kind 3, whose And and Join are the top again, so that no annotation says anything.
fn plain(rules: u8, lines: &BTreeSet<Triple>) -> BTreeSet<Triple> {
    let rows: Vec<Row> = lines.iter().map(|triple| (*triple, 1000)).collect();
    closing::closure(3, rules, &rows, usize::MAX).unwrap().into_iter().map(|row| row.0).collect()
}

/// Only what the closure comes to in `most` rows; a chain of 46 would take long at 64 bits each.
fn closed_within(kind: u8, rules: u8, rows: &[Row], most: usize) -> Option<Vec<Row>> {
    closing::closure(kind, rules, rows, most)
}

/// Random tables, all 64 bits of each.
#[test]
fn each_bit_of_a_closure_is_drawn_from_the_lines_of_that_bit() {
    let mut random = Random::new(20);
    let (mut tables, mut drawn) = (0, [0, 0]);
    while tables < 12_000 {
        let (kind, rules) = (random.pick(&[1, 5]), legal_rules(&mut random));
        let rows = closings::rows(&mut random, kind);
        let Some(closed) = closed_within(kind, rules, &rows, 150) else {
            continue;
        };
        tables += 1;
        for bit in 0..64 {
            let (lines, there) = (lines(&rows, bit), lines(&closed, bit));
            drawn[usize::from(rules) - 1] += usize::from(there.len() > lines.len());
            assert_eq!(there, plain(rules, &lines), "bit {bit}, rule set {rules}, {rows:?}");
        }
    }
    assert!(drawn.iter().all(|drawn| *drawn > 30_000), "{drawn:?}");
}

/// A table with the same lines at a bit, which may be another bit of it, and anything elsewhere.
fn alike_at(random: &mut Random, rows: &[Row], bit: usize, other_bit: usize) -> Vec<Row> {
    let mut map = std::collections::BTreeMap::new();
    for row in closings::rows(random, 1) {
        map.insert(row.0, row.1 & !(1 << other_bit));
    }
    for triple in lines(rows, bit) {
        *map.entry(triple).or_insert(0) |= 1 << other_bit;
    }
    map.into_iter().filter(|row| row.1 != 0).collect()
}

#[test]
fn tables_that_agree_on_a_year_close_to_tables_that_agree_on_it() {
    let mut random = Random::new(21);
    let (mut pairs, mut differ) = (0, 0);
    while pairs < 5_000 {
        let rows = closings::rows(&mut random, 1);
        let (bit, other_bit) = (random.below(9), random.below(64));
        let rules = legal_rules(&mut random);
        let others = alike_at(&mut random, &rows, bit, other_bit);
        let (Some(one), Some(other)) =
            (closed_within(1, rules, &rows, 300), closed_within(1, rules, &others, 300))
        else {
            continue;
        };
        pairs += 1;
        differ += usize::from(one != other);
        assert_eq!(
            lines(&one, bit),
            lines(&other, other_bit),
            "{bit}, {other_bit}, {rows:?}, {others:?}"
        );
    }
    assert!(differ > 3_000, "{differ}");
}

/// A line that is not of a year changes nothing in it.
#[test]
fn a_line_of_other_years_leaves_a_year_as_it_is() {
    let mut random = Random::new(22);
    for _ in 0..1_000 {
        let rows = closings::rows(&mut random, 1);
        let (bit, rules) = (random.below(9), legal_rules(&mut random));
        let (triple, ann) = random::row(&mut random, 1);
        let Some(before) = closed_within(1, rules, &rows, 300) else {
            continue;
        };
        let mut map = rows.iter().copied().collect();
        table::join_in(1, &mut map, (triple, ann & !(1 << bit)));
        let more: Vec<Row> = map.into_iter().filter(|row| row.1 != 0).collect();
        if let Some(after) = closed_within(1, rules, &more, 300) {
            assert_eq!(lines(&before, bit), lines(&after, bit));
        }
    }
}

#[test]
fn p1_holds_its_third_row_in_2005_and_2006() {
    let rows = [row(10, TYPE, 11, 120), row(11, SC, 12, 2016)];
    for bit in 0..64 {
        for rules in [1, 2] {
            let drawn = plain(rules, &lines(&rows, bit));
            assert_eq!(drawn.contains(&(10, TYPE, 12)), bit == 5 || bit == 6);
        }
    }
    assert_eq!(closed(1, &rows), P1_CLOSED);
    // In rule set 2 the class 11 is within itself in the years of either line, and only there.
    for bit in 0..64 {
        let drawn = plain(2, &lines(&rows, bit));
        assert_eq!(drawn.contains(&(11, SC, 11)), (3..=10).contains(&bit));
        assert_eq!(drawn.contains(&(TYPE, SP, TYPE)), (3..=6).contains(&bit));
    }
}

#[test]
fn another_table_agrees_with_p1_in_2005_and_differs_in_2006() {
    let rows = [row(10, TYPE, 11, 32), row(10, TYPE, 99, 64), row(11, SC, 12, 32)];
    let other = closed(1, &rows);
    let there = BTreeSet::from([(10, TYPE, 11), (10, TYPE, 12), (11, SC, 12)]);
    assert_eq!(lines(&P1_CLOSED, 5), there);
    assert_eq!(lines(&other, 5), there);
    assert_ne!(lines(&P1_CLOSED, 6), lines(&other, 6));
}

/// Two combinations, of which only the larger has both lines.
#[test]
fn two_sheets_together_and_one_alone() {
    let rows = [row(10, TYPE, 11, random::with(1)), row(11, SC, 12, random::with(2))];
    let closed = closed(5, &rows);
    assert!(lines(&closed, 3).contains(&(10, TYPE, 12)));
    assert_eq!(lines(&closed, 1), BTreeSet::from([(10, TYPE, 11)]));
}

/// One step is not enough.
#[test]
fn two_steps_of_one_year() {
    let rows = [row(5, SC, 6, 1), row(6, SC, 7, 1), row(10, TYPE, 5, 1)];
    assert!(lines(&closed(1, &rows), 0).contains(&(10, TYPE, 7)));
    let once: Vec<Triple> = closing::conclusions(1, 1, &rows).iter().map(|row| row.0).collect();
    assert!(!once.contains(&(10, TYPE, 7)));
}

/// A line of 2012 can take the room that 2006 needed: hence "if both closures fit".
#[test]
fn a_line_of_another_year_can_be_one_row_too_many() {
    let rows = [row(10, TYPE, 11, 120), row(11, SC, 12, 2016)];
    let more = [row(10, TYPE, 11, 120), row(10, TYPE, 99, 1 << 12), row(11, SC, 12, 2016)];
    assert_eq!(closing::close(1, 1, &mut lanes(&rows, 3), 2).number, 0);
    assert_eq!(closing::close(1, 1, &mut lanes(&more, 3), 3).number, 12);
}
