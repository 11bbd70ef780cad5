//! C-13, kind 5: two sheets that prove a line together. Each reading, and the worked examples.

mod common;
use common::*;
use trial::annotation::{and, at_most, join, judge, kind_legal, top};
use trial::question::{bytes_of, Test};
use trial::random::{self, with, Random};
use trial::steps::{self, Step};
use trial::table::{self, Lanes, Row};
use trial::{book, closing, ntriples, question};

/// A line on sheet i alone.
const SHEETS: [u64; 6] = [
    0xAAAA_AAAA_AAAA_AAAA,
    0xCCCC_CCCC_CCCC_CCCC,
    0xF0F0_F0F0_F0F0_F0F0,
    0xFF00_FF00_FF00_FF00,
    0xFFFF_0000_FFFF_0000,
    0xFFFF_FFFF_0000_0000,
];

/// Sheets 0 and 1 together.
const BOTH: u64 = 0x8888_8888_8888_8888;

const CLASS: Row = ((10, TYPE, 11), SHEETS[0]);
const WITHIN: Row = ((11, SC, 12), SHEETS[1]);

#[test]
fn kinds_are_1_3_4_5() {
    let kinds: Vec<u8> = (0..=255).filter(|kind| kind_legal(*kind)).collect();
    assert_eq!(kinds, [1, 3, 4, 5]);
    let number = |kind| book::read(&book::head(1, kind, 0), &mut Lanes::zero(1)).number;
    assert_eq!([number(2), number(5)], [4, 0]);
    assert_eq!(book::read(&book::head(1, 5, 2000), &mut Lanes::zero(1)).number, 5);
    assert_eq!(table::check(2, &Lanes::zero(1), 0).number, 4);
    assert_eq!(compiled(2, &bytes_of(&plain())), (4, 0));
}

#[test]
fn a_line_on_one_sheet_holds_the_32_combinations_with_it() {
    for (i, sheet) in SHEETS.into_iter().enumerate() {
        assert_eq!(sheet, with(1 << i));
        assert_eq!((sheet.count_ones(), judge(5, sheet)), (32, 0));
    }
    assert_eq!(and(5, SHEETS[0], SHEETS[1]), BOTH);
    assert_eq!(BOTH, with(3));
    assert_eq!(join(5, BOTH, SHEETS[2]), 0xF8F8_F8F8_F8F8_F8F8);
}

#[test]
fn the_empty_combination_is_legal_only_in_all_64_bits() {
    assert_eq!((top(5), judge(5, top(5))), (u64::MAX, 0));
    assert_eq!(judge(5, 1), 28);
    assert_eq!(judge(5, u64::MAX - 1), 0);
    assert_eq!(judge(5, u64::MAX - 2), 28);
    assert_eq!(judge(5, 0), 10);
    assert_eq!(judge(5, 1 << 63), 0);
    assert_eq!(judge(5, 2), 28);
    assert!(!at_most(5, top(5), u64::MAX - 1) && at_most(5, BOTH, SHEETS[0]));
}

/// The number of legal annotations: Dedekind's number for so many sheets, less the empty one.
#[test]
fn legal_annotations_of_four_sheets() {
    // Over sheets 0 to 3 a set repeats in every 16 bits.
    let spread = |set: u64| set | set << 16 | set << 32 | set << 48;
    let legal = (0..1u64 << 16).filter(|set| judge(5, spread(*set)) == 0).count();
    assert_eq!(legal, 167);
}

#[test]
fn and_and_join_keep_larger_and_two_always_meet() {
    let mut random = Random::new(13);
    for _ in 0..3_000 {
        let (left, right) =
            (random::annotation(&mut random, 5), random::annotation(&mut random, 5));
        assert_eq!((judge(5, left), judge(5, right)), (0, 0));
        let (both, either) = (and(5, left, right), join(5, left, right));
        assert_eq!((judge(5, both), judge(5, either)), (0, 0));
        assert!(at_most(5, both, left) && at_most(5, left, either));
        // Bit 63, all six sheets, is in both.
        assert!(both >> 63 == 1);
        // Bit by bit, they are "and" and "or".
        for k in 0..64 {
            let bit = |set: u64| set >> k & 1;
            assert_eq!((bit(both), bit(either)), (bit(left) & bit(right), bit(left) | bit(right)));
        }
    }
}

/// One sheet more at a time is enough: six masks, as a fast test would have it.
#[test]
fn six_steps_say_the_same() {
    let without = SHEETS.map(|sheet| !sheet);
    let kept = |set: u64| {
        (0..6).all(|i| {
            let low = set & without[i];
            low & set >> (1 << i) == low
        })
    };
    let mut random = Random::new(14);
    for _ in 0..20_000 {
        let set = match random.below(3) {
            0 => random::annotation(&mut random, 5),
            1 => random::bad_annotation(&mut random, 5),
            _ => random.draw(),
        };
        assert_eq!(kept(set), set == 0 || judge(5, set) == 0, "{set:x}");
    }
}

#[test]
fn two_sheets_prove_a_line_together() {
    assert_eq!(closed(5, &[CLASS, WITHIN]), [CLASS, row(10, TYPE, 12, BOTH), WITHIN]);
    let third = row(10, TYPE, 12, SHEETS[2]);
    let joined = row(10, TYPE, 12, 0xF8F8_F8F8_F8F8_F8F8);
    assert_eq!(closed(5, &[CLASS, third, WITHIN]), [CLASS, joined, WITHIN]);
}

/// 28 directly behind 10, at the same place, wherever 10 stands.
#[test]
fn twenty_eight_where_ten_stands() {
    for (ann, number) in [(0, 10), (2, 28), (1, 28), (1 << 63, 0), (u64::MAX - 1, 0)] {
        let bad = row(10, TYPE, 11, ann);
        let out = book::read(&book::bytes_of(5, 0, 1, &[bad]), &mut Lanes::zero(1));
        assert_eq!((out.number, out.place), (number, if number == 0 { 0 } else { 7 }));
        // In a row before 15, in an added triple before 12.
        let rows = [row(10, TYPE, 11, 1 << 63), bad];
        let verdict = table::check(5, &lanes(&rows, 2), 2);
        assert_eq!((verdict.number, verdict.place), (if number == 0 { 15 } else { number }, 1));
        let added = table::add(5, &mut Lanes::zero(0), 0, bad.0, ann);
        assert_eq!((added.number, added.place), (if number == 0 { 12 } else { number }, 0));
        // A TRIPLE's slot, a test's constant, and the annotation of a makers' list.
        let slot = both(plain(), triple(v(0), v(1), v(2), ca(ann)));
        let test = both(plain(), only(triple(v(0), v(1), v(2), va(1)), Test::AtLeast(1, ann)));
        assert_eq!(compiled_part(5, &slot), (number, if number == 0 { 0 } else { 24 }));
        assert_eq!(compiled_part(5, &test), (number, if number == 0 { 0 } else { 48 }));
        let mut names = old_names(9, 99);
        let out = ntriples::read_triples(5, ann, b"", &mut Lanes::zero(1), &mut names);
        assert_eq!((out.number, out.place), (number, 0));
        // In a step both are 23.
        let steps = question::flat(&triple(v(0), v(1), v(2), ca(ann)));
        let verdict = steps::check(5, &steps, 2);
        assert_eq!(verdict.number, if number == 0 { 0 } else { 23 });
        let steps = [Step::test_ann(0, ann), Step::give()];
        assert_eq!(steps::check(5, &steps, 2).number, if number == 0 { 0 } else { 23 });
    }
    // 8 and 9 come before both.
    assert_eq!(table::judge(5, row(10, 16_384, 11, 2)), 9);
    // The other kinds know no 28.
    assert_eq!((judge(1, 2), judge(3, 2), judge(4, 2)), (0, 0, 0));
}

#[test]
fn asking_for_a_combination() {
    let rows = closed(5, &[CLASS, WITHIN]);
    let table = lanes(&rows, 3);
    let asked = |ann| triple(v(0), c(TYPE), c(12), ca(ann));
    let (ran, lines) = run_part(5, (&table, 3), &asked(BOTH), 9, 9);
    assert_eq!((ran.number, ran.answers, lines[0].0[0]), (0, 1, 10));
    // Sheet 0 alone is not enough.
    assert_eq!(run_part(5, (&table, 3), &asked(SHEETS[0]), 9, 9).0.answers, 0);
    // All six are, and so is any combination with both.
    assert_eq!(run_part(5, (&table, 3), &asked(1 << 63), 9, 9).0.answers, 1);
    assert_eq!(run_part(5, (&table, 3), &asked(with(0b1011)), 9, 9).0.answers, 1);
    assert_eq!(compiled_part(5, &asked(8)), (28, 0));
}

/// Two legal annotations never have And 0: closures are larger than those of plain sets.
#[test]
fn every_pair_of_lines_gives_something() {
    let rows = [row(10, TYPE, 11, with(0b000_111)), row(11, SC, 12, with(0b111_000))];
    assert_eq!(drawn(5, &rows), [row(10, TYPE, 12, 1 << 63)]);
    assert_eq!(closing::closure(5, 1, &rows, 2), None);
}
