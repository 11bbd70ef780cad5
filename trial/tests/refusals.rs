//! Every number of the document's list, once, with its place.

mod common;
use common::*;
use trial::question::{self, bytes_of, field, Test};
use trial::steps::{self, Step};
use trial::table::{self, Lanes, Row};
use trial::{book, closing};

const BAD: u16 = 65_535;

fn read(bytes: &[u8], room: usize) -> (u32, u64) {
    let out = book::read(bytes, &mut Lanes::zero(room));
    (out.number, out.place)
}

fn check(kind: u8, rows: &[Row], room: usize, count: usize) -> (u32, u64) {
    let verdict = table::check(kind, &lanes(rows, room), count);
    (verdict.number, verdict.place)
}

/// P1's head and first row, then this field.
fn after_a_row(field: &[u8]) -> Vec<u8> {
    [&P1[..24], field].concat()
}

#[test]
fn numbers_1_to_7_of_books() {
    assert_eq!(read(&P1[..30], 9), (1, 24));
    assert_eq!(read(&[], 9), (2, 0));
    assert_eq!(read(&after_a_row(&P1[..7]), 9), (2, 24));
    assert_eq!(read(&book::head(3, 1, 2000), 9), (3, 0));
    assert_eq!(read(&book::head(1, 2, 0), 9), (4, 0));
    assert_eq!(read(&book::head(1, 1, 2101), 9), (5, 0));
    assert_eq!(read(&after_a_row(&[2, 0, 0]), 9), (6, 24));
    assert_eq!(read(&after_a_row(&[3, 0, 0]), 9), (7, 24));
}

#[test]
fn number_36_of_books_closing_and_writing() {
    assert_eq!(read(&book::long_head(2, 1, 2000, 3), 9), (36, 0));
    assert_eq!(closing::close(1, 3, &mut lanes(&P1_CLOSED, 3), 3).number, 36);
    assert_eq!(book::write(1, 2000, 3, &lanes(&P1_CLOSED, 3), 3, &mut [0; 99]).number, 36);
}

#[test]
fn numbers_8_to_15_of_books_and_tables() {
    let good = row(5, 5, 5, 1);
    for (bad, number) in [(row(BAD, 5, 5, 1), 8), (row(6, 16_384, 5, 1), 9), (row(6, 5, 5, 0), 10)]
    {
        assert_eq!(read(&after_a_row(&book::triple_field(bad)), 9), (number, 24));
        assert_eq!(check(1, &[good, bad], 2, 2), (number, 1));
        let added = table::add(1, &mut lanes(&[good], 2), 1, bad.0, bad.1);
        assert_eq!((added.number, added.place), (number, 0));
    }
    assert_eq!(check(9, &[good], 1, 1), (4, 0));
    assert_eq!(check(1, &[], 1025, 0), (11, 0));
    assert_eq!(read(&P1, 1025), (11, 0));
    assert_eq!(read(&P1, 1), (12, 24));
    assert_eq!(closing::close(1, 1, &mut lanes(&[P1_CLOSED[0], P1_CLOSED[2]], 2), 2).number, 12);
    assert_eq!(read(&vec![1; 65_536], 9), (13, 0));
    assert_eq!(check(1, &[good], 1, 2), (14, 0));
    assert_eq!(check(1, &[good, good], 2, 2), (15, 1));
}

#[test]
fn numbers_16_to_22_of_questions() {
    let second = |right: &[u8]| compiled(1, &field(17, &[&bytes_of(&plain()), right].concat()));
    assert_eq!(second(&[]), (16, 24));
    assert_eq!(second(&[99, 0, 0]), (17, 24));
    assert_eq!(second(&[16, 0, 0]), (18, 24));
    assert_eq!(second(&bytes_of(&triple(v(16), v(0), v(0), va(0)))), (19, 24));
    let mut deep = Vec::new();
    (0..40).for_each(|_| deep = field(19, &deep));
    assert_eq!(compiled(1, &deep), (20, 96));
    assert_eq!(second(&bytes_of(&only(plain(), Test::Equal(v(3), v(3))))), (21, 24));
    assert_eq!(second(&bytes_of(&only(plain(), Test::AtLeast(0, 1)))), (22, 24));
    assert_eq!(second(&bytes_of(&triple(v(0), v(0), c(BAD), va(0)))), (8, 24));
    assert_eq!(second(&bytes_of(&triple(v(0), c(16_384), v(0), va(0)))), (9, 24));
    assert_eq!(second(&bytes_of(&triple(v(0), v(0), v(0), ca(0)))), (10, 24));
    let mut records = vec![Step::default(); 47];
    assert_eq!(question::compile(1, &bytes_of(&plain()), &mut records).number, 11);
}

#[test]
fn numbers_11_12_23_and_24_of_runs() {
    let table = lanes(&P1_CLOSED, 3);
    let list = question::flat(&plain());
    let run = |steps: &[Step], allowed, room: usize, extra: usize| {
        let (mut terms, mut anns) = (vec![0; 16 * room + extra], vec![0; 8 * room]);
        let count = steps.len();
        let ran = steps::run(1, &table, 3, steps, count, allowed, &mut terms, &mut anns);
        (ran.number, ran.place, ran.answers, ran.looks)
    };
    assert_eq!(run(&list, 9, 3, 0), (0, 0, 3, 3));
    assert_eq!(run(&list, 9, 3, 1), (11, 0, 0, 0));
    assert_eq!(run(&list, 9, 2, 0), (12, 0, 2, 3));
    assert_eq!(run(&[], 9, 2, 0), (23, 0, 0, 0));
    assert_eq!(run(&[list[0], list[0]], 9, 2, 0), (23, 1, 0, 0));
    assert_eq!(run(&list, 2, 3, 0), (24, 0, 2, 2));
}
