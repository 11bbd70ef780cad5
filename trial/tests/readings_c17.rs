//! C-17: term 49,152 + m is the value m milliamps, 0 to 16,382; 65,535 alone is not legal.

mod common;
use common::*;
use trial::ntriples::write_triples;
use trial::question::{bytes_of, Test};
use trial::steps::{self, Step};
use trial::table::{self, Lanes};
use trial::{book, programs, term};

const UNBOUND: u16 = 65_535;

fn milliamps(value: u16) -> u16 {
    49_152 + value
}

/// The terms' bytes in a field at byte 7 of a book of kind 3: number and place, and the rows read.
fn read(terms: [u8; 6], ann: u64) -> (u32, u64, Vec<table::Row>) {
    let head = [1, 0, 4, 1, 3, 0, 0];
    let bytes = [&head[..], &[3, 0, 14], &terms, &ann.to_be_bytes()].concat();
    let mut lanes = Lanes::zero(8);
    let out = book::read(&bytes, &mut lanes);
    (out.number, out.place, table::rows(&lanes, out.count))
}

#[test]
fn one_term_is_not_legal() {
    let illegal: Vec<u16> = (0..=65_535).filter(|number| !term::legal(*number)).collect();
    assert_eq!(illegal, [UNBOUND]);
    assert_eq!((milliamps(0), milliamps(16_382)), (49_152, 65_534));
}

#[test]
fn books() {
    let done = |row| (0, 0, vec![row]);
    let limit = read([0x00, 0x0A, 0x00, 0x14, 0xC1, 0xF4], 800);
    assert_eq!(limit, done(row(10, 20, milliamps(500), 800)));
    let ends = read([0xFF, 0xFE, 0x00, 0x14, 0xC0, 0x00], 800);
    assert_eq!(ends, done(row(milliamps(16_382), 20, milliamps(0), 800)));
    assert_eq!(read([0x00, 0x0A, 0xC0, 0x00, 0xFF, 0xFF], 800), (9, 7, vec![]));
    assert_eq!(read([0x00, 0x0A, 0xFF, 0xFF, 0x00, 0x0B], 800), (8, 7, vec![]));
    assert_eq!(read([0x00, 0x0A, 0x00, 0x14, 0xFF, 0xFF], 0), (8, 7, vec![]));
}

#[test]
fn tables_and_adding() {
    for (bad, number) in [
        (row(10, milliamps(0), UNBOUND, 800), 8),
        (row(10, milliamps(0), 11, 800), 9),
        (row(10, UNBOUND, 11, 800), 8),
        (row(UNBOUND, 20, 11, 0), 8),
        (row(milliamps(0), 20, milliamps(16_382), 800), 0),
    ] {
        assert_eq!(table::check(3, &lanes(&[bad], 1), 1).number, number, "{bad:?}");
        assert_eq!(table::add(3, &mut Lanes::zero(1), 0, bad.0, bad.1).number, number, "{bad:?}");
    }
}

#[test]
fn rules_treat_a_value_as_any_term() {
    let ranged = [row(20, RANGE, 12, 900), row(10, 20, milliamps(500), 800)];
    assert_eq!(drawn(3, &ranged), [row(milliamps(500), TYPE, 12, 800)]);
    // P7 through a value.
    let value = milliamps(0);
    let through = [row(20, SP, value, 1000), row(value, DOM, 12, 900), row(10, 20, 30, 800)];
    assert_eq!(drawn(3, &through), [row(10, TYPE, 12, 800)]);
    // 2a passes through a value, 2b does not end in one.
    let chain = [row(20, SP, value, 1000), row(value, SP, 21, 900), row(10, 20, 30, 800)];
    assert_eq!(drawn(3, &chain), [row(10, 21, 30, 800), row(20, SP, 21, 900)]);
    let text = "closed 3 0 3\n10 20 49652 800\n20 4 12 900\n49652 2 12 800\n";
    assert_eq!(programs::close_book_program(&book::bytes_of(3, 0, 1, &ranged)), text);
}

#[test]
fn questions_and_steps() {
    let unequal = |value| only(plain(), Test::Unequal(v(0), c(value)));
    assert_eq!(compiled(3, &bytes_of(&unequal(UNBOUND))), (8, 24));
    assert_eq!(compiled(3, &bytes_of(&unequal(milliamps(500)))), (0, 0));
    assert_eq!(compiled_part(3, &triple(c(milliamps(1)), c(20), c(milliamps(2)), va(0))), (0, 0));
    assert_eq!(compiled_part(3, &triple(v(0), c(milliamps(1)), v(1), va(0))), (9, 0));
    assert_eq!(compiled_part(3, &triple(v(0), c(UNBOUND), v(1), va(0))), (8, 0));
    let listed = |value| {
        let test = Step::test_terms(1, v(0), c(value));
        steps::check(3, &[trial::question::flat(&plain())[0], test, Step::give()], 3)
    };
    assert_eq!((listed(UNBOUND).number, listed(UNBOUND).place), (23, 1));
    assert!(listed(milliamps(500)).done());
}

/// What limits has lamp 10? Its row's value is the answer, and a test can ask for it.
#[test]
fn a_limit_is_asked_for() {
    let rows = [row(10, 20, 32_768, 800), row(10, 20, milliamps(500), 800)];
    let table = lanes(&rows, 2);
    let asked = triple(c(10), c(20), v(0), va(0));
    let (ran, lines) = run_part(3, (&table, 2), &asked, 9, 9);
    assert_eq!((ran.number, ran.answers, ran.looks), (0, 2, 2));
    assert_eq!([lines[0].0[0], lines[1].0[0]], [32_768, milliamps(500)]);
    let (ran, lines) =
        run_part(3, (&table, 2), &only(asked, Test::Equal(v(0), c(milliamps(500)))), 9, 9);
    assert_eq!((ran.answers, lines[0].0[0]), (1, milliamps(500)));
}

/// A value has no text, whatever the list says of its number.
#[test]
fn makers_lists_have_no_values() {
    let names = names_of(&[(5, "m:a"), (6, "m:p"), (milliamps(500), "m:v")]);
    for (rows, place) in [
        (vec![row(5, 6, milliamps(500), 1)], 0),
        (vec![row(5, 6, 5, 1), row(milliamps(500), 6, 5, 1)], 1),
    ] {
        let mut out = vec![7; 99];
        let written = write_triples(3, &lanes(&rows, 2), rows.len(), &names, 3, &mut out);
        assert_eq!((written.number, written.place, written.length), (39, place, 0));
        assert_eq!(out, [7; 99]);
    }
}
