//! The bench examples P1 to P12, and those that are run only.

mod common;
use common::*;
use trial::{annotation, book, closing, export, programs, table::Lanes};

fn p11() -> trial::question::Part {
    both(triple(v(0), c(TYPE), c(11), va(0)), triple(v(0), c(TYPE), c(12), va(0)))
}

#[test]
fn p1_the_listing() {
    let text = "closed 1 2000 3\n10 2 11 120\n10 2 12 96\n11 1 12 2016\n";
    assert_eq!(programs::close_book_program(&P1), text);
}

#[test]
fn p2_equal_triples_join_and_no_gap_is_filled() {
    let rows = [row(10, TYPE, 11, 7), row(10, TYPE, 11, 224)];
    assert_eq!(closed(1, &rows), [row(10, TYPE, 11, 231)]);
    let mut read = Lanes::zero(4);
    let out = book::read(&book::bytes_of(1, 2000, 1, &rows), &mut read);
    assert_eq!((out.number, out.count, read.ann[0]), (0, 1, 231));
}

#[test]
fn p3_no_year_in_common_draws_nothing() {
    assert_eq!(drawn(1, &[row(10, TYPE, 11, 7), row(11, SC, 12, 224)]), []);
}

#[test]
fn p4_degrees_and_strict_degrees() {
    let rows = [row(10, TYPE, 11, 700), row(11, SC, 12, 500)];
    assert_eq!(drawn(3, &rows), [row(10, TYPE, 12, 500)]);
    assert_eq!(drawn(4, &rows), [row(10, TYPE, 12, 200)]);
}

#[test]
fn p5_a_strict_degree_of_exactly_nothing() {
    assert_eq!(drawn(4, &[row(10, TYPE, 11, 400), row(11, SC, 12, 600)]), []);
}

#[test]
fn p6_two_ways_join() {
    let rows = [
        row(10, TYPE, 11, 900),
        row(11, SC, 12, 800),
        row(10, TYPE, 13, 1000),
        row(13, SC, 12, 600),
    ];
    assert_eq!(drawn(4, &rows), [row(10, TYPE, 12, 700)]);
}

#[test]
fn p7_rule_5_by_way_of_a_blank() {
    let rows = [row(20, SP, 16384, 1000), row(16384, DOM, 12, 900), row(10, 20, 30, 800)];
    assert_eq!(drawn(3, &rows), [row(10, TYPE, 12, 800)]);
}

#[test]
fn p8_sp_as_a_property() {
    for kind in [1, 3, 4, 5] {
        let top = annotation::top(kind);
        let rows = [row(0, SP, 40, top), row(20, SP, 21, top)];
        assert_eq!(drawn(kind, &rows), [row(0, 40, 40, top), row(20, 40, 21, top)]);
    }
}

#[test]
fn p9_a_ring_of_classes() {
    let rows = [row(5, SC, 6, 600), row(6, SC, 5, 400)];
    assert_eq!(drawn(3, &rows), [row(5, SC, 5, 400), row(6, SC, 6, 400)]);
}

#[test]
fn p10_a_literal_gets_a_type() {
    for kind in [1, 3, 4, 5] {
        let top = annotation::top(kind);
        let rows = [row(20, RANGE, 12, top), row(10, 20, 32769, top)];
        assert_eq!(drawn(kind, &rows), [row(32769, TYPE, 12, top)]);
    }
}

#[test]
fn p11_one_answer_and_six_looks() {
    let table = lanes(&P1_CLOSED, 3);
    let (ran, lines) = run_part(1, (&table, 3), &p11(), u32::MAX, 256);
    assert_eq!((ran.number, ran.place, ran.answers, ran.looks), (0, 0, 1, 6));
    let mut terms = [65_535; 16];
    terms[0] = 10;
    assert_eq!(lines, [(terms, [96, 0, 0, 0, 0, 0, 0, 0])]);
}

#[test]
fn p12_looks_used_up() {
    let table = lanes(&P1_CLOSED, 3);
    let (ran, _) = run_part(1, (&table, 3), &p11(), 3, 256);
    assert_eq!((ran.number, ran.answers, ran.looks), (24, 1, 3));
    let (ran, _) = run_part(1, (&table, 3), &p11(), 2, 256);
    assert_eq!((ran.number, ran.answers, ran.looks), (24, 0, 2));
}

#[test]
fn room_2_for_p1_is_12() {
    let mut table = Lanes::zero(2);
    let read = book::read(&P1, &mut table);
    assert_eq!((read.number, read.kind, read.base, read.count), (0, 1, 2000, 2));
    let out = closing::close(1, 1, &mut table, 2);
    assert_eq!((out.number, out.place, out.count), (12, 0, 0));
    assert_eq!(table, Lanes::zero(2));
}

#[test]
fn forty_bytes_of_p1_is_1_at_24() {
    let mut table = lanes(&P1_CLOSED, 3);
    let out = book::read(&P1[..40], &mut table);
    assert_eq!((out.number, out.place, out.kind, out.base, out.count), (1, 24, 0, 0, 0));
    assert_eq!(table, Lanes::zero(3));
    assert_eq!(export::close_book(&P1[..40], &mut [0; 100]), (1 << 32) + 24);
}

#[test]
fn thirty_two_parts_pass_and_33_do_not() {
    // An ONLY around a part makes the number even or odd.
    let mut part = plain();
    for _ in 0..15 {
        part = both(part, plain());
    }
    assert_eq!((part.parts(), compiled_part(1, &part)), (31, (0, 0)));
    let equal = trial::question::Test::Equal(v(0), v(1));
    let part = only(part, equal);
    assert_eq!((part.parts(), compiled_part(1, &part)), (32, (0, 0)));
    let part = only(part, equal);
    // The last part met is the innermost right TRIPLE: 21 bytes and two tests before the end.
    let bytes = trial::question::bytes_of(&part);
    let place = bytes.len() as u64 - 21 - 20;
    assert_eq!((part.parts(), compiled(1, &bytes)), (33, (20, place)));
}
