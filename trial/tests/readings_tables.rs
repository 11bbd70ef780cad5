//! The readings under "Terms, tables, adding, writing", in their order.

mod common;
use common::*;
use trial::table::{self, Lanes, Row};
use trial::{annotation, book, closing};

const BLANK: u16 = 16_384;
const BAD: u16 = 65_535;

fn check(kind: u8, rows: &[Row]) -> (u32, u64) {
    let verdict = table::check(kind, &lanes(rows, rows.len()), rows.len());
    (verdict.number, verdict.place)
}

fn add(kind: u8, rows: &[Row], room: usize, new: Row) -> (u32, u64, usize, Lanes) {
    let mut table = lanes(rows, room);
    let added = table::add(kind, &mut table, rows.len(), new.0, new.1);
    (added.number, added.place, added.count, table)
}

#[test]
fn a_row_is_judged_by_number() {
    let good = row(1, 1, 1, 1);
    for (bad, number) in [
        (row(BAD, BLANK, 5, 0), 8),
        (row(5, BLANK, BAD, 0), 8),
        (row(5, BAD, 5, 0), 8),
        (row(5, BLANK, 5, 0), 9),
        (row(5, 32_768, 5, 1), 9),
        (row(5, 5, 5, 0), 10),
        // Below the row before as well: 15 comes last.
        (row(0, BLANK, BAD, 0), 8),
        (row(0, BLANK, 0, 0), 9),
        (row(0, 0, 0, 0), 10),
        (row(0, 0, 0, 1), 15),
    ] {
        assert_eq!(check(1, &[good, bad]), (number, 1), "{bad:?}");
        if number != 15 {
            assert_eq!(add(1, &[good], 2, bad), (number, 0, 1, lanes(&[good], 2)), "{bad:?}");
        }
    }
}

#[test]
fn a_books_triple_is_judged_in_byte_order() {
    for (bad, number, in_table) in [
        (row(5, BLANK, BAD, 0), 9, 8),
        (row(BAD, BLANK, BAD, 0), 8, 8),
        (row(5, BAD, 5, 0), 8, 8),
        (row(5, 5, BAD, 0), 8, 8),
        (row(5, 5, 5, 0), 10, 10),
    ] {
        let out = book::read(&book::bytes_of(5, 0, 1, &[bad]), &mut Lanes::zero(4));
        assert_eq!((out.number, out.place), (number, 7), "{bad:?}");
        assert_eq!(check(5, &[bad]), (in_table, 0), "{bad:?}");
    }
}

#[test]
fn any_year_set_but_the_empty_one_is_legal_and_strict_degrees_meet_in_nothing() {
    assert!(annotation::legal(1, 1) && annotation::legal(1, u64::MAX));
    assert!(annotation::legal(1, 1 << 63) && !annotation::legal(1, 0));
    // Base year 2100 and bit 63 would name 2163.
    let bytes = book::bytes_of(1, 2100, 1, &[row(5, 5, 5, 1 << 63)]);
    assert_eq!(book::read(&bytes, &mut Lanes::zero(1)).number, 0);
    for kind in [3, 4] {
        assert!(annotation::legal(kind, 1) && annotation::legal(kind, 1000));
        assert!(!annotation::legal(kind, 0) && !annotation::legal(kind, 1001));
    }
    assert_eq!(annotation::and(4, 400, 600), 0);
    assert_eq!(annotation::and(4, 401, 600), 1);
    assert_eq!(annotation::and(4, 1, 1), 0);
}

#[test]
fn the_table_check_goes_4_11_14_rows() {
    let bad = lanes(&[row(BAD, BAD, BAD, 0)], 1);
    let mut unequal = bad.clone();
    unequal.ann.push(1);
    let verdict = |kind, lanes: &Lanes, count| {
        let verdict = table::check(kind, lanes, count);
        (verdict.number, verdict.place)
    };
    for kind in [0, 2, 6, 255] {
        assert_eq!(verdict(kind, &unequal, 9), (4, 0));
    }
    assert_eq!(verdict(1, &unequal, 9), (11, 0));
    assert_eq!(verdict(1, &Lanes::zero(1025), 2000), (11, 0));
    assert_eq!(verdict(1, &bad, 2), (14, 0));
    assert_eq!(verdict(1, &bad, usize::MAX), (14, 0));
    assert_eq!(verdict(1, &bad, 1), (8, 0));
    // Past the count nothing is looked at.
    assert_eq!(verdict(1, &bad, 0), (0, 0));
    assert_eq!(verdict(1, &Lanes::zero(1024), 0), (0, 0));
    // An equal triple is 15, whatever its annotation; row 0 never is.
    assert_eq!(check(1, &[row(0, 0, 0, 1), row(0, 0, 0, 2)]), (15, 1));
    assert_eq!(check(1, &[row(0, 0, 0, 1)]), (0, 0));
    // Row by row: a lower row's 15 before a higher row's 8.
    assert_eq!(check(1, &[row(1, 0, 0, 1), row(0, 0, 0, 1), row(BAD, 0, 0, 1)]), (15, 1));
}

#[test]
fn room_0() {
    let mut none = Lanes::zero(0);
    assert_eq!(table::check(1, &none, 0), table::Verdict::DONE);
    let out = book::read(&book::head(1, 1, 2000), &mut none);
    assert_eq!((out.number, out.kind, out.base, out.count), (0, 1, 2000, 0));
    let out = book::read(&P1, &mut none);
    assert_eq!((out.number, out.place, out.kind), (12, 7, 0));
    let out = closing::close(1, 1, &mut none, 0);
    assert_eq!((out.number, out.count), (0, 0));
    assert_eq!(add(1, &[], 0, row(5, 5, 5, 1)), (12, 0, 0, none));
}

#[test]
fn an_equal_triple_joins_on_a_full_table() {
    let old = row(5, 5, 5, 1);
    assert_eq!(add(1, &[old], 1, row(5, 5, 5, 6)), (0, 0, 1, lanes(&[row(5, 5, 5, 7)], 1)));
    assert_eq!(add(1, &[old], 1, row(5, 5, 6, 6)), (12, 0, 1, lanes(&[old], 1)));
    // A join that changes nothing is done.
    assert_eq!(add(1, &[old], 1, old), (0, 0, 1, lanes(&[old], 1)));
    let bytes = book::bytes_of(1, 2000, 1, &[old, old, row(5, 5, 5, 6)]);
    let mut table = Lanes::zero(1);
    assert_eq!(book::read(&bytes, &mut table).number, 0);
    assert_eq!(table.ann, [7]);
}

#[test]
fn adding_puts_the_row_in_its_place_and_touches_none_past_the_new_count() {
    let mut table = lanes(&[row(1, 1, 1, 1), row(9, 1, 1, 1), row(BAD, BAD, BAD, 9)], 4);
    table.put(3, row(BAD, 7, 7, 7));
    let added = table::add(1, &mut table, 2, (5, 1, 1), 2);
    assert_eq!((added.number, added.place, added.count), (0, 0, 3));
    let rows = [row(1, 1, 1, 1), row(5, 1, 1, 2), row(9, 1, 1, 1), row(BAD, 7, 7, 7)];
    assert_eq!(table::rows(&table, 4), rows);
}

#[test]
fn adding_refused_by_the_table_has_the_tables_place() {
    let broken = [row(1, 1, 1, 1), row(1, 1, 1, 1)];
    assert_eq!(add(1, &broken, 2, row(BAD, 1, 1, 0)), (15, 1, 2, lanes(&broken, 2)));
    assert_eq!(add(1, &broken[..1], 1, row(BAD, 1, 1, 0)).0, 8);
    assert_eq!(add(7, &broken, 2, row(BAD, 1, 1, 0)).0, 4);
    let mut few = lanes(&broken[..1], 1);
    let added = table::add(1, &mut few, 3, (1, 1, 1), 1);
    assert_eq!((added.number, added.place, added.count), (14, 0, 3));
}

#[test]
fn writing_needs_7_and_17_a_row() {
    let table = lanes(&P1_CLOSED, 5);
    for (room, number, length) in
        [(0, 12, 0), (57, 12, 0), (58, 0, 58), (59, 0, 58), (70_000, 0, 58)]
    {
        let mut out = vec![9; room];
        let written = book::write(1, 2000, 1, &table, 3, &mut out);
        assert_eq!((written.number, written.place, written.length), (number, 0, length));
        assert!(out[length..].iter().all(|byte| *byte == 9));
    }
    let mut out = vec![9; 7];
    assert_eq!(book::write(3, 0, 1, &table, 0, &mut out).length, 7);
    assert_eq!(out, [1, 0, 4, 1, 3, 0, 0]);
    // 4, 5, table, 12.
    let mut broken = table.clone();
    broken.subj[1] = BAD;
    let number = |kind, base, lanes: &Lanes, count| {
        let written = book::write(kind, base, 1, lanes, count, &mut []);
        (written.number, written.place)
    };
    assert_eq!(number(0, 7, &broken, 9), (4, 0));
    assert_eq!(number(2, 0, &broken, 9), (4, 0));
    assert_eq!(number(1, 1899, &broken, 9), (5, 0));
    assert_eq!(number(5, 2000, &broken, 9), (5, 0));
    assert_eq!(number(1, 2000, &Lanes::zero(1025), 9), (11, 0));
    assert_eq!(number(1, 2000, &broken, 9), (14, 0));
    assert_eq!(number(1, 2000, &broken, 3), (8, 1));
    assert_eq!(number(1, 2000, &table, 3), (12, 0));
}

#[test]
fn closing_refused_by_the_table_changes_nothing() {
    // Closing reads no base year: none is handed to it.
    let mut table = lanes(&[row(1, 1, 1, 1), row(1, 1, 1, 1)], 3);
    let before = table.clone();
    for (kind, count, number, place) in [(0, 2, 4, 0), (1, 4, 14, 0), (1, 2, 15, 1)] {
        let out = closing::close(kind, 1, &mut table, count);
        assert_eq!((out.number, out.place, out.count), (number, place, count));
        assert_eq!(table, before);
    }
}

#[test]
fn a_table_written_as_a_book_reads_back() {
    let mut random = trial::random::Random::new(4);
    for _ in 0..200 {
        let kind = trial::random::legal_kind(&mut random);
        let (table, count) = trial::random::tables::sound(&mut random, kind);
        let base = trial::random::books::base(&mut random, kind);
        let rules = trial::random::legal_rules(&mut random);
        let mut out = vec![0; 6 + usize::from(rules) + 17 * count];
        let written = book::write(kind, base, rules, &table, count, &mut out);
        assert_eq!((written.number, written.length), (0, out.len()));
        let mut again = Lanes::zero(count);
        let read = book::read(&out, &mut again);
        assert_eq!((read.number, read.kind, read.base, read.count), (0, kind, base, count));
        assert_eq!(read.rules, rules);
        assert_eq!(table::rows(&again, count), table::rows(&table, count));
    }
}

#[test]
fn the_laws_of_the_kinds() {
    let mut random = trial::random::Random::new(5);
    for _ in 0..4000 {
        let kind = trial::random::legal_kind(&mut random);
        let mut one = || trial::random::annotation(&mut random, kind);
        let (a, b, c) = (one(), one(), one());
        let and = |a, b| annotation::and(kind, a, b);
        let join = |a, b| annotation::join(kind, a, b);
        assert_eq!((and(a, b), join(a, b)), (and(b, a), join(b, a)));
        assert_eq!(and(and(a, b), c), and(a, and(b, c)));
        assert_eq!(join(join(a, b), c), join(a, join(b, c)));
        assert_eq!(and(a, join(b, c)), join(and(a, b), and(a, c)));
        assert_eq!((and(a, 0), join(a, 0)), (0, a));
        let top = annotation::top(kind);
        assert_eq!((and(a, top), join(a, top)), (a, top));
        assert_eq!(annotation::at_most(kind, a, b), join(a, b) == b);
    }
}
