//! The readings under "Books", in their order, and each number a book is refused with.

mod common;
use common::*;
use trial::book::{self, ReadOut};
use trial::table::{Lanes, Row};

const BAD: u16 = 65_535;

/// Reads into eight lanes of old rows, and sees to what is left behind.
fn read(bytes: &[u8]) -> ReadOut {
    let old = lanes(&[row(BAD, BAD, BAD, 1); 8], 8);
    let mut table = old.clone();
    let out = book::read(bytes, &mut table);
    match out.number {
        0 => {}
        11 | 13 => assert_eq!(table, old),
        _ => assert_eq!(table, Lanes::zero(8)),
    }
    if out.number != 0 {
        assert_eq!((out.kind, out.base, out.rules, out.count), (0, 0, 0, 0));
    }
    out
}

fn number(bytes: &[u8]) -> (u32, u64) {
    let out = read(bytes);
    (out.number, out.place)
}

/// A head of kind 3, then these fields.
fn with_head(fields: &[&[u8]]) -> Vec<u8> {
    [&book::head(1, 3, 0)[..], &fields.concat()].concat()
}

fn good() -> Vec<u8> {
    book::triple_field(row(5, 5, 5, 1))
}

#[test]
fn empty_and_cut_books() {
    assert_eq!(number(&[]), (2, 0));
    for bytes in [&[1][..], &[1, 0], &[3], &[9, 9], &[1, 0, 4, 1, 1, 7], &[9, 0, 1]] {
        assert_eq!(number(bytes), (1, 0), "{bytes:?}");
    }
    // Cut is judged before the tag and the length, whatever they are.
    for field in [&[9][..], &[1, 0], &[9, 0, 4, 0], &[3, 0, 13, 0], &[1, 255, 255]] {
        assert_eq!(number(&with_head(&[&good(), field])), (1, 24), "{field:?}");
    }
    assert_eq!(number(&[1, 255, 255, 1, 1, 7, 0xD0]), (1, 0));
}

#[test]
fn heads() {
    for tag in [0, 2, 3, 16, 255] {
        assert_eq!(number(&[tag, 0, 4, 1, 1, 7, 0xD0]), (2, 0));
    }
    assert_eq!(number(&good()), (2, 0));
    for bytes in [&[1, 0, 0][..], &[1, 0, 3, 1, 1, 7], &[1, 0, 5, 1, 1, 7, 0xD0, 0]] {
        assert_eq!(number(bytes), (2, 0));
    }
    // A second head, whatever its length.
    for head in [
        &[1, 0, 4, 1, 2, 0, 0][..],
        &[1, 0, 0],
        &[1, 0, 14, 0, 5, 0, 5, 0, 5, 0, 0, 0, 0, 0, 0, 0, 1],
    ] {
        assert_eq!(number(&with_head(&[&good(), head])), (2, 24));
    }
}

#[test]
fn tags_and_lengths_after_the_head() {
    for tag in [0, 2, 4, 16, 255] {
        assert_eq!(number(&with_head(&[&good(), &[tag, 0, 2, 0, 0]])), (6, 24));
        assert_eq!(number(&with_head(&[&[tag, 0, 0]])), (6, 7));
    }
    for length in [0, 13, 15] {
        let field = [&[3, 0, length][..], &vec![255; usize::from(length)]].concat();
        assert_eq!(number(&with_head(&[&field])), (7, 7));
    }
}

#[test]
fn head_content_in_byte_order() {
    assert_eq!(number(&book::head(0, 0, 7)), (3, 0));
    assert_eq!(number(&book::head(3, 9, 7)), (3, 0));
    // Edition 2 has a head of length 5 (C-23).
    assert_eq!(number(&book::head(2, 9, 7)), (2, 0));
    for kind in [0, 2, 6, 255] {
        assert_eq!(number(&book::head(1, kind, 7)), (4, 0));
    }
    for (kind, base, expected) in [
        (1, 0, 5),
        (1, 1899, 5),
        (1, 1900, 0),
        (1, 2100, 0),
        (1, 2101, 5),
        (1, 65_535, 5),
        (5, 0, 0),
        (5, 1, 5),
        (3, 2000, 5),
        (3, 0, 0),
        (4, 256, 5),
        (4, 0, 0),
    ] {
        let out = read(&book::head(1, kind, base));
        assert_eq!((out.number, out.place), (expected, 0));
        if expected == 0 {
            assert_eq!((out.kind, out.base, out.rules, out.count), (kind, base, 1, 0));
        }
    }
}

#[test]
fn triple_content() {
    for (bad, expected) in [
        (row(BAD, 5, 5, 1), 8),
        (row(5, 65_535, 5, 1), 8),
        (row(5, 16_384, 5, 1), 9),
        (row(5, 32_768, 5, 1), 9),
        (row(5, 5, BAD, 1), 8),
        (row(5, 5, 5, 0), 10),
    ] {
        assert_eq!(number(&with_head(&[&good(), &book::triple_field(bad)])), (expected, 24));
    }
    for kind in [3, 4] {
        let bytes = book::bytes_of(kind, 0, 1, &[row(5, 5, 5, 1000), row(5, 5, 5, 1001)]);
        assert_eq!(number(&bytes), (10, 24));
    }
}

#[test]
fn twelve_is_last_within_its_field() {
    let rows: Vec<Row> = (0..9).map(|at| row(9 - at, 5, 5, 1)).collect();
    let fields: Vec<Vec<u8>> = rows.iter().map(|row| book::triple_field(*row)).collect();
    let full = with_head(&[&fields.concat()]);
    assert_eq!(number(&full), (12, 7 + 8 * 17));
    // A fault in a later field is not seen.
    assert_eq!(number(&[&full[..], &[9]].concat()), (12, 7 + 8 * 17));
    // A fault in the field itself is.
    let mut bad = full.clone();
    bad[7 + 8 * 17 + 3..][..2].fill(255);
    assert_eq!(number(&bad), (8, 7 + 8 * 17));
    // An equal triple needs no room, and the next field is read.
    let eight = &full[..7 + 8 * 17];
    assert_eq!(number(&[eight, &book::triple_field(rows[3])].concat()), (0, 0));
}

#[test]
fn lengths_of_books_and_lanes() {
    // 65,535 bytes are no 13: here the last field is cut.
    let mut bytes = book::bytes_of(3, 0, 1, &vec![row(5, 5, 5, 1); 3854]);
    assert_eq!(bytes.len(), 65_525);
    assert_eq!(number(&bytes), (0, 0));
    bytes.resize(65_535, 3);
    assert_eq!(number(&bytes), (1, 65_525));
    bytes.push(0);
    assert_eq!(number(&bytes), (13, 0));
    // 11 before 13, and both change nothing.
    for mut unfit in [Lanes { ann: vec![4; 7], ..Lanes::zero(8) }, Lanes::zero(1025)] {
        let before = unfit.clone();
        let out = book::read(&bytes, &mut unfit);
        assert_eq!((out.number, out.place, out.kind, out.base, out.count), (11, 0, 0, 0, 0));
        assert_eq!(unfit, before);
    }
    assert_eq!(book::read(&P1, &mut Lanes::zero(1024)).number, 0);
}

#[test]
fn a_done_reading_sorts_joins_and_zeros_the_rest() {
    let rows = [row(9, 1, 1, 1), row(5, 2, 1, 2), row(9, 1, 1, 4), row(5, 1, 16_384, 8)];
    let mut table = lanes(&[row(BAD, BAD, BAD, 7); 5], 5);
    let out = book::read(&book::bytes_of(1, 1999, 1, &rows), &mut table);
    assert_eq!((out.number, out.place, out.kind, out.base, out.count), (0, 0, 1, 1999, 3));
    let sorted = [row(5, 1, 16_384, 8), row(5, 2, 1, 2), row(9, 1, 1, 5)];
    assert_eq!(table, lanes(&sorted, 5));
}
