//! The readings of C-23, rule set 2, in their order: heads, orders, the ten lines, the examples, the
//! traps.

mod common;
use common::*;
use trial::book::{self, ReadOut};
use trial::question::bytes_of;
use trial::table::{self, Lanes, Row, Triple};
use trial::{annotation, closing, export, programs};

const KINDS: [u8; 4] = [1, 3, 4, 5];

/// Reads into three lanes of old rows; a refusal leaves zero everywhere and says rule set 0.
fn read(bytes: &[u8]) -> ReadOut {
    let mut table = lanes(&[row(7, 7, 7, 7); 3], 3);
    let out = book::read(bytes, &mut table);
    if out.number != 0 {
        assert_eq!((out.kind, out.base, out.rules, out.count), (0, 0, 0, 0));
        assert_eq!(table, Lanes::zero(3));
    }
    out
}

fn number(bytes: &[u8]) -> (u32, u64) {
    let out = read(bytes);
    (out.number, out.place)
}

/// The closure in rule set 2, with room for 1,024.
fn closed_2(kind: u8, rows: &[Row]) -> Vec<Row> {
    closing::closure(kind, 2, rows, 1024).expect("room")
}

/// What one round of rule set 2 gives and of rule set 1 does not.
fn lines_of(kind: u8, premise: Row) -> Vec<Row> {
    let mut new = closing::conclusions(kind, 2, &[premise]);
    let old = closing::conclusions(kind, 1, &[premise]);
    new.retain(|row| !old.contains(row));
    new.sort_unstable();
    new.dedup();
    new
}

#[test]
fn the_nine_heads() {
    let done = read(&[1, 0, 5, 2, 1, 0x07, 0xD0, 2]);
    assert_eq!((done.number, done.place, done.kind, done.base), (0, 0, 1, 2000));
    assert_eq!((done.rules, done.count), (2, 0));
    for (bytes, expected) in [
        (&[1, 0, 5, 2, 1, 0x07, 0xD0, 3][..], 36),
        (&[1, 0, 5, 1, 1, 0x07, 0xD0, 1], 2),
        (&[1, 0, 4, 2, 1, 0x07, 0xD0], 2),
        (&[1, 0, 5, 3, 1, 0x07, 0xD0, 2], 3),
        (&[1, 0, 6, 3, 1, 0x07, 0xD0, 2, 0], 2),
        (&[1, 0, 5, 2, 2, 0x07, 0xD0, 3], 4),
        (&[1, 0, 5, 2, 1, 0, 0, 3], 5),
        (&[1, 0, 5, 2, 1, 0x07, 0xD0], 1),
    ] {
        assert_eq!(number(bytes), (expected, 0), "{bytes:02X?}");
    }
}

#[test]
fn the_rule_set_of_each_edition() {
    assert_eq!(read(&book::head(1, 3, 0)).rules, 1);
    for rules in 0..=255 {
        let out = read(&book::long_head(2, 3, 0, rules));
        let expected = if [1, 2].contains(&rules) { (0, rules) } else { (36, 0) };
        assert_eq!((out.number, out.rules), expected);
    }
    for edition in 0..=255 {
        let short = read(&book::head(edition, 3, 0)).number;
        let long = read(&book::long_head(edition, 3, 0, 2)).number;
        let expected = match edition {
            1 => (0, 2),
            2 => (2, 0),
            _ => (3, 3),
        };
        assert_eq!((short, long), expected, "edition {edition}");
    }
}

/// Each order at the head: what comes first stands first, whatever follows it is wrong too.
#[test]
fn the_order_at_the_head() {
    // Cut before the tag, the tag before the length, the length before the edition.
    assert_eq!(number(&[9, 0, 6, 9, 9, 9, 9, 9]), (1, 0));
    assert_eq!(number(&[9, 0, 6, 9, 9, 9, 9, 9, 9]), (2, 0));
    for length in [0, 1, 2, 3, 6, 7, 14] {
        let head = [&[1, 0, length][..], &vec![9; usize::from(length)]].concat();
        assert_eq!(number(&head), (2, 0), "length {length}");
        assert_eq!(number(&head[..head.len() - 1]), (1, 0));
    }
    // The edition before the length that suits it; that before the kind, the base year, the rule set.
    assert_eq!(number(&book::head(3, 9, 9)), (3, 0));
    assert_eq!(number(&book::long_head(0, 9, 9, 9)), (3, 0));
    assert_eq!(number(&book::head(2, 9, 9)), (2, 0));
    assert_eq!(number(&book::long_head(1, 9, 9, 9)), (2, 0));
    assert_eq!(number(&book::long_head(2, 9, 9, 9)), (4, 0));
    assert_eq!(number(&book::long_head(2, 1, 9, 9)), (5, 0));
    assert_eq!(number(&book::long_head(2, 5, 2000, 2)), (5, 0));
    assert_eq!(number(&book::long_head(2, 1, 2000, 9)), (36, 0));
}

#[test]
fn the_first_field_stands_at_7_or_8() {
    let bad = book::triple_field(row(5, 5, 5, 0));
    assert_eq!(number(&[book::head(1, 3, 0), bad.clone()].concat()), (10, 7));
    for rules in [1, 2] {
        let head = book::long_head(2, 3, 0, rules);
        assert_eq!(number(&[&head[..], &bad].concat()), (10, 8));
        let good = book::triple_field(row(5, 5, 5, 1));
        assert_eq!(number(&[&head[..], &good, &bad].concat()), (10, 25));
        // A second head of either edition, and of any length.
        for second in [book::head(1, 3, 0), head.clone(), vec![1, 0, 0]] {
            assert_eq!(number(&[&head[..], &good, &second].concat()), (2, 25));
        }
    }
    // 36 comes before all that is wrong behind the head.
    let head = book::long_head(2, 3, 0, 0);
    assert_eq!(number(&[&head[..], &bad].concat()), (36, 0));
    assert_eq!(number(&[&head[..], &[3]].concat()), (36, 0));
}

#[test]
fn a_book_of_the_longest_length_in_edition_2() {
    let field = book::triple_field(row(5, 5, 5, 1));
    let mut bytes = book::long_head(2, 3, 0, 2);
    (0..3854).for_each(|_| bytes.extend(&field));
    assert_eq!((bytes.len(), number(&bytes)), (65_526, (0, 0)));
    bytes.resize(65_536, 0);
    // 13 changes nothing and gives rule set 0 all the same.
    let mut table = lanes(&P1_CLOSED, 3);
    let out = book::read(&bytes, &mut table);
    assert_eq!((out.number, out.rules), (13, 0));
    assert_eq!(table, lanes(&P1_CLOSED, 3));
    let mut unequal = Lanes { ann: vec![1], ..Lanes::zero(3) };
    assert_eq!(book::read(&book::long_head(2, 3, 0, 2), &mut unequal).rules, 0);
}

/// In closing: 4, 36, 11, 14, rows, 12.
#[test]
fn the_order_in_closing() {
    let bad = row(65_535, 5, 5, 0);
    let number = |kind: u8, rules: u8, table: Lanes, count: usize| {
        let mut after = table.clone();
        let out = closing::close(kind, rules, &mut after, count);
        assert_eq!(out.place, 0);
        if out.number != 0 && out.number != 12 {
            assert_eq!((&after, out.count), (&table, count));
        }
        out.number
    };
    let unequal = || Lanes { ann: vec![0; 2], ..lanes(&[bad], 1) };
    assert_eq!(number(2, 3, unequal(), 9), 4);
    for rules in [0, 3, 4, 255] {
        assert_eq!(number(1, rules, unequal(), 9), 36);
        assert_eq!(number(1, rules, lanes(&[bad], 1), 9), 36);
        assert_eq!(number(1, rules, lanes(&[bad], 1), 1), 36);
        assert_eq!(number(1, rules, lanes(&P1_CLOSED, 3), 3), 36);
        assert_eq!(number(1, rules, Lanes::zero(0), 0), 36);
    }
    assert_eq!(number(1, 2, unequal(), 9), 11);
    assert_eq!(number(1, 2, lanes(&[bad], 1), 9), 14);
    assert_eq!(number(1, 2, lanes(&[bad], 1), 1), 8);
    assert_eq!(number(1, 2, lanes(&P1_CLOSED, 7), 3), 12);
    assert_eq!(number(1, 2, lanes(&P1_CLOSED, 8), 3), 0);
}

/// In writing: 4, 5, 36, the table's, 12.
#[test]
fn the_order_in_writing() {
    let bad = lanes(&[row(65_535, 5, 5, 0)], 1);
    let number = |kind, base, rules, count| {
        let written = book::write(kind, base, rules, &bad, count, &mut []);
        assert_eq!((written.place, written.length), (0, 0));
        written.number
    };
    assert_eq!(number(2, 9, 9, 9), 4);
    assert_eq!(number(1, 9, 9, 9), 5);
    assert_eq!(number(5, 2000, 2, 9), 5);
    for rules in [0, 3, 255] {
        assert_eq!(number(1, 2000, rules, 9), 36);
        assert_eq!(number(3, 0, rules, 0), 36);
    }
    assert_eq!(number(1, 2000, 2, 9), 14);
    assert_eq!(number(1, 2000, 2, 1), 8);
    assert_eq!(number(1, 2000, 2, 0), 12);
    let unequal = Lanes { ann: vec![0; 2], ..bad.clone() };
    assert_eq!(book::write(1, 2000, 2, &unequal, 1, &mut []).number, 11);
    assert_eq!(book::write(1, 2000, 0, &unequal, 1, &mut []).number, 36);
}

#[test]
fn writing_needs_7_or_8_bytes_and_17_a_row() {
    for (rules, head) in [(1, 7), (2, 8)] {
        for count in [0, 1, 3] {
            let table = lanes(&P1_CLOSED, 3);
            let need = head + 17 * count;
            let mut out = vec![9; need + 4];
            let short = book::write(1, 2000, rules, &table, count, &mut out[..need - 1]);
            assert_eq!((short.number, short.length), (12, 0));
            assert!(out.iter().all(|byte| *byte == 9));
            let done = book::write(1, 2000, rules, &table, count, &mut out[..need]);
            assert_eq!((done.number, done.length), (0, need));
            assert_eq!(out[need..], [9; 4]);
            let mut back = Lanes::zero(3);
            let read = book::read(&out[..need], &mut back);
            assert_eq!((read.number, read.kind, read.base), (0, 1, 2000));
            assert_eq!((read.rules, read.count), (rules, count));
            assert_eq!(table::rows(&back, count), P1_CLOSED[..count]);
        }
    }
}

/// Edition 2 is written only for rule set 2: one of edition 2 with rule set 1 goes back as edition 1.
#[test]
fn the_edition_that_is_written() {
    let table = lanes(&P1_CLOSED, 3);
    let mut out = [0; 59];
    book::write(1, 2000, 2, &table, 3, &mut out);
    assert_eq!(out[..8], [1, 0, 5, 2, 1, 0x07, 0xD0, 2]);
    book::write(1, 2000, 1, &table, 3, &mut out);
    assert_eq!(out[..7], [1, 0, 4, 1, 1, 0x07, 0xD0]);
    let fields = &P1[7..];
    let edition_2 = [&book::long_head(2, 1, 2000, 1)[..], fields].concat();
    let mut out = [0; 99];
    assert_eq!(export::close_book(&edition_2, &mut out), 58);
    assert_eq!(out[..58], book::bytes_of(1, 2000, 1, &P1_CLOSED));
}

/// The ten lines, one after another: the rest that a line's premise gives stands beside it.
#[test]
fn the_ten_lines() {
    for kind in KINDS {
        let l = match kind {
            5 => trial::random::with(3),
            1 => 0b1010,
            _ => 600,
        };
        let sp = |term: u16| row(term, SP, term, l);
        let sc = |term: u16| row(term, SC, term, l);
        // 9
        assert_eq!(lines_of(kind, row(10, 20, 30, l)), [sp(20)]);
        // 10, 11, and 9 for sp itself.
        assert_eq!(lines_of(kind, row(20, SP, 21, l)), [sp(SP), sp(20), sp(21)]);
        // 12 and 17, 13 and 18.
        assert_eq!(lines_of(kind, row(20, DOM, 12, l)), [sp(DOM), sc(12), sp(20)]);
        assert_eq!(lines_of(kind, row(20, RANGE, 12, l)), [sp(RANGE), sc(12), sp(20)]);
        // 14, 15
        assert_eq!(lines_of(kind, row(11, SC, 12, l)), [sp(SC), sc(11), sc(12)]);
        // 16
        assert_eq!(lines_of(kind, row(10, TYPE, 11, l)), [sp(TYPE), sc(11)]);
    }
}

/// The And of one premise is that premise: a strict degree loses nothing.
#[test]
fn a_line_has_its_premises_annotation() {
    for kind in KINDS {
        for ann in [annotation::top(kind), if kind == 5 { trial::random::with(63) } else { 1 }] {
            let closed = closed_2(kind, &[row(10, 20, 30, ann)]);
            let expected = [row(SP, SP, SP, ann), row(10, 20, 30, ann), row(20, SP, 20, ann)];
            assert_eq!(closed, expected);
        }
    }
}

const P1_ROWS: [Row; 2] = [((10, TYPE, 11), 120), ((11, SC, 12), 2016)];

const P1_CLOSED_2: [Row; 8] = [
    ((0, 0, 0), 2040),
    ((1, 0, 1), 2040),
    ((2, 0, 2), 120),
    ((10, 2, 11), 120),
    ((10, 2, 12), 96),
    ((11, 1, 11), 2040),
    ((11, 1, 12), 2016),
    ((12, 1, 12), 2016),
];

/// P1's book in edition 2 with rule set 2.
fn p1_2() -> Vec<u8> {
    book::bytes_of(1, 2000, 2, &P1_ROWS)
}

#[test]
fn example_1_p1_in_rule_set_2() {
    assert_eq!(closed_2(1, &P1_ROWS), P1_CLOSED_2);
    let text = "closed 1 2000 8\n0 0 0 2040\n1 0 1 2040\n2 0 2 120\n10 2 11 120\n10 2 12 96\n\
                11 1 11 2040\n11 1 12 2016\n12 1 12 2016\n";
    assert_eq!(programs::close_book_program(&p1_2()), text);
    let mut out = [9; 145];
    assert_eq!(export::close_book(&p1_2(), &mut out), 144);
    assert_eq!(out[..144], book::bytes_of(1, 2000, 2, &P1_CLOSED_2));
    assert_eq!(out[144], 9);
    assert_eq!(export::close_book(&p1_2(), &mut [0; 143]), 12 << 32);
    // The same lines in edition 2 with rule set 1, and in edition 1, close as ever.
    for head in [book::head(1, 1, 2000), book::long_head(2, 1, 2000, 1)] {
        let text = programs::close_book_program(&[&head[..], &P1[7..]].concat());
        assert_eq!(text, "closed 1 2000 3\n10 2 11 120\n10 2 12 96\n11 1 12 2016\n");
    }
}

#[test]
fn example_2_two_blanks() {
    let rows = [row(16_384, SP, 16_385, 600)];
    let expected = [
        row(0, SP, 0, 600),
        row(16_384, SP, 16_384, 600),
        row(16_384, SP, 16_385, 600),
        row(16_385, SP, 16_385, 600),
    ];
    assert_eq!(closed_2(3, &rows), expected);
}

#[test]
fn example_3_p9() {
    let rows = [row(5, SC, 6, 600), row(6, SC, 5, 400)];
    let expected = [
        row(0, SP, 0, 600),
        row(1, SP, 1, 600),
        row(5, SC, 5, 600),
        row(5, SC, 6, 600),
        row(6, SC, 5, 400),
        row(6, SC, 6, 600),
    ];
    assert_eq!(closed_2(3, &rows), expected);
    assert_eq!(drawn(3, &rows), [row(5, SC, 5, 400), row(6, SC, 6, 400)]);
}

#[test]
fn example_4_a_domain() {
    let rows = [row(20, DOM, 12, 700)];
    let expected: Vec<Row> =
        [(0, 0, 0), (1, 0, 1), (3, 0, 3), (12, 1, 12), (20, 0, 20), (20, 3, 12)]
            .map(|triple: Triple| (triple, 700))
            .to_vec();
    assert_eq!(closed_2(3, &rows), expected);
}

/// 6c, which has no premise, is not drawn: an empty table stays empty. Any other has (sp sp sp).
#[test]
fn a_table_of_rule_set_2_that_is_not_empty_holds_sp_sp_sp() {
    for kind in KINDS {
        assert_eq!(closed_2(kind, &[]), []);
        for pred in [SP, SC, TYPE, DOM, RANGE, 20] {
            let top = annotation::top(kind);
            let closed = closed_2(kind, &[row(10, pred, 11, top)]);
            assert!(closed.contains(&row(SP, SP, SP, top)));
            assert!(closed.contains(&row(pred, SP, pred, top)));
        }
    }
    assert_eq!(programs::close_book_program(&book::long_head(2, 4, 0, 2)), "closed 4 0 0\n");
    let mut out = [9; 8];
    assert_eq!(export::close_book(&book::long_head(2, 4, 0, 2), &mut out), 8);
    assert_eq!(out, [1, 0, 5, 2, 4, 0, 0, 2]);
    assert_eq!(export::close_book(&book::long_head(2, 4, 0, 1), &mut out), 7);
    assert_eq!(out, [1, 0, 4, 1, 4, 0, 0, 2]);
}

/// Blanks, literals and values may be subject of a reflexive line; its predicate is always a name.
#[test]
fn reflexive_lines_of_what_is_no_name() {
    for term in [16_384, 32_768, 49_152, 65_534] {
        let closed = closed_2(3, &[row(10, TYPE, term, 600)]);
        assert!(closed.contains(&row(term, SC, term, 600)));
        let closed = closed_2(3, &[row(term, DOM, 12, 600)]);
        assert!(closed.contains(&row(term, SP, term, 600)));
        let table = lanes(&closed, closed.len());
        assert!(table::check(3, &table, closed.len()).done());
        // Its closure is closed, in rule set 1 as well.
        assert_eq!(closed_2(3, &closed), closed);
        assert_eq!(common::closed(3, &closed), closed);
    }
}

/// What is closed in rule set 1 need not be in rule set 2, and gives the same as the input there.
#[test]
fn closing_in_1_then_in_2() {
    assert_eq!(closed_2(1, &P1_CLOSED), P1_CLOSED_2);
    assert_eq!(closed(1, &P1_ROWS), P1_CLOSED);
    // The reflexive lines stay when it is closed in 1 again: they are its rows by then.
    assert_eq!(closed(1, &P1_CLOSED_2), P1_CLOSED_2);
}

/// The ten lines in one another's conclusions: (sp sp sp) with (0 sp 40) gives (20 40 20) from (20 sp 20).
#[test]
fn reflexive_lines_are_premises_of_the_other_rules() {
    let closed = closed_2(3, &[row(0, SP, 40, 900), row(10, 20, 30, 500)]);
    assert!(closed.contains(&row(20, 40, 20, 500)));
    assert!(closed.contains(&row(40, 40, 40, 900)));
    let closed = closed_2(3, &[row(0, DOM, 12, 900), row(10, 20, 30, 500)]);
    assert!(closed.contains(&row(20, TYPE, 12, 500)));
    // Nothing of that in rule set 1.
    assert_eq!(drawn(3, &[row(0, DOM, 12, 900), row(10, 20, 30, 500)]), []);
}

/// The counter closes under the book's rule set, before every question.
#[test]
fn the_counter_asks_the_closure_of_the_books_rule_set() {
    let question = bytes_of(&triple(v(0), c(SC), v(0), va(0)));
    let ask = |book: &[u8]| {
        let input = [behind_length(book), behind_length(&question), behind_length(&question)];
        programs::counter_program(&input.concat())
    };
    assert_eq!(ask(&P1), "asked 0 0 0 3\nasked 0 0 0 3\n");
    let text = ask(&p1_2());
    let lines: Vec<&str> = text.lines().collect();
    assert_eq!(lines.len(), 6);
    assert_eq!((lines[0], lines[3]), ("asked 0 0 2 8", "asked 0 0 2 8"));
    assert!(lines[1].starts_with("11 65535 ") && lines[1].contains(" 2040 0"));
    assert!(lines[2].starts_with("12 65535 ") && lines[2].contains(" 2016 0"));
    // One that does not close: 1,023 uses have two rows more in rule set 2, and none in rule set 1.
    let uses: Vec<Row> = (0..1023).map(|at| row(at, 20, 30, 5)).collect();
    assert_eq!(ask(&book::bytes_of(3, 0, 2, &uses)), "refused 12 0\n");
    assert!(ask(&book::bytes_of(3, 0, 1, &uses)).starts_with("asked 0 0 0 1023\n"));
    assert_eq!(ask(&book::long_head(2, 3, 0, 0)), "refused 36 0\n");
}

/// Only reading, writing and closing know rule sets: a table is the same in either.
#[test]
fn tables_have_no_rule_set() {
    let table = lanes(&P1_CLOSED_2, 8);
    assert!(table::check(1, &table, 8).done());
    let mut table = lanes(&P1_CLOSED_2, 8);
    let added = table::add(1, &mut table, 8, (0, 0, 0), 1);
    assert_eq!((added.number, added.count, table.ann[0]), (0, 8, 2041));
}

#[test]
fn the_exported_call_closes_under_the_books_rule_set() {
    for (rules, bytes) in [(1, 58), (2, 144)] {
        let book = book::bytes_of(1, 2000, rules, &P1_ROWS);
        let mut out = [0; 200];
        assert_eq!(export::close_book(&book, &mut out), bytes);
        let mut back = Lanes::zero(8);
        assert_eq!(book::read(&out[..bytes as usize], &mut back).rules, rules);
    }
    let answer = export::close_book(&book::long_head(2, 1, 2000, 7), &mut [0; 99]);
    assert_eq!(answer, 36 << 32);
    // The most there is: 8 bytes and 17 for each of 1,024 rows.
    let uses: Vec<Row> = (0..1022).map(|at| row(at, 20, 30, 5)).collect();
    let mut out = vec![0; 17_416];
    assert_eq!(export::close_book(&book::bytes_of(3, 0, 2, &uses), &mut out), 17_416);
    assert_eq!(export::close_book(&book::bytes_of(3, 0, 2, &uses), &mut out[1..]), 12 << 32);
}
