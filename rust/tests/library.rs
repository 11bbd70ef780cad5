//! The proved library through this crate, where it is linked.
#![cfg(proved)]

use trackvesper::calls::{Book, Calls, Refusal, Row, RuleSet, Table};
use trackvesper::proved::Proved;

fn row(triple: [u16; 3], value: u64) -> Row {
    Row { triple, value }
}

/// Lamp 10 is of class 11 in 2003 to 2006, class 11 lies within 12 in 2005 to 2010.
fn p1() -> Book {
    let rows = vec![row([10, 2, 11], 120), row([11, 1, 12], 2016)];
    Book { base: 2000, rules: RuleSet::Basic, table: Table { kind: 1, rows } }
}

/// The same by rule set 2.
fn p1_reflexive() -> Book {
    Book { rules: RuleSet::Reflexive, ..p1() }
}

fn closed() -> Table {
    let rows = vec![row([10, 2, 11], 120), row([10, 2, 12], 96), row([11, 1, 12], 2016)];
    Table { kind: 1, rows }
}

fn closed_reflexive() -> Table {
    let rows = vec![
        row([0, 0, 0], 2040),
        row([1, 0, 1], 2040),
        row([2, 0, 2], 120),
        row([10, 2, 11], 120),
        row([10, 2, 12], 96),
        row([11, 1, 11], 2040),
        row([11, 1, 12], 2016),
        row([12, 1, 12], 2016),
    ];
    Table { kind: 1, rows }
}

#[test]
fn a_book_is_written_and_read_back() {
    let bytes = Proved.write(&p1()).unwrap();
    assert_eq!(bytes.len(), 41);
    assert_eq!(Proved.read(&bytes), Ok(p1()));
    assert_eq!(Proved.read(&bytes[..40]), Err(Refusal { number: 1, place: 24 }));
    assert_eq!(Proved.read(&[]), Err(Refusal { number: 2, place: 0 }));
    assert_eq!(Proved.read(&vec![0; 65_536]), Err(Refusal { number: 13, place: 0 }));
}

#[test]
fn a_table_is_closed() {
    assert_eq!(Proved.close(RuleSet::Basic, &p1().table), Ok(closed()));
    let bytes = Proved.close_book(&Proved.write(&p1()).unwrap()).unwrap();
    assert_eq!(bytes.len(), 58);
    assert_eq!(Proved.read(&bytes), Ok(Book { table: closed(), ..p1() }));
}

/// Rule set 2: a head of 8 bytes, and eight rows from two.
#[test]
fn a_rule_set_goes_with_the_book() {
    let bytes = Proved.write(&p1_reflexive()).unwrap();
    assert_eq!((bytes.len(), &bytes[..8]), (42, &[1, 0, 5, 2, 1, 0x07, 0xD0, 2][..]));
    assert_eq!(Proved.read(&bytes), Ok(p1_reflexive()));
    assert_eq!(Proved.close(RuleSet::Reflexive, &p1().table), Ok(closed_reflexive()));
    let closed = Proved.close_book(&bytes).unwrap();
    assert_eq!(closed.len(), 144);
    assert_eq!(Proved.read(&closed), Ok(Book { table: closed_reflexive(), ..p1_reflexive() }));
    // The longest there is.
    let rows = (0..1024).map(|at| row([at, 0, at], 7)).collect();
    let full = Book { table: Table { kind: 1, rows }, ..p1_reflexive() };
    let bytes = Proved.write(&full).unwrap();
    assert_eq!(bytes.len(), 17_416);
    assert_eq!(Proved.read(&bytes), Ok(full));
}

#[test]
fn heads_of_edition_2_and_what_is_wrong_with_them() {
    let number = |bytes: &[u8]| Proved.read(bytes).map(|book| book.rules);
    let refused = |number: u32| Err(Refusal { number, place: 0 });
    assert_eq!(number(&[1, 0, 5, 2, 1, 7, 208, 1]), Ok(RuleSet::Basic));
    assert_eq!(number(&[1, 0, 5, 2, 1, 7, 208, 2]), Ok(RuleSet::Reflexive));
    assert_eq!(number(&[1, 0, 5, 2, 1, 7, 208, 3]), refused(36));
    assert_eq!(number(&[1, 0, 5, 1, 1, 7, 208, 1]), refused(2));
    assert_eq!(number(&[1, 0, 4, 2, 1, 7, 208]), refused(2));
    assert_eq!(number(&[1, 0, 5, 3, 1, 7, 208, 2]), refused(3));
    assert_eq!(
        Proved.close_book(&[1, 0, 5, 2, 1, 7, 208, 3]),
        Err(Refusal { number: 36, place: 0 })
    );
    // Edition 2 with rule set 1 is written back as edition 1.
    let plain = Proved.close_book(&[1, 0, 5, 2, 1, 7, 208, 1]).unwrap();
    assert_eq!(plain, [1, 0, 4, 1, 1, 7, 208]);
}

#[test]
fn a_table_is_checked_and_added_to() {
    assert_eq!(Proved.check(&closed()), Ok(()));
    let mut wrong = closed();
    wrong.rows.swap(0, 1);
    assert_eq!(Proved.check(&wrong), Err(Refusal { number: 15, place: 1 }));
    let two = Table { kind: 1, rows: vec![row([10, 2, 11], 231)] };
    let one = Table { kind: 1, rows: vec![row([10, 2, 11], 7)] };
    assert_eq!(Proved.add(&one, row([10, 2, 11], 224)), Ok(two));
    assert_eq!(Proved.add(&one, row([65_535, 2, 11], 1)), Err(Refusal { number: 8, place: 0 }));
    let many = Table { kind: 1, rows: vec![row([10, 2, 11], 7); 1025] };
    assert_eq!(Proved.check(&many), Err(Refusal { number: 14, place: 0 }));
}

#[test]
fn a_question_is_asked() {
    // (?0 type 12) during ?0
    let question = [16, 0, 18, 1, 0, 0, 0, 0, 2, 0, 0, 12, 1, 0, 0, 0, 0, 0, 0, 0, 0];
    let asked = Proved.ask(&closed(), &question, 100);
    assert_eq!((asked.refusal.number, asked.looks, asked.answers.len()), (0, 3, 1));
    assert_eq!((asked.answers[0].terms[0], asked.answers[0].anns[0]), (Some(10), Some(96)));
    assert_eq!(asked.answers[0].terms[1], None);
    assert_eq!(Proved.ask(&closed(), &question, 2).refusal.number, 24);
    assert_eq!(Proved.ask(&closed(), &[], 2).refusal.number, 16);
}

#[test]
fn a_makers_list_is_read_and_written() {
    let file = b"<m:a> <m:p> \"\\u0041\" .\n";
    let (table, names) = Proved.read_triples(1, 7, file).unwrap();
    assert_eq!(table.rows, [row([5, 6, 32_768], 7)]);
    assert_eq!(names[2], (32_768, "\"A\"".to_string()));
    assert_eq!(Proved.write_triples(&table, &names).unwrap(), b"<m:a> <m:p> \"A\" .\n");
    assert_eq!(
        Proved.read_triples(1, 7, b"\n<m:a>").unwrap_err(),
        Refusal { number: 26, place: 1 }
    );
}
