//! Reading and writing against the model: random books with fixed seeds, cut at every byte and
//! damaged at every place, and stored books with the answer each must get.

use against::{books, calls, run, stored};
use trial::book;
use trial::random::{books as deal, tables, Random};
use trial::table::Lanes;

#[test]
fn read_agrees_on_random_books() {
    run("read", books::read, 0..6_000);
}

#[test]
fn write_agrees_on_random_tables() {
    run("write", books::write, 0..6_000);
}

/// Each stored book gets the number and place that stand beside it, from both.
#[test]
fn stored_books_get_their_number_and_place() {
    let books = [stored::books(), stored::books_of_edition_2()].concat();
    for (name, bytes, room, number, place) in books {
        let lanes = Lanes::zero(room);
        books::read_one(&bytes, &lanes).unwrap();
        let answer = calls::read(&bytes, &mut lanes.clone());
        assert_eq!((answer.number, answer.place), (number, place), "{name}");
    }
}

/// P1's 41 bytes read to its two rows.
#[test]
fn p1_reads_to_its_two_rows() {
    let mut lanes = Lanes::zero(4);
    let answer = calls::read(&stored::p1(), &mut lanes);
    assert_eq!((answer.number, answer.kind, answer.base, answer.count), (0, 1, 2000, 2));
    assert_eq!(answer.rules, 1);
    assert_eq!(lanes.subj, [10, 11, 0, 0]);
    assert_eq!(lanes.pred, [2, 1, 0, 0]);
    assert_eq!(lanes.obj, [11, 12, 0, 0]);
    assert_eq!(lanes.ann, [120, 2016, 0, 0]);
}

/// Every edition and every rule set, in heads of both lengths.
#[test]
fn every_edition_and_rule_set_agrees() {
    for byte in 0..=255 {
        for head in [
            book::head(byte, 3, 0),
            book::long_head(byte, 3, 0, 1),
            book::long_head(byte, 3, 0, 2),
            book::long_head(2, 3, 0, byte),
            book::long_head(1, 3, 0, byte),
            book::long_head(2, byte, 2000, 2),
        ] {
            let bytes = [&head[..], &book::triple_field(((10, 2, 11), 5))].concat();
            books::read_one(&bytes, &Lanes::zero(2)).unwrap();
        }
    }
}

/// Writing in every rule set, into output around what it needs.
#[test]
fn every_rule_set_is_written_or_refused() {
    let mut random = Random::new(8);
    for rules in 0..=255 {
        for (kind, base) in [(1, 2000), (3, 0), (5, 9), (2, 0)] {
            let (lanes, count) = tables::small(&mut random, kind, 3);
            for room in [0, 6, 7, 8, 17 * count + 7, 17 * count + 8, 90] {
                books::write_one((kind, base, rules), &lanes, count, &vec![9; room]).unwrap();
            }
        }
    }
}

/// A book cut at every byte.
#[test]
fn every_cut_agrees() {
    let mut random = Random::new(3);
    for kind in [1, 3, 4, 5] {
        let bytes = deal::of_length(&mut random, kind, 4);
        for length in 0..=bytes.len() {
            books::read_one(&bytes[..length], &tables::lanes_of(&mut random, &[], 4)).unwrap();
        }
    }
}

/// A book with each byte of it set to each of some values.
#[test]
fn every_damaged_byte_agrees() {
    let mut random = Random::new(4);
    for kind in [1, 3, 4, 5] {
        let good = deal::of_length(&mut random, kind, 3);
        for at in 0..good.len() {
            for value in [0, 1, 2, 3, 4, 14, 63, 64, 127, 128, 192, 255] {
                let mut bytes = good.clone();
                bytes[at] = value;
                books::read_one(&bytes, &Lanes::zero(3)).unwrap();
            }
        }
    }
}

/// The longest book, and one byte more, with fields enough to fill it.
#[test]
fn the_longest_book_agrees() {
    for length in [65_534, 65_535, 65_536] {
        let mut bytes = book::head(1, 3, 0);
        while bytes.len() < length {
            bytes.extend(book::triple_field(((10, 2, 11), 5)));
        }
        bytes.truncate(length);
        for room in [0, 1, 1024] {
            books::read_one(&bytes, &Lanes::zero(room)).unwrap();
        }
    }
}
