//! Closing, the exported call and the closing program against the model, and the document's
//! examples through the program.

use against::{closings, process, run, stored};
use std::path::PathBuf;
use trial::random::{slow, Random};
use trial::table::{Lanes, Row};

fn program() -> PathBuf {
    PathBuf::from(env!("CARGO_MANIFEST_DIR")).join("../../target/bin/close_book")
}

#[test]
fn close_agrees_on_random_tables() {
    run("close", closings::close, 0..3_000);
}

/// Books whose conclusions come one after another, in both rule sets, into rooms at the closure and a
/// row under it.
#[test]
fn close_agrees_on_books_made_to_be_slow() {
    for order in slow::ORDERS {
        for size in [16, 40, 64, 150] {
            for (name, kind, rows) in slow::books(order, size) {
                for rules in [1, 2] {
                    if let Err(difference) = in_tight_rooms(kind, rules, &rows) {
                        panic!("{name} {order}, {size}: {difference}");
                    }
                }
            }
        }
    }
}

fn in_tight_rooms(kind: u8, rules: u8, rows: &[Row]) -> Result<(), String> {
    let closed = against::baseline::close(kind, rules, rows).0.len();
    for room in [closed, closed - 1, closed + 3] {
        let mut lanes = Lanes::zero(room.max(rows.len()));
        trial::table::fill(&mut lanes, rows);
        closings::close_one(kind, rules, &lanes, rows.len())?;
    }
    Ok(())
}

/// Every rule set, with the kind and the table right or wrong.
#[test]
fn every_rule_set_agrees() {
    let p1 = [((10, 2, 11), 120), ((11, 1, 12), 2016)];
    for rules in 0..=255 {
        for kind in [1, 2, 3] {
            for (room, count) in [(8, 2), (7, 2), (3, 2), (2, 2), (2, 3), (1025, 0)] {
                let lanes = stored::lanes(&p1, room);
                closings::close_one(kind, rules, &lanes, count).unwrap();
            }
            let unequal = Lanes { ann: vec![1; 9], ..stored::lanes(&p1, 8) };
            closings::close_one(kind, rules, &unequal, 2).unwrap();
            let bad = stored::lanes(&[((10, 2, 65_535), 120)], 8);
            closings::close_one(kind, rules, &bad, 1).unwrap();
        }
    }
}

#[test]
fn the_exported_call_agrees() {
    run("close book", closings::close_book, 0..1_500);
}

#[test]
fn the_program_agrees() {
    for seed in 0..300 {
        if let Err(difference) = closings::close_book_program(&program(), seed) {
            panic!("seed {seed}: {difference}");
        }
    }
}

/// P1, P3 to P10 and the rest through the program, each with the listing it must give.
#[test]
fn stored_books_give_their_listing() {
    let listings = [stored::listings(), stored::listings_of_rule_set_2()].concat();
    for (name, bytes, listing) in listings {
        assert_eq!(process::run(&program(), &bytes), listing, "{name}");
    }
}

/// Books at and over the longest, to the program: it must see that there is more.
#[test]
fn the_program_sees_a_book_that_is_too_long() {
    for length in [65_534, 65_535, 65_536, 65_537, 200_000] {
        let mut bytes = trial::book::head(1, 3, 0);
        while bytes.len() < length {
            bytes.extend(trial::book::triple_field(((10, 2, 11), 5)));
        }
        bytes.truncate(length);
        let proved = process::run(&program(), &bytes);
        assert_eq!(proved, trial::programs::close_book_program(&bytes), "{length} bytes");
    }
}

/// "room 2 for P1 is 12", and every other room for it, in both rule sets.
#[test]
fn p1_in_every_room() {
    for room in 0..=10 {
        for (book, rules, closed_rows) in [(stored::p1(), 1, 3), (stored::p1_in_rule_set_2(), 2, 8)]
        {
            let mut lanes = Lanes::zero(room);
            let read = against::calls::read(&book, &mut lanes);
            if read.number == 0 {
                assert_eq!(read.rules, rules);
                closings::close_one(1, rules, &lanes, read.count).unwrap();
                let closed = against::calls::close(1, rules, &mut lanes, read.count);
                let expected = if room < closed_rows { (12, 0) } else { (0, closed_rows) };
                assert_eq!((closed.number, closed.count), expected);
            }
        }
    }
}

/// P1 in rule set 2 through the exported call: 8 rows behind a head of 8 bytes.
#[test]
fn the_exported_call_keeps_the_rule_set() {
    let book = stored::p1_in_rule_set_2();
    let mut out = [9; 150];
    assert_eq!(against::calls::close_book(&book, &mut out), 144);
    assert_eq!(out[..8], book[..8]);
    assert_eq!(out[144..], [9; 6]);
    assert_eq!(against::calls::close_book(&book, &mut out[..143]), 12 << 32);
}

/// A chain of sc whose closure just fits 1,024 rows, or just does not.
#[test]
fn long_chains_agree() {
    let mut random = Random::new(5);
    for links in [42u16, 43, 44, 45, 46] {
        for extra in [0, 1, 2, 30, 31, 32, 33, 34, 35] {
            let mut rows: Vec<_> = (0..links).map(|at| ((100 + at, 1, 101 + at), 1000)).collect();
            rows.extend((0..extra).map(|at| ((5000 + at, 20, 30), 1000)));
            let lanes = trial::random::tables::lanes_of(&mut random, &rows, 1024);
            for rules in [1, 2] {
                closings::close_one(3, rules, &lanes, rows.len()).unwrap();
            }
        }
    }
}

/// Closures of 1,023 to 1,025 rows.
#[test]
fn closures_at_the_longest_lanes_agree() {
    let mut random = Random::new(6);
    for _ in 0..60 {
        let kind = trial::random::legal_kind(&mut random);
        for rules in [1, 2] {
            let rows = trial::random::closings::brim(&mut random, kind, rules);
            let lanes = trial::random::tables::lanes_of(&mut random, &rows, 1024);
            closings::close_one(kind, rules, &lanes, rows.len()).unwrap();
        }
    }
}
