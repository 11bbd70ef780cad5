//! The table check and adding against the model: random tables with fixed seeds, every lane
//! length, and the stored cases.

use against::{places, run, stored, tables};
use trial::random::{self, tables as deal, Random};
use trial::table::Lanes;

#[test]
fn check_agrees_on_random_tables() {
    run("check", tables::check, 0..20_000);
}

#[test]
fn add_agrees_on_random_tables() {
    run("add", tables::add, 0..20_000);
}

#[test]
fn stored_cases_agree() {
    for (kind, lanes, count, row) in stored::addings() {
        tables::add_one(kind, lanes, count, row).unwrap();
    }
}

/// Every length from 0 to 1,025, full, half full and empty, with old content past the count.
#[test]
fn every_lane_length_agrees() {
    let mut random = Random::new(1);
    for room in 0..=1025 {
        for count in [0, room / 2, room] {
            let kind = random::legal_kind(&mut random);
            let rows = deal::ascending(&mut random, kind, count);
            let lanes = deal::lanes_of(&mut random, &rows, room);
            tables::check_one(kind, &lanes, count).unwrap();
            let row = deal::to_add(&mut random, kind, &lanes, count);
            tables::add_one(kind, lanes, count, row).unwrap();
        }
    }
}

/// One lane a row longer or shorter than the others, each lane in turn.
#[test]
fn unequal_lanes_agree() {
    for length in [0usize, 1, 2, 7, 1023, 1024, 1025] {
        for lane in 0..4 {
            for other in [0, length + 1, length.saturating_sub(1)] {
                let mut lanes = Lanes::zero(length);
                match lane {
                    0 => lanes.subj.resize(other, 0),
                    1 => lanes.pred.resize(other, 0),
                    2 => lanes.obj.resize(other, 0),
                    _ => lanes.ann.resize(other, 0),
                }
                for count in [0, 1, length, 1025, usize::MAX] {
                    tables::check_one(1, &lanes, count).unwrap();
                    tables::add_one(1, lanes.clone(), count, ((10, 2, 11), 1)).unwrap();
                }
            }
        }
    }
}

/// The last row wrong, at every count: a check that stops early would let it pass.
#[test]
fn a_wrong_last_row_is_seen() {
    let mut random = Random::new(2);
    for count in 1..=1024 {
        let kind = random::legal_kind(&mut random);
        let mut rows = deal::ascending(&mut random, kind, count);
        rows[count - 1] = match count % 3 {
            0 => random::bad_row(&mut random, kind),
            1 if count > 1 => rows[count - 2],
            _ => (rows[count - 1].0, 0),
        };
        let lanes = deal::lanes_of(&mut random, &rows, count);
        let verdict = against::calls::check(kind, &lanes, count);
        assert_ne!(verdict.number, 0, "count {count}");
        assert_eq!(verdict.place, count as u64 - 1);
        tables::check_one(kind, &lanes, count).unwrap();
    }
}

/// Each search gives the place that the order of rows gives, for a triple that is there and for one
/// that is behind all. From the back, a triple behind all is found with one look, and any other with
/// no more than two for each time that the rows can be halved, and one.
#[test]
fn searches_agree_and_looks_are_few() {
    let mut random = Random::new(12);
    for count in (0..100).chain([255, 256, 257, 1000, 1023, 1024]) {
        let rows = deal::ascending(&mut random, 3, count);
        let rows: Vec<_> = rows.iter().map(|(triple, _)| *triple).collect();
        let halvings = (usize::BITS - count.leading_zeros()) as usize;
        for at in 0..=count {
            let key = rows.get(at).copied().unwrap_or((u16::MAX, 0, 0));
            for (name, search) in places::SEARCHES {
                assert_eq!(search(&rows, key, &mut 0), at, "{name}, {count} rows");
            }
            let mut looks = 0;
            places::strides(&rows, key, &mut looks);
            assert!(looks <= if at == count { 1 } else { 2 * halvings + 1 }, "{at} of {count}");
        }
    }
}

/// Three rows, and a triple between two of them, equal to one, before all, and behind all, whose one
/// look is at the last row; and no row, where there is nothing to look at.
#[test]
fn the_examples_of_rows_placed_from_the_back() {
    let rows = [(5, 1, 6), (5, 1, 8), (9, 2, 1)];
    for (key, place) in [((5, 1, 7), 1), ((5, 1, 8), 1), ((0, 0, 0), 0), ((9, 2, 2), 3)] {
        let mut looks = 0;
        assert_eq!(places::strides(&rows, key, &mut looks), place);
        assert_eq!(looks == 1, key == (9, 2, 2));
        let of = |triple| (triple, 1);
        let lanes = stored::lanes(&rows.map(of), 4);
        let (after, count) = tables::add_one(1, lanes, 3, (key, 2)).unwrap();
        assert_eq!((after.subj[place], after.pred[place], after.obj[place]), key);
        assert_eq!((count, after.ann[place]), if key == (5, 1, 8) { (3, 3) } else { (4, 2) });
    }
    let mut looks = 0;
    assert_eq!((places::strides(&[], (5, 1, 7), &mut looks), looks), (0, 0));
    // An equal triple joins on a full table; another finds no room.
    let full = || stored::lanes(&rows.map(|triple| (triple, 1)), 3);
    tables::add_one(1, full(), 3, ((9, 2, 1), 2)).unwrap();
    tables::add_one(1, full(), 3, ((9, 2, 2), 2)).unwrap();
}
