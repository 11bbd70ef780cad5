//! Closing against the rules read as plain patterns, tried with every choice of rows.

mod common;
use common::*;
use std::collections::BTreeMap;
use trial::random::{closings, legal_rules, slow, Random};
use trial::table::{self, Lanes, Row, Triple};
use trial::{annotation, closing};

/// A place in a rule: a known name, or a letter that stands for one term throughout.
#[derive(Clone, Copy)]
enum Spot {
    Known(u16),
    Letter(char),
}

/// The document's rules, letter by letter; the last triple of each is its conclusion.
const RULES: [&str; 18] = [
    "A sp B, B sp C, A sp C",
    "D sp E, X D Y, X E Y",
    "A sc B, B sc C, A sc C",
    "A sc B, X type A, X type B",
    "D dom B, X D Y, X type B",
    "D range B, X D Y, Y type B",
    "A dom B, D sp A, X D Y, X type B",
    "A range B, D sp A, X D Y, Y type B",
    // Rule set 2 (C-23) has these ten as well.
    "X A Y, A sp A",
    "A sp B, A sp A",
    "A sp B, B sp B",
    "A dom B, A sp A",
    "A range B, A sp A",
    "A sc B, A sc A",
    "A sc B, B sc B",
    "X type A, A sc A",
    "X dom A, A sc A",
    "X range A, A sc A",
];

fn spot(word: &str) -> Spot {
    match word {
        "sp" => Spot::Known(SP),
        "sc" => Spot::Known(SC),
        "type" => Spot::Known(TYPE),
        "dom" => Spot::Known(DOM),
        "range" => Spot::Known(RANGE),
        _ => Spot::Letter(word.chars().next().unwrap()),
    }
}

fn rule(text: &str) -> Vec<[Spot; 3]> {
    let triples = text.split(", ").map(|triple| triple.split(' ').map(spot).collect::<Vec<_>>());
    triples.map(|spots| [spots[0], spots[1], spots[2]]).collect()
}

type Letters = BTreeMap<char, u16>;

fn fits(spots: &[Spot; 3], triple: Triple, letters: &Letters) -> Option<Letters> {
    let mut letters = letters.clone();
    for (spot, term) in spots.iter().zip([triple.0, triple.1, triple.2]) {
        let held = match spot {
            Spot::Known(name) => *name,
            Spot::Letter(letter) => *letters.entry(*letter).or_insert(term),
        };
        if held != term {
            return None;
        }
    }
    Some(letters)
}

fn conclude(kind: u8, rule: &[[Spot; 3]], rows: &[Row], letters: &Letters, ann: u64) -> Vec<Row> {
    let (first, rest) = rule.split_first().unwrap();
    if rest.is_empty() {
        let terms = first.map(|spot| match spot {
            Spot::Known(name) => name,
            Spot::Letter(letter) => letters[&letter],
        });
        let drawn = terms[1] < 16384 && ann != 0;
        return if drawn { vec![row(terms[0], terms[1], terms[2], ann)] } else { Vec::new() };
    }
    let mut all = Vec::new();
    for (triple, other) in rows {
        if let Some(letters) = fits(first, *triple, letters) {
            all.extend(conclude(kind, rest, rows, &letters, annotation::and(kind, ann, *other)));
        }
    }
    all
}

/// One round of every rule of the set.
fn round(kind: u8, rules: u8, rows: &[Row]) -> Vec<Row> {
    let start = annotation::top(kind);
    let rules = RULES.iter().take(if rules == 2 { 18 } else { 8 }).map(|text| rule(text));
    rules.flat_map(|rule| conclude(kind, &rule, rows, &Letters::new(), start)).collect()
}

fn brute(kind: u8, rules: u8, rows: &[Row]) -> Vec<Row> {
    let mut map: BTreeMap<Triple, u64> = rows.iter().copied().collect();
    loop {
        let rows: Vec<Row> = map.clone().into_iter().collect();
        for new in round(kind, rules, &rows) {
            table::join_in(kind, &mut map, new);
        }
        if map.iter().map(|(triple, ann)| (*triple, *ann)).eq(rows.iter().copied()) {
            return rows;
        }
    }
}

#[test]
fn the_closure_is_the_one_the_rules_give() {
    let mut random = Random::new(1);
    let mut grown = [0, 0];
    for _ in 0..1200 {
        let kind = trial::random::legal_kind(&mut random);
        let rules = legal_rules(&mut random);
        let rows = closings::rows(&mut random, kind);
        if rows.len() > 12 {
            continue;
        }
        let Some(closed) = closing::closure(kind, rules, &rows, 60) else {
            continue;
        };
        grown[usize::from(rules) - 1] += usize::from(closed.len() > rows.len() + 2);
        assert_eq!(closed, brute(kind, rules, &rows), "kind {kind}, rule set {rules}, {rows:?}");
    }
    assert!(grown.iter().all(|grown| *grown > 100), "{grown:?}");
}

/// What comes one row, or one year, after another.
#[test]
fn the_closure_is_the_one_the_rules_give_of_books_made_to_be_slow() {
    for order in slow::ORDERS {
        for (name, kind, rows) in slow::books(order, 16) {
            for rules in [1, 2] {
                let closed = closing::closure(kind, rules, &rows, 1024);
                assert_eq!(closed, Some(brute(kind, rules, &rows)), "{name} {order}, {rules}");
            }
        }
    }
}

/// Rule set 2 draws all that rule set 1 does, and from any row at least (sp sp sp).
#[test]
fn rule_set_2_draws_more() {
    let mut random = Random::new(4);
    let mut more = 0;
    for _ in 0..300 {
        let kind = trial::random::legal_kind(&mut random);
        let rows = closings::rows(&mut random, kind);
        let (Some(one), Some(two)) =
            (closing::closure(kind, 1, &rows, 300), closing::closure(kind, 2, &rows, 300))
        else {
            continue;
        };
        let two: BTreeMap<Triple, u64> = two.into_iter().collect();
        for (triple, ann) in &one {
            assert!(annotation::at_most(kind, *ann, two[triple]));
        }
        assert!(rows.is_empty() || two.contains_key(&(SP, SP, SP)));
        more += usize::from(two.len() > one.len());
    }
    assert!(more > 100, "{more}");
}

#[test]
fn the_closure_holds_the_input_and_is_closed() {
    let mut random = Random::new(2);
    for _ in 0..300 {
        let (kind, rules, mut lanes, count) = closings::any(&mut random);
        let before = lanes.clone();
        let out = closing::close(kind, rules, &mut lanes, count);
        if out.number == 12 {
            assert_eq!((lanes, out.count), (Lanes::zero(before.room()), 0));
            continue;
        }
        if out.number != 0 {
            assert_eq!((lanes, out.count), (before, count));
            continue;
        }
        assert!(table::check(kind, &lanes, out.count).done());
        let map: BTreeMap<Triple, u64> = table::rows(&lanes, out.count).into_iter().collect();
        for (triple, ann) in table::rows(&before, count) {
            assert!(annotation::at_most(kind, ann, map[&triple]));
        }
        let rows = table::rows(&lanes, out.count);
        for (triple, ann) in closing::conclusions(kind, rules, &rows) {
            assert!(map.get(&triple).is_some_and(|held| annotation::at_most(kind, ann, *held)));
        }
        let past = table::rows(&lanes, lanes.room()).split_off(out.count);
        assert!(past.iter().all(|row| *row == ((0, 0, 0), 0)));
        // Closing again changes nothing.
        let once = lanes.clone();
        assert_eq!(closing::close(kind, rules, &mut lanes, out.count), out);
        assert_eq!(lanes, once);
    }
}

/// For sets, each bit closes by itself; for degrees, each level does.
#[test]
fn the_closure_is_the_least_bit_by_bit_and_level_by_level() {
    let mut random = Random::new(3);
    for _ in 0..240 {
        let (kind, rules) = (random.pick(&[1, 3]), legal_rules(&mut random));
        let rows = closings::rows(&mut random, kind);
        let Some(closed) = closing::closure(kind, rules, &rows, 200) else {
            continue;
        };
        let cuts: Vec<u64> =
            if kind == 3 { vec![1, 500, 600, 1000] } else { vec![1, 2, 128, 1 << 63] };
        for cut in cuts {
            let keep = |rows: &[Row]| -> Vec<Row> {
                let kept = rows.iter().filter(|row| annotation::at_most(kind, cut, row.1));
                kept.map(|row| (row.0, cut)).collect()
            };
            assert_eq!(keep(&closed), closing::closure(kind, rules, &keep(&rows), 1024).unwrap());
        }
    }
}

#[test]
fn twelve_exactly_when_the_closure_has_more_rows_than_the_room() {
    let chain = |length: u16| -> Vec<Row> {
        (0..length).map(|at| row(100 + at, SC, 101 + at, 1000)).collect()
    };
    // A chain of 44 closes to 990 rows, one of 45 to 1,035. In rule set 2 a chain of 43 has 44 links
    // of a class to itself and two rows of sp more: 992; one of 44 has 1,037.
    for (rules, links, rows) in [(1, 44, 990), (2, 43, 992), (2, 30, 498)] {
        for room in [usize::from(links), rows - 1, rows, rows + 1, 1024] {
            let mut table = lanes(&chain(links), room);
            let out = closing::close(3, rules, &mut table, links.into());
            let (number, count) = if room < rows { (12, 0) } else { (0, rows) };
            assert_eq!((out.number, out.place, out.count), (number, 0, count), "{rules} {room}");
        }
    }
    for (rules, links) in [(1, 45), (1, 1024), (2, 44), (2, 45), (2, 1024)] {
        let mut table = lanes(&chain(links), 1024);
        assert_eq!(closing::close(3, rules, &mut table, links.into()).number, 12);
    }
}

/// Closures of 1,023 to 1,025 rows, into 1,024.
#[test]
fn twelve_at_the_longest_lanes() {
    let mut random = Random::new(6);
    let mut met = BTreeMap::new();
    for _ in 0..60 {
        let (kind, rules) = (trial::random::legal_kind(&mut random), legal_rules(&mut random));
        let rows = closings::brim(&mut random, kind, rules);
        let whole = closing::closure(kind, rules, &rows, 2000).unwrap().len();
        let mut table = lanes(&rows, 1024);
        let out = closing::close(kind, rules, &mut table, rows.len());
        let expected = if whole > 1024 { (12, 0) } else { (0, whole) };
        assert_eq!((out.number, out.count), expected);
        *met.entry((rules, whole)).or_insert(0) += 1;
    }
    let sizes: Vec<(u8, usize)> = met.keys().copied().collect();
    let all = [1, 2].map(|rules| [1023, 1024, 1025].map(|rows| (rules, rows))).concat();
    assert_eq!(sizes, all, "{met:?}");
}

/// In rule set 1 nothing follows from uses of a property alone; in rule set 2 (20 sp 20), (sp sp sp)
/// do, so that two rows fewer fit.
#[test]
fn a_full_table_that_is_closed_already_is_done() {
    let uses = |count: u16| -> Vec<Row> { (0..count).map(|at| row(at, 20, 30, 5)).collect() };
    let rows = uses(1024);
    let mut table = lanes(&rows, 1024);
    let out = closing::close(1, 1, &mut table, 1024);
    assert_eq!((out.number, out.count), (0, 1024));
    assert_eq!(table, lanes(&rows, 1024));
    for (count, number) in [(1024, 12), (1023, 12), (1022, 0), (1021, 0)] {
        let out = closing::close(1, 2, &mut lanes(&uses(count), 1024), count.into());
        let rows = if number == 0 { usize::from(count) + 2 } else { 0 };
        assert_eq!((out.number, out.count), (number, rows));
    }
    // Closed once it has them, and then full.
    let mut table = lanes(&uses(1022), 1024);
    let out = closing::close(1, 2, &mut table, 1022);
    let once = table.clone();
    assert_eq!(closing::close(1, 2, &mut table, out.count), out);
    assert_eq!(table, once);
}
