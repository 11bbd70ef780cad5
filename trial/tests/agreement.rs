//! Running compiled steps lists the same answers and looks as the published meaning.

mod common;
use common::*;
use trial::meaning::{self, Answer, Asked};
use trial::question::{self, Part, Test};
use trial::random::{questions, tables, Random};
use trial::table;

/// A random question that passes the check, a small table, and its kind.
fn deal(random: &mut Random, parts: usize, rows: usize) -> (u8, Part, table::Lanes, usize) {
    let kind = trial::random::legal_kind(random);
    let part = questions::valid(random, kind, parts);
    let part = question::checked(kind, &question::bytes_of(&part)).expect("valid");
    let (lanes, count) = tables::small(random, kind, rows);
    (kind, part, lanes, count)
}

fn lines(answers: &[Answer]) -> Vec<Line> {
    answers.iter().map(Answer::lanes).collect()
}

#[test]
fn whole_runs_agree_with_the_meaning() {
    let mut random = Random::new(21);
    let (mut answered, mut compared) = (0, 0);
    for _ in 0..3000 {
        let parts = random.from_to(1, 9);
        let (kind, part, table, count) = deal(&mut random, parts, 12);
        let rows = table::rows(&table, count);
        let asked = Asked { kind, rows: &rows };
        let looks = meaning::looks(asked, &part, &Answer::default());
        if looks > 20_000 {
            continue;
        }
        let answers = meaning::answers(asked, &part);
        let room = 256;
        let (ran, given) = run_part(kind, (&table, count), &part, u32::MAX, room);
        let meant = meaning::run(asked, &part, u32::MAX, room);
        assert_eq!((ran.number, ran.looks), (meant.number, meant.looks));
        assert_eq!(given, lines(&meant.answers));
        compared += 1;
        if answers.len() <= room {
            answered += usize::from(!answers.is_empty());
            assert_eq!((ran.number, u64::from(ran.looks)), (0, looks));
            assert_eq!(given, lines(&answers));
        } else {
            assert_eq!((ran.number, given), (12, lines(&answers[..room])));
        }
    }
    assert!(compared > 2500 && answered > 900, "{compared} {answered}");
}

#[test]
fn runs_cut_at_every_look_and_every_answer_agree() {
    let mut random = Random::new(22);
    let mut cuts = 0;
    for _ in 0..2000 {
        let parts = random.from_to(1, 7);
        let (kind, part, table, count) = deal(&mut random, parts, 6);
        let rows = table::rows(&table, count);
        let asked = Asked { kind, rows: &rows };
        let looks = meaning::looks(asked, &part, &Answer::default());
        let answers = meaning::answers(asked, &part);
        if looks > 60 || answers.len() > 20 {
            continue;
        }
        for allowed in 0..=looks as u32 + 1 {
            for room in 0..=answers.len() + 1 {
                let (ran, given) = run_part(kind, (&table, count), &part, allowed, room);
                let meant = meaning::run(asked, &part, allowed, room);
                assert_eq!((ran.number, ran.looks), (meant.number, meant.looks));
                assert_eq!(given, lines(&meant.answers));
                // The answers before the cut stand, and only a true shortage cuts.
                assert_eq!(meant.answers, answers[..given.len()]);
                let enough = u64::from(allowed) >= looks && room >= answers.len();
                assert_eq!(ran.number == 0, enough);
                cuts += 1;
            }
        }
    }
    assert!(cuts > 10_000, "{cuts}");
}

#[test]
fn large_questions_agree_under_a_budget() {
    let mut random = Random::new(23);
    for _ in 0..400 {
        let parts = random.from_to(10, 32);
        let (kind, part, table, count) = deal(&mut random, parts, 12);
        let rows = table::rows(&table, count);
        let allowed = random.below(3000) as u32;
        let room = random.below(257);
        let (ran, given) = run_part(kind, (&table, count), &part, allowed, room);
        let meant = meaning::run(Asked { kind, rows: &rows }, &part, allowed, room);
        assert_eq!((ran.number, ran.looks), (meant.number, meant.looks));
        assert_eq!(given, lines(&meant.answers));
    }
}

#[test]
fn large_tables_agree() {
    let mut random = Random::new(24);
    for _ in 0..20 {
        let kind = trial::random::legal_kind(&mut random);
        let rows = tables::ascending(&mut random, kind, 1024);
        let table = lanes(&rows, 1024);
        let part = questions::valid(&mut random, kind, 4);
        let (ran, given) = run_part(kind, (&table, 1024), &part, 50_000, 256);
        let meant = meaning::run(Asked { kind, rows: &rows }, &part, 50_000, 256);
        assert_eq!((ran.number, ran.looks), (meant.number, meant.looks));
        assert_eq!(given, lines(&meant.answers));
    }
}

/// Equal answers are kept; EITHER lists left, then right.
#[test]
fn equal_answers_are_kept() {
    let table = lanes(&P1_CLOSED, 3);
    let one = || triple(c(10), c(TYPE), v(0), ca(32));
    let (ran, given) = run_part(1, (&table, 3), &either(one(), one()), 100, 9);
    assert_eq!((ran.answers, ran.looks), (4, 6));
    assert_eq!(given.iter().map(|line| line.0[0]).collect::<Vec<_>>(), [11, 12, 11, 12]);
}

/// The looks of a BOTH on the right depend on the bindings it is reached with.
#[test]
fn looks_of_a_part_reached_with_bindings() {
    let rows = [row(10, 5, 11, 1), row(11, 5, 12, 1), row(20, 5, 21, 1)];
    let link = |from, to| triple(v(from), c(5), v(to), ca(1));
    let part = both(link(0, 1), both(link(1, 2), link(2, 3)));
    let asked = Asked { kind: 1, rows: &rows };
    // 3 for the left, 3 for each of its 3 answers, 3 for the one of those that joins.
    assert_eq!(meaning::looks(asked, &part, &Answer::default()), 15);
    let table = lanes(&rows, 3);
    assert_eq!(run_part(1, (&table, 3), &part, 100, 9).0.looks, 15);
    // By itself the right part has one answer of its own, and costs 12.
    let right = both(link(1, 2), link(2, 3));
    assert_eq!(meaning::looks(asked, &right, &Answer::default()), 12);
}

/// A tree of BOTHs in a random shape, over links between few terms.
fn links(random: &mut Random, triples: usize) -> Part {
    if triples <= 1 {
        let (from, to) = (random.below(4) as u16, random.below(4) as u16);
        return triple(v(from), c(5), v(to), va(random.below(2) as u64));
    }
    let left = random.from_to(1, triples - 1);
    both(links(random, left), links(random, triples - left))
}

#[test]
fn both_in_any_shape_costs_what_its_bindings_leave() {
    let mut random = Random::new(25);
    for _ in 0..1500 {
        let terms = random.from_to(2, 4);
        let mut map = std::collections::BTreeMap::new();
        for _ in 0..random.from_to(1, 6) {
            let (from, to) = (random.below(terms) as u16, random.below(terms) as u16);
            map.insert((from, 5, to), trial::random::annotation(&mut random, 1) & 7 | 8);
        }
        let rows: Vec<table::Row> = map.into_iter().collect();
        let asked = Asked { kind: 1, rows: &rows };
        let parts = random.from_to(2, 6);
        let part = links(&mut random, parts);
        let looks = meaning::looks(asked, &part, &Answer::default());
        let table = lanes(&rows, rows.len());
        let (ran, given) = run_part(1, (&table, rows.len()), &part, u32::MAX, 256);
        let meant = meaning::run(asked, &part, u32::MAX, 256);
        assert_eq!((ran.number, ran.looks), (meant.number, meant.looks));
        assert_eq!(given, lines(&meant.answers));
        assert!(ran.number == 12 || u64::from(ran.looks) == looks);
    }
}

/// A test judged apart from what is joined to it outside: what 22 is for.
#[test]
fn a_question_that_22_refuses_would_differ() {
    let part = both(
        only(triple(v(0), c(TYPE), c(11), va(0)), Test::AtLeast(0, 24)),
        triple(v(0), c(TYPE), c(12), va(0)),
    );
    assert_eq!(compiled_part(1, &part), (22, 3));
    let meant = meaning::answers(Asked { kind: 1, rows: &P1_CLOSED }, &part);
    assert_eq!(meant[0].anns[&0], 96, "24 is not at most 96, yet the answer stands");
}
