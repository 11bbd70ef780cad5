//! C-14: 32 parts never need more than 48 steps; a question that needs exactly 48; there is no 25.

mod common;
use common::*;
use trial::pattern::Pattern;
use trial::question::{self, bytes_of, Part, Test};
use trial::random::{questions, Random};
use trial::steps::Step;

/// TRIPLE (?0 type 11):?0, 21 bytes.
const T: [u8; 21] = [
    0x10, 0x00, 0x12, 0x01, 0x00, 0x00, 0x00, 0x00, 0x02, 0x00, 0x00, 0x0B, 0x01, //
    0x00, 0x00, 0x00, 0x00, 0x00, 0x00, 0x00, 0x00,
];

/// T behind so many EITHERs, each of 18 + 24 k bytes.
fn eithers(count: u16) -> Vec<u8> {
    let heads = (1..=count).rev().map(|k| (18 + 24 * k).to_be_bytes());
    let ahead = heads.flat_map(|[high, low]| [&[0x12, high, low][..], &T].concat());
    ahead.chain(T).collect()
}

/// ONLY of 15 EITHERs, with the test ?0 equal ?0.
fn longest() -> Vec<u8> {
    let test = [0x14, 0x00, 0x07, 0x00, 0x01, 0x00, 0x00, 0x01, 0x00, 0x00];
    [&[0x13, 0x01, 0x87][..], &eithers(15), &test].concat()
}

fn asks_11() -> Part {
    triple(v(0), c(TYPE), c(11), va(0))
}

/// Parts and steps of a question in bytes.
fn counted(bytes: &[u8]) -> (usize, usize) {
    let mut records = vec![Step::default(); 48];
    let out = question::compile(1, bytes, &mut records);
    assert_eq!(out.number, 0);
    (question::checked(1, bytes).unwrap().parts(), out.steps)
}

#[test]
fn the_question_that_needs_48() {
    let bytes = longest();
    assert_eq!(bytes.len(), 394);
    assert_eq!(bytes[..6], [0x13, 0x01, 0x87, 0x12, 0x01, 0x7A]);
    assert_eq!((bytes[339], bytes[363], bytes[384]), (0x12, 0x10, 0x14));
    let seek = Step::seek(Pattern { subj: v(0), pred: c(TYPE), obj: c(11), ann: va(0) });
    let rungs = (0..15).flat_map(|k| [Step::fork(3 * k + 3), seek, Step::go(46)]);
    let expected: Vec<Step> =
        rungs.chain([seek, Step::test_terms(0, v(0), v(0)), Step::give()]).collect();
    for kind in [1, 3, 4, 5] {
        let mut records = vec![Step::default(); 50];
        let out = question::compile(kind, &bytes, &mut records);
        assert_eq!((out.number, out.place, out.steps), (0, 0, 48));
        assert_eq!(records[..48], expected);
        assert_eq!(records[48..], [Step::default(); 2]);
    }
    assert_eq!(counted(&bytes), (32, 48));
}

#[test]
fn it_has_16_answers_in_48_looks_over_p1() {
    let part = question::checked(1, &longest()).unwrap();
    let (ran, lines) = run_part(1, (&lanes(&P1_CLOSED, 3), 3), &part, 48, 16);
    assert_eq!((ran.number, ran.answers, ran.looks), (0, 16, 48));
    let (mut terms, mut anns) = ([65_535; 16], [0; 8]);
    (terms[0], anns[0]) = (10, 120);
    assert_eq!(lines, [(terms, anns); 16]);
}

#[test]
fn the_other_worked_counts() {
    assert_eq!(counted(&eithers(15)), (31, 47));
    let test = || Test::Equal(v(0), v(0));
    let onlys = (0..31).fold(asks_11(), |part, _| only(part, test()));
    assert_eq!(counted(&bytes_of(&onlys)), (32, 33));
    let boths = (0..15).fold(asks_11(), |part, _| both(asks_11(), part));
    assert_eq!(counted(&bytes_of(&only(boths, test()))), (32, 18));
}

/// BOTHs, EITHERs and ONLYs of a part.
fn holders(part: &Part) -> [usize; 3] {
    let sum = |left: [usize; 3], right: [usize; 3]| [0, 1, 2].map(|at| left[at] + right[at]);
    match part {
        Part::Triple(_) => [0; 3],
        Part::Both(left, right) => sum([1, 0, 0], sum(holders(left), holders(right))),
        Part::Either(left, right) => sum([0, 1, 0], sum(holders(left), holders(right))),
        Part::Only { part, .. } => sum([0, 0, 1], holders(part)),
    }
}

#[test]
fn steps_are_counted_by_parts() {
    let mut random = Random::new(1414);
    let mut most = 0;
    for parts in (1..=32).cycle().take(20_000) {
        let part = questions::valid(&mut random, 1, parts);
        let steps = question::flat(&part).len();
        let [boths, eithers, onlys] = holders(&part);
        assert_eq!(steps + boths, parts + 1 + eithers);
        assert_eq!(parts, 2 * (boths + eithers) + 1 + onlys);
        assert!(steps <= 48);
        most = most.max(steps);
    }
    assert!(most >= 40, "{most}");
}
