//! Questions with the number and place that each must get, worked out from the document by hand.
//!
//! A TRIPLE is 21 bytes, a holder's own tag and length 3: the left part of the outermost BOTH,
//! EITHER or ONLY begins at 3, what follows a TRIPLE there at 24.

use crate::stored::SHEETS_0_AND_1;

/// A name, a kind, the bytes, and the number and place that compiling must give.
pub type Question = (&'static str, u8, Vec<u8>, u32, u64);

pub const BOTH: u8 = 17;
pub const EITHER: u8 = 18;
const ONLY: u8 = 19;

pub fn con(value: u16) -> [u8; 3] {
    let [high, low] = value.to_be_bytes();
    [0, high, low]
}

pub fn var(value: u16) -> [u8; 3] {
    let [high, low] = value.to_be_bytes();
    [1, high, low]
}

pub fn ann(mark: u8, value: u64) -> Vec<u8> {
    [&[mark][..], &value.to_be_bytes()].concat()
}

/// 21 bytes.
pub fn triple(s: [u8; 3], p: [u8; 3], o: [u8; 3], a: &[u8]) -> Vec<u8> {
    [&[16, 0, 18][..], &s, &p, &o, a].concat()
}

/// (?term type 11):?ann
pub fn lamp(term: u16, annotation: u64) -> Vec<u8> {
    triple(var(term), con(2), con(11), &ann(1, annotation))
}

pub fn holder(tag: u8, held: &[&[u8]]) -> Vec<u8> {
    let value = held.concat();
    [&[tag][..], &(value.len() as u16).to_be_bytes(), &value].concat()
}

/// 10 bytes.
pub fn terms(mark: u8, x: [u8; 3], y: [u8; 3]) -> Vec<u8> {
    [&[20, 0, 7, mark][..], &x, &y].concat()
}

/// 14 bytes.
pub fn least(variable: u16, constant: u64) -> Vec<u8> {
    [&[20, 0, 11, 2][..], &variable.to_be_bytes(), &constant.to_be_bytes()].concat()
}

pub fn only(part: &[u8], test: &[u8]) -> Vec<u8> {
    holder(ONLY, &[part, test])
}

/// So many parts, each but the last the left one of a holder: the holder i of them begins at
/// 24 i, its left part 3 on. The last part begins where the last holder's right part does.
fn chain(tag: u8, triples: usize, last: &[u8]) -> Vec<u8> {
    (1..triples).fold(last.to_vec(), |rest, _| holder(tag, &[&lamp(0, 0), &rest]))
}

/// So many ONLYs around one TRIPLE: 3 bytes each in front of it.
fn onlys(count: usize) -> Vec<u8> {
    (0..count).fold(lamp(0, 0), |part, _| only(&part, &terms(0, var(0), con(10))))
}

pub fn all() -> Vec<Question> {
    [whole(), fields(), tags(), shapes(), variables(), constants(), counts(), bound(), outside()]
        .concat()
}

/// P11: BOTH of (?0 type 11):?0 and (?0 type 12):?0.
pub fn p11() -> Vec<u8> {
    holder(BOTH, &[&lamp(0, 0), &triple(var(0), con(2), con(12), &ann(1, 0))])
}

/// EITHER of two ONLYs, with a test on terms to the left and one on an annotation to the right.
pub fn forked() -> Vec<u8> {
    let left = only(&lamp(15, 7), &terms(1, var(15), con(16_384)));
    holder(EITHER, &[&left, &only(&lamp(1, 3), &least(3, 5))])
}

/// 15 EITHER, 16 TRIPLE and an ONLY of ?0 equal ?0 (C-14): 32 parts, 48 steps, 394 bytes.
pub fn longest() -> Vec<u8> {
    only(&chain(EITHER, 16, &lamp(0, 0)), &terms(0, var(0), var(0)))
}

fn whole() -> Vec<Question> {
    vec![
        ("a TRIPLE", 1, lamp(0, 0), 0, 0),
        ("P11", 1, p11(), 0, 0),
        ("EITHER of two ONLY", 1, forked(), 0, 0),
        ("32 parts, 48 steps", 1, longest(), 0, 0),
        ("4: kind 0", 0, lamp(0, 0), 4, 0),
        ("4: kind 2, before 16", 2, vec![], 4, 0),
    ]
}

fn fields() -> Vec<Question> {
    let one = lamp(0, 0);
    let good = terms(0, var(0), con(10));
    let loose = terms(0, var(9), con(10));
    let long = [&[16, 0, 19][..], &one[3..]].concat();
    let late = [&[18, 0, 45][..], &one, &one].concat();
    let wrong = [&[16, 0, 17][..], &one[3..20]].concat();
    vec![
        ("16: empty", 1, vec![], 16, 0),
        ("16: one byte", 1, vec![16], 16, 0),
        ("16: two bytes", 1, vec![16, 0], 16, 0),
        ("16: a TRIPLE cut", 1, one[..20].to_vec(), 16, 0),
        ("16 before 17", 1, vec![99, 0, 5], 16, 0),
        ("16: BOTH of length 0", 1, vec![17, 0, 0], 16, 3),
        ("16: EITHER of length 0", 1, vec![18, 0, 0], 16, 3),
        ("16: ONLY of length 0", 1, vec![19, 0, 0], 16, 3),
        ("16: no right part", 1, holder(BOTH, &[&one]), 16, 24),
        ("16: no test", 1, holder(ONLY, &[&one]), 16, 24),
        ("16: two bytes for a right part", 1, holder(BOTH, &[&one, &[16, 0]]), 16, 24),
        ("16: a byte for a test", 1, holder(ONLY, &[&one, &[20]]), 16, 24),
        ("16: too long for BOTH", 1, holder(BOTH, &[&one, &long]), 16, 24),
        ("16: EITHER too long for BOTH", 1, holder(BOTH, &[&one, &late]), 16, 24),
        (
            "16: it is the holder's end",
            1,
            [holder(BOTH, &[&one, &long]), one.clone()].concat(),
            16,
            24,
        ),
        ("16: three parts", 1, holder(BOTH, &[&one, &one, &one]), 16, 0),
        ("16: a third that is no part", 1, holder(EITHER, &[&one, &one, &[99, 0, 0]]), 16, 0),
        ("16: three parts, nested", 1, only(&holder(BOTH, &[&one, &one, &one]), &good), 16, 3),
        ("16: two tests", 1, holder(ONLY, &[&one, &good, &good]), 16, 0),
        (
            "16: a byte after the test, nested",
            1,
            holder(EITHER, &[&one, &holder(ONLY, &[&one, &good, &[0]])]),
            16,
            24,
        ),
        ("16: a byte after the question", 1, [one.clone(), vec![0]].concat(), 16, 0),
        ("16: two questions", 1, [one.clone(), one.clone()].concat(), 16, 0),
        ("16 after the question, before 21", 1, [only(&one, &loose), vec![0]].concat(), 16, 0),
        ("18 inside, before what is left over", 1, holder(BOTH, &[&one, &wrong, &[0]]), 18, 24),
        ("18 inside, before what is left over after", 1, [wrong, vec![0]].concat(), 18, 0),
    ]
}

fn tags() -> Vec<Question> {
    let one = lamp(0, 0);
    let good = terms(0, var(0), con(10));
    vec![
        ("17: tag 15", 1, vec![15, 0, 0], 17, 0),
        ("17: tag 21", 1, vec![21, 0, 0], 17, 0),
        ("17: a test outermost", 1, good.clone(), 17, 0),
        ("17: a book's row in EITHER", 1, holder(EITHER, &[&[3, 0, 0], &one]), 17, 3),
        ("17: a test for a part", 1, holder(BOTH, &[&one, &good]), 17, 24),
        ("17: a part for a test", 1, holder(ONLY, &[&one, &one]), 17, 24),
        ("17: a part for a test, nested", 1, holder(BOTH, &[&only(&one, &one), &one]), 17, 27),
        ("17: a test before the part", 1, holder(ONLY, &[&good, &one]), 17, 3),
    ]
}

fn shapes() -> Vec<Question> {
    let one = lamp(0, 0);
    let mark = |at: usize, value: u8| {
        let mut bytes = one.clone();
        bytes[at] = value;
        bytes
    };
    let tested = |test: &[u8]| only(&one, test);
    vec![
        ("18: TRIPLE of length 17", 1, [&[16, 0, 17][..], &one[3..20]].concat(), 18, 0),
        ("18: TRIPLE of length 19", 1, [&[16, 0, 19][..], &one[3..], &[0]].concat(), 18, 0),
        ("18: TRIPLE of length 0, nested", 1, holder(BOTH, &[&[16, 0, 0], &one]), 18, 3),
        ("18: subject's mark", 1, mark(3, 2), 18, 0),
        ("18: predicate's mark", 1, mark(6, 2), 18, 0),
        ("18: object's mark", 1, mark(9, 255), 18, 0),
        ("18: annotation's mark, nested", 1, holder(EITHER, &[&one, &mark(12, 2)]), 18, 24),
        ("18: test of length 0", 1, tested(&[20, 0, 0]), 18, 24),
        ("18: test of length 8", 1, tested(&[20, 0, 8, 0, 1, 0, 0, 0, 0, 10, 0]), 18, 24),
        ("18: test's mark 3", 1, tested(&terms(3, var(0), con(10))), 18, 24),
        ("18: mark 2 with length 7", 1, tested(&terms(2, var(0), con(10))), 18, 24),
        ("18: mark 0 with length 11", 1, tested(&[&[20, 0, 11][..], &[0; 11]].concat()), 18, 24),
        ("18: test's second slot", 1, tested(&terms(1, var(0), [2, 0, 10])), 18, 24),
        ("18: the test of an inner ONLY", 1, tested_twice(&one), 18, 27),
    ]
}

fn tested_twice(part: &[u8]) -> Vec<u8> {
    only(&only(part, &terms(3, var(0), con(10))), &terms(3, var(0), con(10)))
}

fn variables() -> Vec<Question> {
    let one = lamp(0, 0);
    vec![
        ("the last variables", 1, lamp(15, 7), 0, 0),
        ("19: subject ?16", 1, lamp(16, 0), 19, 0),
        ("19: predicate ?16", 1, triple(var(0), var(16), con(11), &ann(1, 0)), 19, 0),
        ("19: object ?65535", 1, triple(var(0), con(2), var(65_535), &ann(1, 0)), 19, 0),
        ("19: annotation ?8, nested", 1, holder(BOTH, &[&one, &lamp(0, 8)]), 19, 24),
        ("19: all 8 bytes of an annotation variable", 1, lamp(0, 1 << 32), 19, 0),
        ("19: test's first slot", 1, only(&one, &terms(0, var(16), var(0))), 19, 24),
        ("19: test's second slot", 1, only(&one, &terms(1, var(0), var(256))), 19, 24),
        ("19: test's annotation variable", 1, only(&one, &least(8, 5)), 19, 24),
        ("19: both bytes of it", 1, only(&one, &least(256, 5)), 19, 24),
        ("19 before the next slot's 18", 1, triple(var(16), [2, 0, 2], con(11), &ann(1, 0)), 19, 0),
        ("18 before the next slot's 19", 1, triple([2, 0, 0], var(16), con(11), &ann(1, 0)), 18, 0),
    ]
}

fn constants() -> Vec<Question> {
    let one = lamp(0, 0);
    let with = |s: u16, p: u16, o: u16, a: u64| triple(con(s), con(p), con(o), &ann(0, a));
    vec![
        ("the last constants", 5, with(65_534, 16_383, 65_534, u64::MAX), 0, 0),
        ("C-17: the first value", 5, with(49_152, 16_383, 49_152, u64::MAX), 0, 0),
        ("8: subject", 1, with(65_535, 2, 11, 1), 8, 0),
        ("8: predicate", 1, with(10, 65_535, 11, 1), 8, 0),
        ("9: predicate a value (C-17)", 1, with(10, 49_152, 11, 1), 9, 0),
        ("8: object, nested", 1, holder(EITHER, &[&one, &with(10, 2, 65_535, 1)]), 8, 24),
        ("10: bottom in kind 5", 5, with(10, 2, 11, 0), 10, 0),
        ("28: bit 3 alone", 5, with(10, 2, 12, 8), 28, 0),
        ("28: nested", 5, holder(BOTH, &[&one, &with(10, 2, 11, 1)]), 28, 24),
        ("9 before 28", 5, with(10, 16_384, 11, 8), 9, 0),
        ("sheets 0 and 1", 5, with(10, 2, 11, SHEETS_0_AND_1), 0, 0),
        ("28: a test's constant", 5, only(&one, &least(0, 8)), 28, 24),
        ("28: a test's, before 21", 5, only(&one, &least(5, 2)), 28, 24),
        ("9: predicate a blank", 1, with(10, 16_384, 11, 1), 9, 0),
        (
            "9: predicate a literal, nested",
            1,
            holder(BOTH, &[&one, &with(10, 32_768, 11, 1)]),
            9,
            24,
        ),
        ("9 before the object's 8", 1, with(10, 16_384, 65_535, 1), 9, 0),
        ("8: subject, before 9", 1, with(65_535, 16_384, 11, 1), 8, 0),
        ("10: bottom", 1, with(10, 2, 11, 0), 10, 0),
        ("10: 1001 in kind 3", 3, with(10, 2, 11, 1001), 10, 0),
        ("1001 in kind 1", 1, with(10, 2, 11, 1001), 0, 0),
        ("10: 1001 in kind 4, nested", 4, holder(BOTH, &[&with(10, 2, 11, 1001), &one]), 10, 3),
        ("8 before 10", 3, with(10, 2, 65_535, 0), 8, 0),
        ("8: a test's constant", 1, only(&one, &terms(1, var(0), con(65_535))), 8, 24),
        ("a value in a test (C-17)", 1, only(&one, &terms(1, var(0), con(49_652))), 0, 0),
        ("no 9 in a test", 1, only(&one, &terms(1, var(0), con(16_384))), 0, 0),
        ("10: a test's constant 0", 1, only(&one, &least(0, 0)), 10, 24),
        ("10: a test's 1001 in kind 3", 3, only(&one, &least(0, 1001)), 10, 24),
        ("10: a test's, before 21", 3, only(&one, &least(5, 0)), 10, 24),
    ]
}

fn counts() -> Vec<Question> {
    let good = terms(0, var(0), con(10));
    let short = [&[16, 0, 17][..], &lamp(0, 0)[3..20]].concat();
    vec![
        ("31 parts", 1, chain(BOTH, 16, &lamp(0, 0)), 0, 0),
        ("32 parts", 1, only(&chain(BOTH, 16, &lamp(0, 0)), &good), 0, 0),
        ("20: the 33rd is the last TRIPLE", 1, chain(BOTH, 17, &lamp(0, 0)), 20, 384),
        ("20 in EITHERs", 1, chain(EITHER, 17, &lamp(0, 0)), 20, 384),
        ("20 before 18", 1, chain(BOTH, 17, &short), 20, 384),
        ("17 before 20", 1, chain(BOTH, 17, &good), 17, 384),
        ("16 before 20", 1, chain(BOTH, 17, &[16, 0]), 16, 384),
        ("31 ONLY and a TRIPLE", 1, onlys(31), 0, 0),
        ("20: 32 ONLY and a TRIPLE", 1, onlys(32), 20, 96),
        ("20: the 33rd is an ONLY", 1, onlys(33), 20, 96),
    ]
}

fn bound() -> Vec<Question> {
    let other = lamp(1, 1);
    let good = terms(0, var(0), con(10));
    let loose = terms(0, var(1), con(10));
    let one = lamp(0, 0);
    let either = |l: &[u8], r: &[u8]| holder(EITHER, &[l, r]);
    let both = |l: &[u8], r: &[u8]| holder(BOTH, &[l, r]);
    vec![
        ("21: a term variable", 1, only(&one, &loose), 21, 0),
        ("21: the second slot's", 1, only(&one, &terms(1, var(0), var(1))), 21, 0),
        ("21: an annotation variable", 1, only(&one, &least(1, 5)), 21, 0),
        (
            "21: term and annotation variables are numbered apart",
            1,
            only(&lamp(0, 1), &least(0, 5)),
            21,
            0,
        ),
        ("21: bound by one side of EITHER", 1, only(&either(&one, &other), &good), 21, 0),
        ("bound by both sides of EITHER", 1, only(&either(&one, &lamp(0, 1)), &good), 0, 0),
        ("bound by one part of BOTH", 1, only(&both(&one, &other), &good), 0, 0),
        ("21: not by its own part", 1, both(&one, &only(&other, &good)), 21, 24),
        ("21: the lowest of two", 1, both(&only(&one, &loose), &only(&one, &loose)), 21, 3),
        ("21: ONLY before what it holds", 1, only(&only(&one, &loose), &loose), 21, 0),
        ("21: the inner ONLY", 1, only(&only(&one, &loose), &good), 21, 3),
        ("a test without variables", 1, only(&one, &terms(0, con(1), con(2))), 0, 0),
    ]
}

fn outside() -> Vec<Question> {
    let one = lamp(0, 0);
    let tested = only(&one, &least(0, 5));
    let loose = only(&one, &terms(0, var(1), con(10)));
    let both = |l: &[u8], r: &[u8]| holder(BOTH, &[l, r]);
    vec![
        ("22: to the right in BOTH", 1, both(&tested, &one), 22, 3),
        ("22: to the left in BOTH", 1, both(&one, &tested), 22, 24),
        ("22: the other side of EITHER", 1, holder(EITHER, &[&tested, &one]), 22, 3),
        ("22: the lowest of two", 1, both(&tested, &tested), 22, 3),
        ("22: two holders up", 1, both(&both(&lamp(1, 1), &tested), &one), 22, 27),
        ("21 before 22, whatever the places", 1, both(&tested, &loose), 21, 41),
        ("another variable outside", 1, both(&tested, &lamp(0, 1)), 0, 0),
        ("a term variable outside", 1, both(&only(&one, &terms(0, var(0), con(10))), &one), 0, 0),
        ("another test is no TRIPLE", 1, only(&tested, &least(0, 6)), 0, 0),
        ("inside its part it may stand twice", 1, only(&both(&one, &one), &least(0, 5)), 0, 0),
    ]
}
