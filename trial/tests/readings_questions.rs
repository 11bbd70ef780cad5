//! The readings under "Questions", in their order, and each number a question is refused with.

mod common;
use common::*;
use trial::pattern::{AnnSlot, Slot};
use trial::question::{self, bytes_of, field, Part, Test};
use trial::question::{BOTH, EITHER, ONLY, TEST, TRIPLE};
use trial::steps::Step;

const BAD: u16 = 65_535;

fn t() -> Vec<u8> {
    bytes_of(&plain())
}

/// A TRIPLE of the right length with a fault in its first slot.
fn faulty() -> Vec<u8> {
    bytes_of(&triple(c(BAD), v(1), v(2), va(0)))
}

fn equal() -> Vec<u8> {
    field(TEST, &question::test_value(&Test::Equal(v(0), v(1))))
}

fn holder(tag: u8, held: &[&[u8]]) -> Vec<u8> {
    field(tag, &held.concat())
}

/// Number and place in kind 1.
fn number(bytes: &[u8]) -> (u32, u64) {
    compiled(1, bytes)
}

fn number_of(parts: &[&[u8]]) -> (u32, u64) {
    number(&parts.concat())
}

#[test]
fn a_fault_inside_wins_over_bytes_left_over() {
    assert_eq!(number(&holder(BOTH, &[&t(), &faulty(), &[1]])), (8, 24));
    assert_eq!(number(&holder(BOTH, &[&t(), &t(), &[1]])), (16, 0));
    assert_eq!(number_of(&[&faulty(), &[1]]), (8, 0));
    assert_eq!(number_of(&[&t(), &[1]]), (16, 0));
    // A holder inside: its own left over, before the outer one's.
    let inner = holder(EITHER, &[&t(), &t(), &[9, 9]]);
    assert_eq!(number(&holder(BOTH, &[&t(), &inner, &[1]])), (16, 24));
    // Both win over 21 and 22.
    let unbound = bytes_of(&only(plain(), Test::Equal(v(9), v(9))));
    assert_eq!(number_of(&[&unbound]), (21, 0));
    assert_eq!(number_of(&[&unbound, &[1]]), (16, 0));
    assert_eq!(number(&holder(BOTH, &[&unbound, &t(), &[0]])), (16, 0));
    assert_eq!(number(&holder(BOTH, &[&unbound, &faulty()])), (8, 3 + unbound.len() as u64));
    // The holder's own 17 wins over anything in it.
    assert_eq!(number(&holder(99, &[&faulty()])), (17, 0));
}

#[test]
fn missing_and_cut_fields() {
    assert_eq!(number(&[]), (16, 0));
    assert_eq!(number(&[TRIPLE]), (16, 0));
    assert_eq!(number(&[TRIPLE, 0]), (16, 0));
    assert_eq!(number(&[BOTH, 0, 0]), (16, 3));
    assert_eq!(number(&[EITHER, 0, 0]), (16, 3));
    assert_eq!(number(&[ONLY, 0, 0]), (16, 3));
    // At byte p inside another holder: p + 3, its own end.
    assert_eq!(number(&holder(BOTH, &[&[ONLY, 0, 0], &t()])), (16, 6));
    // The second part or the test missing: the holder's end.
    assert_eq!(number(&holder(BOTH, &[&t()])), (16, 24));
    assert_eq!(number(&holder(ONLY, &[&t()])), (16, 24));
    assert_eq!(number(&holder(BOTH, &[&holder(ONLY, &[&t()]), &t()])), (16, 27));
    // One or two bytes where one should begin, then after the last wanted field.
    for stray in [&[TRIPLE][..], &[TRIPLE, 0], &[9, 9]] {
        assert_eq!(number(&holder(BOTH, &[stray])), (16, 3));
        assert_eq!(number(&holder(BOTH, &[&t(), stray])), (16, 24));
        assert_eq!(number(&holder(ONLY, &[&t(), stray])), (16, 24));
        assert_eq!(number(&holder(BOTH, &[&t(), &t(), stray])), (16, 0));
        assert_eq!(number(&holder(ONLY, &[&t(), &equal(), stray])), (16, 0));
        assert_eq!(number_of(&[&t(), stray]), (16, 0));
        let inner = holder(ONLY, &[&t(), &equal(), stray]);
        assert_eq!(number(&holder(BOTH, &[&t(), &inner])), (16, 24));
    }
}

#[test]
fn a_field_too_long_for_its_direct_holder() {
    let mut long = t();
    long[2] += 1;
    assert_eq!(number(&long), (16, 0));
    // Its holder's holder has the bytes, but it does not count.
    let inner = holder(BOTH, &[&t(), &long]);
    assert_eq!(number(&holder(EITHER, &[&inner, &t()])), (16, 27));
    // 16 before 17, and nothing in it is looked at.
    assert_eq!(number(&[99, 0, 1]), (16, 0));
    let mut cut = holder(BOTH, &[&faulty(), &t()]);
    cut.pop();
    assert_eq!(number(&cut), (16, 0));
    // A test that does not fit.
    let mut test = equal();
    test[2] = 8;
    assert_eq!(number(&holder(ONLY, &[&t(), &test])), (16, 24));
}

#[test]
fn three_parts_or_two_tests_are_left_over() {
    assert_eq!(number(&holder(BOTH, &[&t(), &t(), &t()])), (16, 0));
    assert_eq!(number(&holder(EITHER, &[&t(), &t(), &faulty()])), (16, 0));
    assert_eq!(number(&holder(ONLY, &[&t(), &equal(), &equal()])), (16, 0));
    // The third is not counted: the 33rd part comes later, and is not reached.
    let mut part = plain();
    for _ in 0..15 {
        part = both(part, plain());
    }
    let bytes = holder(BOTH, &[&bytes_of(&part), &t(), &t()]);
    assert_eq!(number(&bytes), (20, bytes.len() as u64 - 42));
    let few = holder(ONLY, &[&bytes_of(&part), &equal(), &t()]);
    assert_eq!(number(&few), (16, 0));
}

#[test]
fn tags_where_they_are_not_allowed() {
    for tag in [0, 1, 3, 15, 20, 21, 255] {
        assert_eq!(number(&field(tag, &[])), (17, 0));
        assert_eq!(number(&holder(BOTH, &[&field(tag, &[]), &t()])), (17, 3));
        assert_eq!(number(&holder(EITHER, &[&t(), &field(tag, &[])])), (17, 24));
    }
    assert_eq!(number(&equal()), (17, 0));
    assert_eq!(number(&holder(ONLY, &[&equal(), &t()])), (17, 3));
    for tag in [0, 16, 17, 18, 19, 21, 255] {
        assert_eq!(number(&holder(ONLY, &[&t(), &field(tag, &[])])), (17, 24));
    }
    assert_eq!(number(&holder(ONLY, &[&t(), &t(), &equal()])), (17, 24));
}

/// A left-leaning tree of 33 parts, whose last part met is given.
fn thirty_three(last: &[u8]) -> (Vec<u8>, u64) {
    let mut part = plain();
    for _ in 0..14 {
        part = both(part, plain());
    }
    let part = only(part, Test::Equal(v(0), v(1)));
    assert_eq!(part.parts(), 30);
    let held = bytes_of(&part);
    let bytes = holder(BOTH, &[&holder(BOTH, &[&held, last]), &t()]);
    let place = 6 + held.len();
    (bytes, place as u64)
}

#[test]
fn parts_are_counted_as_met() {
    // With 30 inside two BOTHs, the right TRIPLE of the inner BOTH is the 33rd.
    let (bytes, place) = thirty_three(&t());
    assert_eq!(number(&bytes), (20, place));
    // After its own 16 and 17, before its 18 and what it holds.
    let (bytes, place) = thirty_three(&[TRIPLE, 255, 255]);
    assert_eq!(number(&bytes), (16, place));
    let (bytes, place) = thirty_three(&[TEST, 0, 0]);
    assert_eq!(number(&bytes), (17, place));
    let (bytes, place) = thirty_three(&[TRIPLE, 0, 0]);
    assert_eq!(number(&bytes), (20, place));
    let (bytes, place) = thirty_three(&[BOTH, 0, 0]);
    assert_eq!(number(&bytes), (20, place));
    let (bytes, place) = thirty_three(&faulty());
    assert_eq!(number(&bytes), (20, place));
    // Holders before what they hold: 33 ONLYs around nothing at all.
    let mut nested = Vec::new();
    for _ in 0..33 {
        nested = field(ONLY, &nested);
    }
    assert_eq!(number(&nested), (20, 96));
    let nested = &nested[3..];
    assert_eq!(number(nested), (16, 96));
}

#[test]
fn tests_of_wrong_length_or_mark() {
    let zeros = |mark: u8, length: usize| {
        let mut value = vec![0; length];
        if let Some(first) = value.first_mut() {
            *first = mark;
        }
        field(TEST, &value)
    };
    for (mark, length) in [
        (0, 0),
        (0, 1),
        (0, 6),
        (0, 8),
        (0, 11),
        (1, 11),
        (2, 7),
        (2, 10),
        (2, 12),
        (3, 7),
        (3, 11),
        (255, 7),
    ] {
        assert_eq!(number(&holder(ONLY, &[&t(), &zeros(mark, length)])), (18, 24));
    }
    for length in [0, 17, 19] {
        assert_eq!(number(&field(TRIPLE, &vec![255; length])), (18, 0));
    }
}

/// Number for one TRIPLE, standing second in a BOTH.
fn slots(kind: u8, subj: (u8, u16), pred: (u8, u16), obj: (u8, u16), ann: (u8, u64)) -> u32 {
    let slot = |(mark, value)| Slot { mark, value };
    let ann = AnnSlot { mark: ann.0, value: ann.1 };
    let part = triple(slot(subj), slot(pred), slot(obj), ann);
    let good = bytes_of(&triple(v(0), v(1), v(2), va(0)));
    let (number, place) = compiled(kind, &holder(BOTH, &[&good, &bytes_of(&part)]));
    assert_eq!(place, if number == 0 { 0 } else { 24 });
    number
}

#[test]
fn slots_go_slot_by_slot() {
    let (var, con, ann) = ((1, 0), (0, 5), (0, 1));
    assert_eq!(slots(1, var, var, var, ann), 0);
    assert_eq!(slots(1, (1, 15), con, (0, 49_151), (1, 7)), 0);
    assert_eq!(slots(1, (2, 0), (1, 16), con, ann), 18);
    assert_eq!(slots(1, (1, 16), (2, 0), con, ann), 19);
    assert_eq!(slots(1, (1, 65_535), con, con, ann), 19);
    assert_eq!(slots(1, (0, BAD), (2, 0), con, ann), 8);
    assert_eq!(slots(1, (0, 65_535), con, con, ann), 8);
    assert_eq!(slots(1, con, (2, 0), (2, 0), ann), 18);
    assert_eq!(slots(1, con, (0, BAD), con, ann), 8);
    assert_eq!(slots(1, con, (0, 16_384), (2, 0), ann), 9);
    assert_eq!(slots(1, con, (0, 32_768), (0, BAD), (0, 0)), 9);
    // 9 is for the second slot alone.
    assert_eq!(slots(1, (0, 16_384), con, (0, 32_768), ann), 0);
    assert_eq!(slots(1, con, con, (255, 0), (0, 0)), 18);
    assert_eq!(slots(1, con, con, (1, 16), (0, 0)), 19);
    assert_eq!(slots(1, con, con, (0, BAD), (0, 0)), 8);
    assert_eq!(slots(1, con, con, con, (2, 0)), 18);
    assert_eq!(slots(1, con, con, con, (0, 0)), 10);
    assert_eq!(slots(1, con, con, con, (0, u64::MAX)), 0);
    for kind in [3, 4] {
        assert_eq!(slots(kind, con, con, con, (0, 1000)), 0);
        assert_eq!(slots(kind, con, con, con, (0, 1001)), 10);
        assert_eq!(slots(kind, con, con, con, (0, 0)), 10);
    }
    // An annotation slot's variable is all 8 bytes.
    for number in [8, 256, 1 << 32, 1 << 56, u64::MAX] {
        assert_eq!(slots(1, con, con, con, (1, number)), 19);
    }
}

#[test]
fn slots_of_tests() {
    let test = |kind: u8, test: Test| {
        let part = only(plain(), test);
        let (number, place) = compiled(kind, &bytes_of(&part));
        assert_eq!(place, if number == 0 || number > 20 { 0 } else { 24 });
        number
    };
    let slot = |mark, value| Slot { mark, value };
    assert_eq!(test(1, Test::Equal(v(0), c(16_384))), 0);
    assert_eq!(test(1, Test::Unequal(c(32_768), c(1))), 0);
    assert_eq!(test(1, Test::Equal(slot(2, 0), v(16))), 18);
    assert_eq!(test(1, Test::Equal(v(16), slot(2, 0))), 19);
    assert_eq!(test(1, Test::Unequal(c(BAD), slot(2, 0))), 8);
    assert_eq!(test(1, Test::Unequal(v(0), slot(3, 0))), 18);
    assert_eq!(test(1, Test::Unequal(v(0), v(16))), 19);
    assert_eq!(test(1, Test::Unequal(v(0), c(65_535))), 8);
    // A test's annotation variable is 2 bytes and has no mark.
    assert_eq!(test(1, Test::AtLeast(0, 1)), 0);
    assert_eq!(test(1, Test::AtLeast(8, 0)), 19);
    assert_eq!(test(1, Test::AtLeast(256, 1)), 19);
    assert_eq!(test(1, Test::AtLeast(0, 0)), 10);
    assert_eq!(test(4, Test::AtLeast(0, 1001)), 10);
    assert_eq!(test(4, Test::AtLeast(0, 1000)), 0);
    assert_eq!(test(1, Test::AtLeast(7, 1)), 21);
}

#[test]
fn twenty_one_for_every_variable_the_test_names() {
    let two = || triple(v(0), v(1), c(5), va(0));
    let other = || triple(v(0), v(2), c(5), va(1));
    let number = |part: &Part| compiled_part(1, part);
    assert_eq!(number(&only(two(), Test::Equal(v(0), v(1)))), (0, 0));
    assert_eq!(number(&only(two(), Test::Equal(v(0), v(2)))), (21, 0));
    assert_eq!(number(&only(two(), Test::Unequal(v(2), v(0)))), (21, 0));
    // Terms and annotations are numbered apart.
    assert_eq!(number(&only(two(), Test::AtLeast(1, 1))), (21, 0));
    assert_eq!(number(&only(both(two(), other()), Test::Equal(v(1), v(2)))), (0, 0));
    assert_eq!(number(&only(either(two(), other()), Test::Equal(v(0), v(0)))), (0, 0));
    assert_eq!(number(&only(either(two(), other()), Test::Equal(v(0), v(1)))), (21, 0));
    assert_eq!(number(&only(either(two(), other()), Test::AtLeast(0, 1))), (21, 0));
    let kept = only(two(), Test::Equal(v(0), v(0)));
    assert_eq!(number(&only(kept, Test::Unequal(v(1), c(9)))), (0, 0));
    // Bound outside its own part does not help.
    let inner = only(two(), Test::Equal(v(2), v(2)));
    assert_eq!(number(&both(other(), inner)), (21, 24));
    // Lowest place first, and the outer ONLY's place is the lower.
    let inner = only(two(), Test::Equal(v(9), v(9)));
    assert_eq!(number(&only(inner.clone(), Test::Equal(v(8), v(8)))), (21, 0));
    assert_eq!(number(&only(inner, Test::Equal(v(0), v(0)))), (21, 3));
}

#[test]
fn twenty_two_for_a_triple_outside() {
    let with = |ann: u64| triple(v(0), v(1), v(2), va(ann));
    let kept = |ann: u64| only(with(ann), Test::AtLeast(ann as u16, 1));
    let number = |part: &Part| compiled_part(1, part);
    assert_eq!(number(&kept(0)), (0, 0));
    assert_eq!(number(&both(kept(0), with(1))), (0, 0));
    assert_eq!(number(&both(kept(0), with(0))), (22, 3));
    assert_eq!(number(&both(with(0), kept(0))), (22, 24));
    // The other side of an EITHER is outside; another test is not a TRIPLE.
    assert_eq!(number(&either(kept(0), with(0))), (22, 3));
    assert_eq!(number(&only(kept(0), Test::AtLeast(0, 2))), (0, 0));
    // Inside the part it may stand as often as it likes.
    assert_eq!(number(&only(both(with(0), with(0)), Test::AtLeast(0, 1))), (0, 0));
    assert_eq!(number(&only(both(kept(0), with(0)), Test::AtLeast(0, 1))), (22, 6));
    // A term variable of the same number, and a constant, are something else.
    assert_eq!(number(&both(kept(0), triple(v(0), v(0), v(0), ca(1)))), (0, 0));
    // 21 over all before 22, though its place is higher.
    let unbound = only(with(1), Test::Equal(v(9), v(9)));
    assert_eq!(number(&both(both(kept(0), with(0)), unbound)).0, 21);
}

#[test]
fn compiling_goes_4_11_then_the_question() {
    let compile = |kind: u8, bytes: &[u8], records: usize| {
        let junk = Step { kind: 77, ..Step::default() };
        let mut row = vec![junk; records];
        let out = question::compile(kind, bytes, &mut row);
        assert!(row[out.steps..].iter().all(|step| *step == junk));
        (out.number, out.place, out.steps)
    };
    for kind in [0, 2, 6, 255] {
        assert_eq!(compile(kind, &[], 0), (4, 0, 0));
    }
    assert_eq!(compile(1, &[9], 0), (11, 0, 0));
    assert_eq!(compile(1, &t(), 47), (11, 0, 0));
    assert_eq!(compile(1, &t(), 48), (0, 0, 2));
    assert_eq!(compile(1, &t(), 100), (0, 0, 2));
    assert_eq!(compile(1, &faulty(), 48), (8, 0, 0));
    // No size limit of its own: what is too much is left over.
    assert_eq!(compile(1, &[&t()[..], &vec![0; 80_000]].concat(), 48), (16, 0, 0));
}

#[test]
fn the_steps_of_a_question() {
    let (one, two) = (triple(v(0), c(2), c(11), va(0)), triple(v(0), c(1), v(3), ca(5)));
    let seek = |part: &Part| question::flat(part)[0];
    let (a, b, give) = (seek(&one), seek(&two), Step::give());
    assert_eq!(question::flat(&both(one.clone(), two.clone())), [a, b, give]);
    let split = either(one.clone(), two.clone());
    assert_eq!(question::flat(&split), [Step::fork(3), a, Step::go(4), b, give]);
    let test = Test::AtLeast(0, 9);
    assert_eq!(question::flat(&only(one.clone(), test)), [a, Step::test_ann(0, 9), give]);
    let nested = either(split.clone(), only(one, Test::Unequal(v(0), c(4))));
    let expected = [
        Step::fork(6),
        Step::fork(4),
        a,
        Step::go(5),
        b,
        Step::go(8),
        a,
        Step::test_terms(1, v(0), c(4)),
        give,
    ];
    assert_eq!(question::flat(&nested), expected);
    let unused = Step { subj: v(0), pred: c(2), obj: c(11), ann: va(0), ..Step::default() };
    assert_eq!(a, unused);
}
