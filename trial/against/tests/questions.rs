//! Compiling against the model: random questions with fixed seeds, cut at every byte and damaged
//! at every place, and stored questions with the answer each must get.

use against::questions::compiled;
use against::records::{marked, record};
use against::{questions, run, stored_questions as stored};
use trial::question::{bytes_of, Compiled};
use trial::random::{questions as deal, Random};

#[test]
fn compile_agrees_on_random_questions() {
    run("compile", questions::compile, 0..30_000);
}

/// Each stored question gets the number and place that stand beside it, from both.
#[test]
fn stored_questions_get_their_number_and_place() {
    for (name, kind, bytes, number, place) in stored::all() {
        let (answer, _) = compiled(kind, &bytes, 48);
        assert_eq!((answer.number, answer.place), (number, place), "{name}");
        questions::compile_one(kind, &bytes, 48).unwrap();
    }
}

/// Every number of the document that a question can get is among the stored ones, nested ones too.
#[test]
fn every_number_is_stored() {
    let all = stored::all();
    for number in [4, 8, 9, 10, 16, 17, 18, 19, 20, 21, 22, 28] {
        assert!(all.iter().any(|question| question.3 == number), "{number}");
        assert!(number == 4 || all.iter().any(|q| q.3 == number && q.4 > 0), "{number} nested");
    }
}

/// "under 48 records lent", after 4 and before the question is looked at.
#[test]
fn too_few_records_are_11() {
    for bytes in [stored::p11(), vec![], stored::longest()] {
        for room in [0, 1, 46, 47] {
            let refused = Compiled { number: 11, place: 0, steps: 0 };
            assert_eq!(compiled(1, &bytes, room), (refused, marked(room)));
            assert_eq!(compiled(0, &bytes, room).0.number, 4);
        }
        for room in [48, 49, 1000] {
            questions::compile_one(1, &bytes, room).unwrap();
        }
    }
}

/// P11 is two SEEKs and a GIVE.
#[test]
fn p11_compiles_to_three_steps() {
    let (answer, records) = compiled(1, &stored::p11(), 48);
    assert_eq!(answer.steps, 3);
    assert_eq!(records[0], record([0, 0, 0, 1, 0, 0, 2, 0, 11, 1, 0]));
    assert_eq!(records[1], record([0, 0, 0, 1, 0, 0, 2, 0, 12, 1, 0]));
    assert_eq!(records[2], record([4, 0, 0, 0, 0, 0, 0, 0, 0, 0, 0]));
    assert_eq!(records[3..], marked(48)[3..]);
}

/// FORK to the right part, SEEK and TEST, GO past the right part, SEEK and TEST, GIVE.
#[test]
fn either_compiles_to_fork_and_go() {
    let (answer, records) = compiled(1, &stored::forked(), 48);
    assert_eq!(answer.steps, 7);
    assert_eq!(records[0], record([1, 0, 4, 0, 0, 0, 0, 0, 0, 0, 0]));
    assert_eq!(records[1], record([0, 0, 0, 1, 15, 0, 2, 0, 11, 1, 7]));
    assert_eq!(records[2], record([3, 1, 0, 1, 15, 0, 0, 0, 16_384, 0, 0]));
    assert_eq!(records[3], record([2, 0, 6, 0, 0, 0, 0, 0, 0, 0, 0]));
    assert_eq!(records[4], record([0, 0, 0, 1, 1, 0, 2, 0, 11, 1, 3]));
    assert_eq!(records[5], record([3, 2, 0, 0, 3, 0, 0, 0, 0, 0, 5]));
    assert_eq!(records[6], record([4, 0, 0, 0, 0, 0, 0, 0, 0, 0, 0]));
}

/// 32 parts make 48 steps at most, and do (C-14): FORK, SEEK and GO of each EITHER, then SEEK, TEST
/// and GIVE.
#[test]
fn the_longest_question_fills_the_records() {
    let bytes = stored::longest();
    assert_eq!(bytes.len(), 394);
    for kind in [1, 3, 4, 5] {
        let (answer, records) = compiled(kind, &bytes, 48);
        assert_eq!((answer.number, answer.steps), (0, 48));
        let seek = record([0, 0, 0, 1, 0, 0, 2, 0, 11, 1, 0]);
        for (at, rung) in records[..45].chunks(3).enumerate() {
            assert_eq!(rung[0], record([1, 0, 3 * at as u64 + 3, 0, 0, 0, 0, 0, 0, 0, 0]));
            assert_eq!(rung[1..], [seek, record([2, 0, 46, 0, 0, 0, 0, 0, 0, 0, 0])]);
        }
        assert_eq!(records[45..47], [seek, record([3, 0, 0, 1, 0, 0, 0, 1, 0, 0, 0])]);
        assert_eq!(records[47], record([4, 0, 0, 0, 0, 0, 0, 0, 0, 0, 0]));
    }
}

/// Questions of every number of parts: 1 to 32 pass, 33 is 20.
#[test]
fn thirty_two_parts_pass_and_thirty_three_do_not() {
    let mut random = Random::new(6);
    for parts in 1..=33 {
        for kind in [1, 3, 4, 5] {
            let bytes = bytes_of(&deal::valid(&mut random, kind, parts));
            questions::compile_one(kind, &bytes, 48).unwrap();
            let number = compiled(kind, &bytes, 48).0.number;
            assert_eq!(number, if parts == 33 { 20 } else { 0 });
        }
    }
}

/// A question cut at every byte.
#[test]
fn every_cut_agrees() {
    for bytes in [stored::p11(), stored::forked(), stored::longest()] {
        for length in 0..=bytes.len() {
            questions::compile_one(1, &bytes[..length], 48).unwrap();
        }
    }
}

/// A question with each byte of it set to each of some values.
#[test]
fn every_damaged_byte_agrees() {
    let mut random = Random::new(7);
    for kind in [1, 3, 4, 5] {
        let good = bytes_of(&deal::valid(&mut random, kind, 7));
        for at in 0..good.len() {
            for value in [0, 1, 2, 3, 7, 8, 11, 15, 16, 17, 18, 19, 20, 64, 127, 128, 192, 255] {
                let mut bytes = good.clone();
                bytes[at] = value;
                questions::compile_one(kind, &bytes, 48).unwrap();
            }
        }
    }
}
