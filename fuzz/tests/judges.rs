//! The kept corpus and the judges by themselves, with the model in the library's place: these run on
//! every machine.

mod common;
use common::corpus;
use fuzz::{exported, inputs, programs};
use std::collections::BTreeSet;
use trial::ntriples::{read_triples, write_triples};
use trial::random::files::{self, Reading};
use trial::random::lists::{self, Writing};
use trial::random::Random;

/// The numbers behind a word in what the model prints for the corpus of a program.
fn met(program: &programs::Program, word: &str) -> BTreeSet<u64> {
    let texts = corpus(program.name).into_iter().map(|(_, input)| (program.model)(&input));
    let mut numbers = BTreeSet::new();
    for text in texts {
        let lines = text.lines().filter_map(|line| line.strip_prefix(word)?.split(' ').nth(1));
        numbers.extend(lines.map(|number| number.parse::<u64>().unwrap()));
    }
    numbers
}

/// Small files, and among them every number that a small input can get: not 13, and 12 by closing.
#[test]
fn the_corpus_is_small_and_meets_every_number() {
    for target in ["exported", "read_triples", "write_triples", "close_book", "counter"] {
        let files = corpus(target);
        assert!((1..=160).contains(&files.len()), "{target}: {} files", files.len());
        assert!(files.iter().all(|(_, input)| input.len() <= 1000), "{target}");
    }
    let refused = BTreeSet::from([1, 2, 3, 4, 5, 6, 7, 8, 9, 10, 12, 28, 36]);
    let [closing, counter] = &programs::PROGRAMS;
    assert_eq!(met(closing, "refused"), refused);
    assert_eq!(met(closing, "closed"), BTreeSet::from([1, 3, 4, 5]));
    assert_eq!(met(counter, "refused"), refused);
    let asked = BTreeSet::from([0, 8, 9, 10, 12, 16, 17, 18, 19, 20, 21, 22, 28]);
    assert_eq!(met(counter, "asked"), asked);
    let read = corpus("read_triples").into_iter().map(|(_, input)| {
        let Reading { kind, ann, file, mut lanes, mut names } = inputs::reading(&input);
        read_triples(kind, ann, &file, &mut lanes, &mut names).number
    });
    assert_eq!(BTreeSet::from_iter(read), BTreeSet::from([0, 4, 10, 11, 12, 26, 27, 28]));
    let written = corpus("write_triples").into_iter().map(|(_, input)| {
        let Writing { kind, lanes, count, names, listed, mut out } = inputs::writing(&input);
        write_triples(kind, &lanes, count, &names, listed, &mut out).number
    });
    let numbers = BTreeSet::from([0, 4, 8, 9, 10, 11, 12, 14, 15, 28, 39]);
    assert_eq!(BTreeSet::from_iter(written), numbers);
}

/// What the model's generators deal is said by an input and had back from it.
#[test]
fn inputs_say_readings_and_writings() {
    for seed in 0..500 {
        let reading = files::reading(&mut Random::new(seed));
        let back = inputs::reading(&inputs::of_reading(&reading));
        assert_eq!((back.kind, back.ann, back.file), (reading.kind, reading.ann, reading.file));
        if reading.lanes.fit() && reading.names.fit() {
            assert_eq!(back.lanes.subj.len(), reading.lanes.subj.len(), "seed {seed}");
            assert_eq!(back.names.ends.len(), reading.names.ends.len(), "seed {seed}");
            assert_eq!(back.names.text.len(), reading.names.text.len(), "seed {seed}");
        }
        let writing = lists::writing(&mut Random::new(seed));
        let back = inputs::writing(&inputs::of_writing(&writing));
        if writing.lanes.fit() && writing.names.fit() {
            assert_eq!((back.lanes, back.names), (writing.lanes, writing.names), "seed {seed}");
            assert_eq!(back.out.len(), writing.out.len().min(65_535), "seed {seed}");
        }
    }
}

/// The judges refuse what is not right: each output with a byte changed, cut, or with a line too many.
#[test]
fn the_judges_see_a_changed_output() {
    for program in &programs::PROGRAMS {
        for (file, input) in corpus(program.name) {
            let good = (program.model)(&input).into_bytes();
            program.judge(&input, &good).unwrap_or_else(|fault| panic!("{file}: {fault}"));
            let step = good.len() / 8 + 1;
            let mut changed =
                vec![[&good[..], b"\n"].concat(), [&good[..], b"refused 1 0\n"].concat()];
            changed.extend((0..good.len()).step_by(step).map(|at| good[..at].to_vec()));
            changed.extend((0..good.len()).step_by(step).map(|at| {
                let mut bytes = good.clone();
                bytes[at] ^= 1;
                bytes
            }));
            for bytes in changed {
                assert!(program.judge(&input, &bytes).is_err(), "{}/{file}", program.name);
            }
        }
    }
}

/// By its form alone, without the model: what no program may print for any input.
#[test]
fn the_form_is_judged_without_the_model() {
    let closing = programs::named("close_book").unwrap().form;
    let counter = programs::named("counter").unwrap().form;
    let input = [0; 20];
    for text in [
        "",
        "closed 1 2000 1\n",
        "closed 2 0 0\n",
        "closed 1 1899 0\n",
        "refused 11 0\n",
        "refused 35 0\n",
        "refused 1 20\n",
        "refused 1 0",
        "refused 01 0\n",
        "refused 1  0\n",
        "refused 1 0\nrefused 1 0\n",
        "closed 3 0 2\n10 2 11 5\n10 2 11 5\n",
        "closed 3 0 1\n10 2 11 1001\n",
        "closed 3 0 1\n10 49152 11 5\n",
        "closed 5 0 1\n10 2 11 2\n",
    ] {
        assert!(closing(&input, text.as_bytes()).is_err(), "{text:?}");
    }
    for text in [
        "asked 0 0 1 3\n",
        "asked 23 0 0 0\n",
        "asked 16 0 0 1\n",
        "asked 12 0 3 9\n",
        "asked 0 0 0\n",
        "refused 1 0\nasked 0 0 0 0\n",
        "asked 0 0 257 0\n",
        "asked 24 0 0 7\n",
        "asked 16 21 0 0\n",
    ] {
        assert!(counter(&input, text.as_bytes()).is_err(), "{text:?}");
    }
    closing(&input, b"closed 3 0 1\n10 2 11 5\n").unwrap();
    counter(&input, b"asked 0 0 0 3\nrefused 1 0\n").unwrap();
    counter(&input, b"").unwrap();
}

/// The model as C sees the exported call.
unsafe extern "C" fn by_the_model(
    book: *const u8,
    length: usize,
    out: *mut u8,
    room: usize,
) -> u64 {
    let book = std::slice::from_raw_parts(book, length);
    trial::export::close_book(book, std::slice::from_raw_parts_mut(out, room))
}

/// The same, with a byte of the head changed in what is written.
unsafe extern "C" fn says_another_edition(
    book: *const u8,
    length: usize,
    out: *mut u8,
    room: usize,
) -> u64 {
    let answer = by_the_model(book, length, out, room);
    if answer >> 32 == 0 {
        *out.add(3) ^= 3;
    }
    answer
}

#[test]
fn the_judge_of_the_exported_call_takes_what_the_model_gives() {
    let (mut done, mut refused) = (BTreeSet::new(), BTreeSet::new());
    for (file, input) in corpus("exported") {
        exported::judge(by_the_model, &input).unwrap_or_else(|fault| panic!("{file}: {fault}"));
        let [high, low, book @ ..] = &input[..] else {
            continue;
        };
        let mut out = vec![0; usize::from(*high) * 256 + usize::from(*low)];
        let answer = trial::export::close_book(book, &mut out);
        if answer >> 32 == 0 {
            done.insert(out[3]);
            let changed = exported::judge(says_another_edition, &input);
            assert!(changed.is_err(), "{file}");
        } else {
            refused.insert(answer >> 32);
        }
    }
    // Books of both editions are written, and the corpus has every number that a small book can get.
    assert_eq!(done, BTreeSet::from([1, 2]));
    assert_eq!(refused, BTreeSet::from([1, 2, 3, 4, 5, 6, 7, 8, 9, 10, 12, 28, 36]));
}
