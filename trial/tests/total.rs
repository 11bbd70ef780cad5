//! No call panics, whatever it is handed: empty slices, unequal lanes, counts over every length,
//! numbers that overflow.

mod common;
use trial::ntriples::{read_triples, write_triples, Names, Sort, Text};
use trial::pattern::{AnnSlot, Slot};
use trial::random::{Random, BAD_TERMS};
use trial::steps::{self, Step};
use trial::table::{self, Lanes};
use trial::{annotation, book, closing, export, programs, question};

const KINDS: [u8; 8] = [0, 1, 2, 3, 4, 5, 6, 255];
const ANNS: [u64; 6] = [0, 1, 1000, 1001, 1 << 63, u64::MAX];

#[test]
fn annotations_of_any_kind() {
    for kind in KINDS {
        for left in ANNS {
            for right in ANNS {
                annotation::join(kind, left, right);
                let and = annotation::and(kind, left, right);
                let legal = annotation::legal(kind, left) && annotation::legal(kind, right);
                assert!(!legal || and == 0 || annotation::legal(kind, and));
                assert!(!legal || annotation::at_most(kind, and, left));
            }
        }
    }
}

fn some_lanes() -> Vec<Lanes> {
    let lengths =
        [[0, 0, 0, 0], [1, 1, 1, 0], [0, 1, 2, 3], [3, 3, 3, 3], [1025; 4], [1024, 1024, 0, 1024]];
    lengths
        .map(|[a, b, c, d]| Lanes {
            subj: vec![BAD_TERMS[0]; a],
            pred: vec![1; b],
            obj: vec![65_535; c],
            ann: vec![u64::MAX; d],
        })
        .to_vec()
}

#[test]
fn lanes_of_any_length_and_count() {
    for lanes in some_lanes() {
        for count in [0, 1, 3, 1024, 1025, usize::MAX] {
            for kind in KINDS {
                let verdict = table::check(kind, &lanes, count);
                let mut changed = lanes.clone();
                let added = table::add(kind, &mut changed, count, (1, 1, 1), 1);
                assert!(verdict.done() || added.number == verdict.number);
                for rules in [0, 1, 2, 3, 255] {
                    let mut changed = lanes.clone();
                    let closed = closing::close(kind, rules, &mut changed, count);
                    let unknown = verdict.number != 4 && ![1, 2].contains(&rules);
                    assert_eq!(closed.number, if unknown { 36 } else { verdict.number });
                    let written = book::write(kind, 0, rules, &lanes, count, &mut []);
                    assert!(written.number != 0);
                }
                let step = [Step::give()];
                steps::run(kind, &lanes, count, &step, 1, 1, &mut [0; 16], &mut [0; 8]);
                steps::run(kind, &lanes, count, &[], 9, 1, &mut [], &mut []);
            }
        }
        assert!(book::read(&common::P1, &mut lanes.clone()).number < 13);
    }
}

/// Records with anything in any field.
#[test]
fn records_with_any_number_in_any_field() {
    let mut random = Random::new(51);
    let rows = trial::random::tables::ascending(&mut random, 3, 6);
    let lanes = common::lanes(&rows, 6);
    let mut legal = 0;
    for _ in 0..30_000 {
        let list: Vec<Step> = (0..random.from_to(1, 4)).map(|_| any_step(&mut random)).collect();
        let (mut terms, mut anns) = ([0; 64], [0; 32]);
        let count = random.from_to(0, list.len() + 1);
        let ran = steps::run(3, &lanes, 6, &list, count, 300, &mut terms, &mut anns);
        legal += usize::from(ran.number != 23);
        assert!([0, 12, 23, 24].contains(&ran.number));
    }
    assert!(legal > 500, "{legal}");
}

fn any_step(random: &mut Random) -> Step {
    let slot = |random: &mut Random| Slot {
        mark: random.pick(&[0, 1, 1, 2, 255]),
        value: random.pick(&[0, 1, 15, 16, 20, 65_535]),
    };
    Step {
        kind: random.pick(&[0, 1, 2, 3, 4, 4, 5, 255]),
        subj: slot(random),
        pred: slot(random),
        obj: slot(random),
        ann: AnnSlot { mark: random.pick(&[0, 1, 1, 2]), value: random.pick(&ANNS) },
        target: random.pick(&[0, 1, 2, 3, 4, 65_535]),
        test: random.pick(&[0, 1, 2, 3]),
        left: slot(random),
        right: slot(random),
        var: random.pick(&[0, 7, 8, 65_535]),
        least: random.pick(&ANNS),
    }
}

#[test]
fn bytes_of_any_sort() {
    let mut random = Random::new(52);
    for _ in 0..20_000 {
        let length = random.below(60);
        let tags = [0, 1, 2, 3, 4, 5, 7, 14, 16, 17, 18, 19, 20];
        let bytes: Vec<u8> = (0..length)
            .map(|_| if random.chance(3) { random.draw() as u8 } else { random.pick(&tags) })
            .collect();
        let room = random.below(3);
        book::read(&bytes, &mut Lanes::zero(room));
        export::close_book(&bytes, &mut [0; 30]);
        programs::close_book_program(&bytes);
        programs::counter_program(&bytes);
        for kind in [1, 4] {
            question::compile(kind, &bytes, &mut [Step::default(); 48]);
        }
    }
    question::compile(1, &[17; 100_000], &mut [Step::default(); 48]);
    question::compile(1, &[19; 65_538], &mut [Step::default(); 48]);
}

/// A question nested as deep as bytes allow is 20 at its 33rd holder, long before the stack ends.
#[test]
fn deep_questions() {
    let mut bytes = Vec::new();
    for _ in 0..20_000 {
        bytes.extend([19, 0, 0]);
    }
    let length = bytes.len();
    for at in (0..length).step_by(3) {
        let [high, low] = ((length - at - 3) as u16).to_be_bytes();
        (bytes[at + 1], bytes[at + 2]) = (high, low);
    }
    assert_eq!(common::compiled(1, &bytes), (20, 96));
}

#[test]
fn makers_lists_of_any_length_and_content() {
    let file = b"<m:a> <m:p> \"x\" .\n_:b <m:p> <m:q> .";
    let lengths = [[0, 0, 0], [1, 1, 0], [0, 2, 9], [5, 5, 20], [512, 512, 32_768], [513, 513, 1]];
    for [terms, ends, text] in lengths {
        for fill in [0, 1, 5, 65_535] {
            let names =
                Names { terms: vec![fill; terms], ends: vec![fill; ends], text: vec![b'"'; text] };
            for lanes in some_lanes() {
                for kind in KINDS {
                    for ann in ANNS {
                        read_triples(kind, ann, file, &mut lanes.clone(), &mut names.clone());
                    }
                    for listed in [0, 1, 5, 513, usize::MAX] {
                        for count in [0, 1, 3, usize::MAX] {
                            let out = &mut [0; 99];
                            write_triples(kind, &lanes, count, &names, listed, out);
                        }
                    }
                }
            }
            for number in [0, 4, 5, 16_384, 32_768, 49_152, 65_535] {
                assert!(names.text_of(usize::MAX, number).is_none() || number < 5);
            }
        }
    }
}

/// Bytes and pieces of lines in no order, read and judged as texts.
#[test]
fn lines_of_any_bytes() {
    let mut random = Random::new(53);
    let pieces: [&[u8]; 20] = [
        b"<m:a>",
        b"<",
        b">",
        b"_:",
        b"a",
        b"\"",
        b"\\",
        b"\\u00",
        b"\\U000",
        b"41",
        b"@en",
        b"^^",
        b".",
        b" ",
        b"\t",
        b"#",
        b"\n",
        b"\r",
        b"\xC3\xA9",
        b"\xED\xA0",
    ];
    for _ in 0..60_000 {
        let mut file = Vec::new();
        for _ in 0..random.below(24) {
            match random.below(8) {
                0 => file.push(random.draw() as u8),
                _ => file.extend(pieces[random.below(pieces.len())]),
            }
        }
        let read = common::read_with(&file, random.below(3), random.below(5), random.below(20));
        assert!([0, 12, 26, 27].contains(&read.out.number));
        for sort in Sort::ALL {
            Text { sort, bytes: file.clone() }.legal();
        }
    }
}
