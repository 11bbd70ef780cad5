//! Makers' lists against the model: random files and lists with fixed seeds, stored ones with the
//! answer each must get, files cut and damaged at every place, every lane length.

use against::peers::{self, plain_file, KNOWN};
use against::stored_lists::{self, List};
use against::triples::{self, noise, read_one, write_one};
use against::{calls, plain_triples, run};
use trial::ntriples::names::{MOST_NAMES, MOST_TEXT};
use trial::ntriples::{read_triples, write_triples, Names};
use trial::random::files::{self, Reading};
use trial::random::lines::{NO_UTF8, WRONG};
use trial::random::lists::{self, Writing};
use trial::random::Random;
use trial::table::Lanes;

#[test]
fn reading_agrees_on_random_files() {
    run("read triples", triples::read, 0..6_000);
}

#[test]
fn writing_agrees_on_random_lists() {
    run("write triples", triples::write, 0..6_000);
}

/// A reading of a file with all the room there may be.
fn roomy(file: &[u8]) -> Reading {
    with_room(file, 1024, MOST_NAMES, MOST_TEXT)
}

fn with_room(file: &[u8], rows: usize, entries: usize, bytes: usize) -> Reading {
    let mut lanes = Lanes::zero(rows);
    lanes.subj.fill(60_001);
    lanes.ann.fill(u64::MAX);
    let names =
        Names { terms: vec![9; entries], ends: vec![60_003; entries], text: vec![b'?'; bytes] };
    Reading { kind: 3, ann: 400, file: file.to_vec(), lanes, names }
}

/// The list that these entries make.
fn listed(list: &List) -> Names {
    let mut names = Names::default();
    for (number, text) in &list.listed {
        names.terms.push(*number);
        names.text.extend(text.bytes());
        names.ends.push(names.text.len() as u16);
    }
    names
}

/// Each stored list gets its number and place, its rows and its entries, and its canonical form.
#[test]
fn stored_lists_get_what_stands_beside_them() {
    for list in stored_lists::worked_examples().into_iter().chain(stored_lists::corners()) {
        let name = list.name;
        read_one(&list.reading()).unwrap_or_else(|difference| panic!("{name}: {difference}"));
        let Reading { kind, ann, file, mut lanes, mut names } = list.reading();
        let done = calls::read_triples(kind, ann, &file, &mut lanes, &mut names);
        assert_eq!((done.number, done.place), (list.number, list.place), "{name}");
        assert_eq!((done.count, done.names), (list.triples.len(), list.listed.len()), "{name}");
        assert_eq!(triples::triples_of(&lanes, done.count), list.triples, "{name}");
        if list.number != 0 {
            continue;
        }
        assert_eq!(names, listed(&list), "{name}");
        let mut out = noise(list.written.len() + 3);
        let done = calls::write_triples(kind, &lanes, done.count, &names, done.names, &mut out);
        assert_eq!((done.number, done.length), (0, list.written.len()), "{name}");
        assert_eq!(String::from_utf8_lossy(&out[..done.length]), list.written, "{name}");
        assert_eq!(out[done.length..], noise(out.len())[done.length..], "{name}");
    }
}

/// A file with every kind of term, escape and line end.
fn sample() -> Vec<u8> {
    let text = "<m:a> <m:p> \"a\\u00e9\\n\"@en-GB .\r\n\t_:b.c<m:\u{E9}>_:d. # x\u{20AC}\n\
                _:b.c <m:p> \"\u{1F600}\" ^^ <m:t> .\n";
    text.as_bytes().to_vec()
}

#[test]
fn every_cut_agrees() {
    let file = sample();
    for length in 0..=file.len() {
        read_one(&roomy(&file[..length])).unwrap();
    }
}

/// Each byte set to each of some values, taken out, and bytes put in that are no UTF-8.
#[test]
fn every_damaged_byte_agrees() {
    let file = sample();
    for at in 0..file.len() {
        for value in *b"\0\t\n\r \"#.<>@\\^_:`aA0u-\x7F\x80\xBF\xC3\xED\xF4\xFF" {
            let mut bytes = file.clone();
            bytes[at] = value;
            read_one(&with_room(&bytes, 3, 8, 64)).unwrap();
        }
        let out = [&file[..at], &file[at + 1..]].concat();
        read_one(&with_room(&out, 3, 8, 64)).unwrap();
        for bad in NO_UTF8 {
            let bytes = [&file[..at], bad, &file[at..]].concat();
            read_one(&with_room(&bytes, 3, 8, 64)).unwrap();
        }
    }
}

#[test]
fn lines_that_miss_by_little_agree() {
    for line in WRONG {
        let file = format!("<m:a> <m:p> <m:b> .\n{line}\n");
        read_one(&roomy(file.as_bytes())).unwrap();
        let (mut lanes, mut names) = (Lanes::zero(9), Names::zero(9, 99));
        let done = calls::read_triples(3, 400, file.as_bytes(), &mut lanes, &mut names);
        assert_eq!((done.number, done.place), (26, 20), "{line}");
    }
}

/// Every character's escape in a string, an IRI and a label, and raw there: all up to U+FFFF at the
/// edges of 64, and the planes above at theirs.
#[test]
fn characters_agree_raw_and_escaped() {
    let edges = (0..=0x11_0000u32).filter(|code| *code < 0x400 || matches!(code % 64, 0 | 1 | 63));
    let mut batch = Vec::new();
    for code in edges.filter(|code| *code < 0x1_0400 || matches!(code % 0x4000, 0 | 1 | 0x3FFF)) {
        batch.push(format!("_:a <m:p> \"\\U{code:08X}\" .").into_bytes());
        batch.push(format!("_:a <m:\\U{code:08x}> _:b .").into_bytes());
        if let Some(one) = char::from_u32(code) {
            batch.push(format!("_:a <m:p> \"{one}\" .").into_bytes());
            batch.push(format!("_:a <m:{one}> _:b .").into_bytes());
            batch.push(format!("_:{one} <m:p> _:b{one} .").into_bytes());
            batch.push(format!("_:b{one}c <m:p> _:c .").into_bytes());
        }
    }
    for line in batch {
        read_one(&with_room(&line, 1, 3, 16)).unwrap();
    }
}

/// Files of 65,534 to 65,537 bytes, whole and spoiled at the end.
#[test]
fn the_longest_files_agree() {
    for length in [65_534, 65_535, 65_536, 65_537] {
        for fill in *b"\n #x" {
            let mut file = sample();
            file.resize(length, fill);
            read_one(&roomy(&file)).unwrap();
        }
        let mut file: Vec<u8> = Vec::new();
        for at in 0.. {
            if file.len() >= length {
                break;
            }
            file.extend(format!("<m:{}> <m:p> \"{at:030}\" .\n", at % 200).bytes());
        }
        file.truncate(length);
        read_one(&roomy(&file)).unwrap();
    }
}

/// 511 to 513 names, 32,767 to 32,769 bytes of text and 1,022 to 1,026 rows, each with the lanes just
/// as long, longer and shorter.
#[test]
fn the_largest_lists_agree() {
    let mut random = Random::new(5);
    for _ in 0..12 {
        for deal in [files::many_names, files::much_text, files::many_rows] {
            let file = deal(&mut random);
            for entries in [511, 512, 513] {
                read_one(&with_room(&file, 1024, entries, MOST_TEXT)).unwrap();
            }
            for bytes in [32_767, 32_768, 32_769] {
                read_one(&with_room(&file, 1024, MOST_NAMES, bytes)).unwrap();
            }
            for rows in [1023, 1024, 1025] {
                read_one(&with_room(&file, rows, MOST_NAMES, MOST_TEXT)).unwrap();
            }
        }
    }
}

/// Every length of the table's lanes, of the list's and of the text.
#[test]
fn every_lane_length_agrees() {
    let file = sample();
    for rows in 0..=1025 {
        read_one(&with_room(&file, rows, 9, 99)).unwrap();
    }
    for entries in 0..=513 {
        read_one(&with_room(&file, 9, entries, 99)).unwrap();
    }
    for bytes in (0..=99).chain(MOST_TEXT - 1..=MOST_TEXT + 1) {
        read_one(&with_room(&file, 9, 9, bytes)).unwrap();
    }
}

/// What was read, written into every length from none to more than enough.
#[test]
fn every_length_of_the_output_agrees() {
    let Reading { kind, ann, file, mut lanes, mut names } = with_room(&sample(), 4, 8, 64);
    let done = calls::read_triples(kind, ann, &file, &mut lanes, &mut names);
    assert_eq!((done.number, done.count, done.names), (0, 3, 7));
    for length in 0..=200 {
        let (lanes, names, out) = (lanes.clone(), names.clone(), noise(length));
        let (count, listed) = (done.count, done.names);
        write_one(&Writing { kind, lanes, count, names, listed, out }).unwrap();
    }
}

/// The plain reader and writer that the times stand beside do the same as the model.
#[test]
fn the_plain_ones_do_the_same() {
    for seed in 0..3_000 {
        let Reading { kind, ann, file, lanes, names } = files::reading(&mut Random::new(seed));
        let mut plain = (lanes.clone(), names.clone());
        let mut model = (lanes, names);
        let answer = plain_triples::read(kind, ann, &file, &mut plain.0, &mut plain.1);
        let wanted = read_triples(kind, ann, &file, &mut model.0, &mut model.1);
        assert_eq!((answer, plain), (wanted, model), "read, seed {seed}");
        let Writing { kind, lanes, count, names, listed, out } =
            lists::writing(&mut Random::new(seed));
        let (mut plain, mut model) = (out.clone(), out);
        let answer = plain_triples::write(kind, &lanes, count, &names, listed, &mut plain);
        let wanted = write_triples(kind, &lanes, count, &names, listed, &mut model);
        assert_eq!((answer, plain), (wanted, model), "write, seed {seed}");
    }
}

/// What other readers take or refuse otherwise is taken or refused here as the list of differences
/// says, and plain files are read (`make peers` holds both against the others).
#[test]
fn known_differences_stand_as_listed() {
    for known in KNOWN {
        let found = peers::shown(&peers::ours(known.file));
        assert_eq!(found, known.outcomes[0], "{}: {}", known.rule, known.what);
    }
    for seed in 0..100 {
        assert!(peers::ours(&plain_file(&mut Random::new(seed))).is_some(), "seed {seed}");
    }
}

/// A measured value has no text, whatever the list says of its number: 39 at its row (C-17).
#[test]
fn a_value_is_39_at_its_row() {
    let laid = |number: u16| Names {
        terms: vec![5, 6, number],
        ends: vec![3, 6, 9],
        text: b"m:am:pm:v".to_vec(),
    };
    for value in [49_152, 49_652, 65_534] {
        for (subj, obj) in [(5, value), (value, 5), (value, value)] {
            let lanes =
                Lanes { subj: vec![0, subj], pred: vec![6, 6], obj: vec![5, obj], ann: vec![1, 7] };
            let (count, listed, out) = (2, 3, noise(60));
            let writing = Writing { kind: 1, lanes, count, names: laid(value), listed, out };
            write_one(&writing).unwrap();
            let mut model = writing.out.clone();
            let Writing { kind, lanes, names, .. } = &writing;
            let wanted = write_triples(*kind, lanes, count, names, listed, &mut model);
            assert_eq!((wanted.number, wanted.place), (39, 1));
        }
    }
}
