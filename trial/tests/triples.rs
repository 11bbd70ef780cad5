//! What reading and writing N-Triples promise (T1 to T5 of the readings of C-11), over the cases
//! that the generators deal.

mod common;
use std::collections::{BTreeMap, BTreeSet};
use trial::annotation;
use trial::ntriples::grammar::{self, Line};
use trial::ntriples::text::XSD_STRING;
use trial::ntriples::{read_triples, write_triples, Names, ReadOut, Sort, Text};
use trial::random::files::{self, needs, Needs, Reading};
use trial::random::lines::{self, Said};
use trial::random::lists::{self, Writing};
use trial::random::Random;
use trial::table::{self, Lanes};

type Meaning = BTreeSet<[Text; 3]>;

/// A reading and what it left.
fn read(case: &Reading) -> (ReadOut, Lanes, Names) {
    let (mut lanes, mut names) = (case.lanes.clone(), case.names.clone());
    let out = read_triples(case.kind, case.ann, &case.file, &mut lanes, &mut names);
    (out, lanes, names)
}

/// What the rows mean by the list, as a set.
fn meaning(lanes: &Lanes, count: usize, names: &Names, listed: usize) -> Meaning {
    let triples = lists::meaning(lanes, count, names, listed).expect("a text for every term");
    triples.into_iter().collect()
}

/// A roomy reading.
fn roomy(random: &mut Random, file: Vec<u8>) -> Reading {
    let kind = trial::random::legal_kind(random);
    let ann = trial::random::annotation(random, kind);
    let (lanes, names) = (common::old_lanes(1024), common::old_names(512, 32_768));
    Reading { kind, ann, file, lanes, names }
}

/// T1, given the triples that the file's lines were made from.
fn assert_means(case: &Reading, triples: &[[Text; 3]]) {
    let (out, lanes, names) = read(case);
    assert_eq!((out.number, out.place), (0, 0), "{}", String::from_utf8_lossy(&case.file));
    let expected: Meaning = triples.iter().cloned().collect();
    assert_eq!(meaning(&lanes, out.count, &names, out.names), expected);
    assert_eq!(out.count, expected.len());
    assert!(table::check(case.kind, &lanes, out.count).done());
    let rows = table::rows(&lanes, usize::MAX);
    assert!(rows[..out.count].iter().all(|row| row.1 == case.ann));
    assert!(rows[out.count..].iter().all(|row| *row == ((0, 0, 0), 0)));
    assert_list(&names, out.names, triples);
}

/// The list's part of T1: the texts in the order met, numbered per sort, and nothing behind them.
fn assert_list(names: &Names, listed: usize, triples: &[[Text; 3]]) {
    let mut order: Vec<&Text> = Vec::new();
    for text in triples.iter().flatten().filter(|text| text.known().is_none()) {
        if !order.contains(&text) {
            order.push(text);
        }
    }
    assert_eq!(listed, order.len());
    let mut next: BTreeMap<Sort, u16> = Sort::ALL.map(|sort| (sort, sort.first())).into();
    let mut end = 0;
    for (at, text) in order.into_iter().enumerate() {
        assert!(text.legal());
        assert_eq!(names.terms[at], next[&text.sort]);
        *next.get_mut(&text.sort).unwrap() += 1;
        end += text.bytes.len();
        assert_eq!(usize::from(names.ends[at]), end);
        assert_eq!(names.entry(at), Some(&text.bytes[..]));
    }
    assert!(names.terms[listed..].iter().chain(&names.ends[listed..]).all(|entry| *entry == 0));
    assert!(names.text[end..].iter().all(|byte| *byte == 0));
}

#[test]
fn t1_reading_means_the_file() {
    let mut random = Random::new(71);
    for _ in 0..6000 {
        let lines = random.below(12);
        let file = files::valid(&mut random, lines);
        let triples: Vec<[Text; 3]> = file.lines.into_iter().filter_map(|line| line.1).collect();
        let case = roomy(&mut random, file.bytes.clone());
        assert_means(&case, &triples);
        // In lanes that just hold it all the same.
        let Needs { rows, entries, bytes } = needs(triples.iter());
        let (lanes, names) = (Lanes::zero(rows), Names::zero(entries, bytes));
        assert_means(&Reading { lanes, names, ..case }, &triples);
    }
}

/// The number and the place by T2, from what the lines up to each one ask for.
fn expected(case: &Reading, lines: &[(usize, Line)]) -> (u32, usize) {
    if !annotation::kind_legal(case.kind) {
        return (4, 0);
    }
    let table = [case.lanes.pred.len(), case.lanes.obj.len(), case.lanes.ann.len()];
    let rows = case.lanes.subj.len();
    let entries = case.names.terms.len();
    if table != [rows; 3] || rows > 1024 || case.names.ends.len() != entries || entries > 512 {
        return (11, 0);
    }
    if case.names.text.len() > 32_768 {
        return (11, 0);
    }
    if case.file.len() > 65_535 {
        return (13, 0);
    }
    let number = annotation::judge(case.kind, case.ann);
    if number != 0 {
        return (number, 0);
    }
    let mut triples = Vec::new();
    for (place, line) in lines {
        match line {
            Line::Wrong => return (26, *place),
            Line::Empty => continue,
            Line::Triple(triple) => triples.push(triple.clone()),
        }
        let asked = needs(triples.iter());
        if asked.entries > entries || asked.bytes > case.names.text.len() {
            return (27, *place);
        }
        if asked.rows > rows {
            return (12, *place);
        }
    }
    (0, 0)
}

/// What a refusal leaves: nothing changed after 11 and 13, else zeros.
fn assert_left(case: &Reading, out: ReadOut, lanes: &Lanes, names: &Names) {
    assert_eq!((out.count, out.names), (0, 0));
    if out.number == 11 || out.number == 13 {
        assert_eq!((lanes, names), (&case.lanes, &case.names));
        return;
    }
    let lengths = |lanes: &Lanes, names: &Names| {
        let table = [lanes.subj.len(), lanes.pred.len(), lanes.obj.len(), lanes.ann.len()];
        (table, [names.terms.len(), names.ends.len(), names.text.len()])
    };
    assert_eq!(lengths(lanes, names), lengths(&case.lanes, &case.names));
    let small = [&lanes.subj, &lanes.pred, &lanes.obj, &names.terms, &names.ends];
    assert!(small.into_iter().flatten().all(|entry| *entry == 0));
    assert!(lanes.ann.iter().all(|entry| *entry == 0));
    assert!(names.text.iter().all(|entry| *entry == 0));
}

#[test]
fn t2_refusals_of_valid_files_are_exact() {
    let mut random = Random::new(72);
    for _ in 0..20_000 {
        let lines = random.below(7);
        let file = files::valid(&mut random, lines);
        let case = files::reading_of(&mut random, file.bytes);
        // What the lines mean is known from their making.
        let judged = file.lines.into_iter().map(|(place, means)| match means {
            Some(triple) => (place, Line::Triple(triple)),
            None => (place, Line::Empty),
        });
        let judged: Vec<(usize, Line)> = judged.collect();
        let (out, lanes, names) = read(&case);
        assert_eq!((out.number, out.place as usize), expected(&case, &judged));
        if out.number != 0 {
            assert_left(&case, out, &lanes, &names);
        }
    }
}

#[test]
fn t2_refusals_of_any_file_are_exact() {
    let mut random = Random::new(73);
    for _ in 0..12_000 {
        let file = match random.below(3) {
            0 => files::any(&mut random),
            _ => files::spoiled(&mut random),
        };
        let case = files::reading_of(&mut random, file);
        let (out, lanes, names) = read(&case);
        if out.number != 0 {
            assert_left(&case, out, &lanes, &names);
        }
        // Asking line after line takes long for a file of a thousand lines.
        let lines = grammar::lines(&case.file);
        if lines.len() < 40 {
            let judged: Vec<(usize, Line)> =
                lines.into_iter().map(|(place, line)| (place, grammar::line(line))).collect();
            assert_eq!((out.number, out.place as usize), expected(&case, &judged));
        }
    }
}

/// The output of a done writing.
fn write(case: &Writing) -> Option<Vec<u8>> {
    let Writing { kind, lanes, count, names, listed, out } = case;
    let mut bytes = out.clone();
    let done = write_triples(*kind, lanes, *count, names, *listed, &mut bytes);
    assert_eq!(bytes[done.length..], out[done.length..]);
    bytes.truncate(done.length);
    assert!(done.number == 0 || done.length == 0);
    Some(bytes).filter(|_| done.number == 0)
}

/// A line of the canonical form, judged by its bytes: one blank behind each term, no comment, and
/// a literal as it must be.
fn canonical(line: &[u8], means: &[Text; 3]) -> bool {
    let [subject, predicate, object] = means.each_ref().map(|text| {
        let bytes = std::str::from_utf8(&text.bytes).expect("UTF-8").to_string();
        match text.sort {
            Sort::Name => format!("<{bytes}>"),
            Sort::Blank => format!("_:{bytes}"),
            Sort::Literal => bytes,
        }
    });
    let whole = format!("{subject} {predicate} {object} .");
    whole.as_bytes() == line && (means[2].sort != Sort::Literal || canonical_literal(&object))
}

/// No escapes but four, and no xsd:string.
fn canonical_literal(literal: &str) -> bool {
    let mut characters = literal.chars();
    while let Some(one) = characters.next() {
        if one == '\\' && !characters.next().is_some_and(|behind| "\"\\nr".contains(behind)) {
            return false;
        }
    }
    !literal.ends_with(&format!("\"^^<{XSD_STRING}>"))
}

#[test]
fn t3_writing_is_canonical_and_means_the_rows() {
    let mut random = Random::new(74);
    let mut done = 0;
    for _ in 0..12_000 {
        let case = lists::writing(&mut random);
        let Some(bytes) = write(&case) else {
            continue;
        };
        done += 1;
        let Writing { lanes, count, names, listed, .. } = &case;
        let rows = lists::meaning(lanes, *count, names, *listed).expect("texts");
        assert!(bytes.is_empty() || bytes.ends_with(b"\n"));
        assert!(!bytes.contains(&b'\r'));
        let lines: Vec<&[u8]> = bytes.split(|byte| *byte == b'\n').collect();
        assert_eq!(lines.len(), rows.len() + 1);
        for (line, means) in lines.iter().zip(&rows) {
            assert_eq!(grammar::line(line), Line::Triple(means.clone()));
            assert!(canonical(line, means), "{}", String::from_utf8_lossy(line));
        }
    }
    assert!(done > 3000, "{done}");
}

#[test]
fn t4_what_is_written_reads_back() {
    let mut random = Random::new(75);
    let (mut done, mut fewer) = (0, 0);
    for _ in 0..12_000 {
        let case = lists::writing(&mut random);
        let Some(file) = write(&case).filter(|file| file.len() <= 65_535) else {
            continue;
        };
        let before = meaning(&case.lanes, case.count, &case.names, case.listed);
        let need = needs(before.iter());
        let kind = trial::random::legal_kind(&mut random);
        let ann = trial::random::annotation(&mut random, kind);
        let read_with = |rows, entries, bytes| {
            let (mut lanes, mut names) = (Lanes::zero(rows), Names::zero(entries, bytes));
            let out = read_triples(kind, ann, &file, &mut lanes, &mut names);
            (out, lanes, names)
        };
        let (out, lanes, names) = read_with(need.rows, need.entries, need.bytes);
        assert_eq!((out.number, out.place, out.count), (0, 0, before.len()));
        assert_eq!(meaning(&lanes, out.count, &names, out.names), before);
        assert!(out.count <= case.count);
        fewer += usize::from(out.count < case.count);
        // Less room is 27 or 12.
        if need.rows > 0 {
            assert_eq!(read_with(need.rows - 1, need.entries, need.bytes).0.number, 12);
        }
        if need.entries > 0 {
            assert_eq!(read_with(need.rows, need.entries - 1, need.bytes).0.number, 27);
            assert_eq!(read_with(need.rows, need.entries, need.bytes - 1).0.number, 27);
        }
        done += 1;
    }
    assert!(done > 3000 && fewer > 100, "{done} {fewer}");
}

#[test]
fn t4_a_list_from_reading_keeps_the_count() {
    let mut random = Random::new(76);
    for _ in 0..4000 {
        let lines = random.below(12);
        let file = files::valid(&mut random, lines);
        let first = roomy(&mut random, file.bytes);
        let (out, lanes, names) = read(&first);
        let mut bytes = vec![0; 70_000];
        let done = write_triples(first.kind, &lanes, out.count, &names, out.names, &mut bytes);
        assert_eq!(done.number, 0);
        let again = Reading { file: bytes[..done.length].to_vec(), ..first };
        let (back, new_lanes, new_names) = read(&again);
        assert_eq!((back.number, back.count, back.names), (0, out.count, out.names));
        let before = meaning(&lanes, out.count, &names, out.names);
        assert_eq!(meaning(&new_lanes, back.count, &new_names, back.names), before);
    }
}

#[test]
fn t5_what_was_read_can_be_written() {
    let mut random = Random::new(77);
    let mut done = 0;
    for _ in 0..6000 {
        let case = files::reading(&mut random);
        let (out, lanes, names) = read(&case);
        if out.number != 0 {
            continue;
        }
        done += 1;
        let mut bytes = vec![0; 400_000];
        let whole = write_triples(case.kind, &lanes, out.count, &names, out.names, &mut bytes);
        assert_eq!((whole.number, whole.place), (0, 0));
        for room in [0, whole.length.saturating_sub(1), whole.length, whole.length + 1] {
            let bytes = &mut vec![0; room];
            let again = write_triples(case.kind, &lanes, out.count, &names, out.names, bytes);
            assert_eq!(again.number, if room < whole.length { 12 } else { 0 });
        }
    }
    assert!(done > 1500, "{done}");
}

/// A text is legal exactly when a line can give it.
#[test]
fn legal_texts_are_those_that_reading_gives() {
    let mut random = Random::new(78);
    let mut legal = 0;
    for _ in 0..60_000 {
        let sort = Sort::ALL[random.below(3)];
        let term = lines::term_of(&mut random, sort);
        let bytes = match random.below(3) {
            0 => lines::text(&term).bytes,
            1 => lines::spelled(&mut random, &term).into_bytes(),
            _ => lines::mutated(&mut random, &lines::text(&term).bytes),
        };
        let text = Text { sort: Sort::ALL[random.below(3)], bytes };
        let line = [b"<m:s> <m:p> ", &text.written()[..], b" ."].concat();
        let given = match grammar::line(&line) {
            Line::Triple([_, _, object]) => object == text,
            _ => false,
        };
        assert_eq!(text.legal(), given, "{text:?}");
        legal += usize::from(given);
    }
    assert!(legal > 10_000, "{legal}");
}

/// Each line by itself means what it was made from; damaged, it is no N-Triples at any place.
#[test]
fn lines_mean_what_they_were_made_from() {
    let mut random = Random::new(79);
    for at in 0..30_000 {
        let Said { bytes, means } = lines::triple(&mut random);
        assert_eq!(grammar::line(&bytes), means.map_or(Line::Empty, Line::Triple));
        let empty = lines::empty(&mut random);
        assert_eq!(grammar::line(&empty.bytes), Line::Empty);
        if at % 100 == 0 {
            for place in 0..=bytes.len() {
                for damage in lines::NO_UTF8 {
                    let damaged = lines::damaged_at(&bytes, place, damage);
                    assert_eq!(grammar::line(&damaged), Line::Wrong, "{damaged:?}");
                }
            }
        }
    }
    for line in lines::WRONG {
        assert_eq!(grammar::line(line.as_bytes()), Line::Wrong, "{line}");
    }
}
