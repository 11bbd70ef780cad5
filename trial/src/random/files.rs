//! Files of N-Triples to read: their lines, and the lanes lent, which often just hold what they
//! ask for or miss it by one.

use super::lines::{self, Said, Term};
use super::{annotation, bad_annotation, legal_kind, Random};
use crate::book;
use crate::ntriples::grammar::{self, Line};
use crate::ntriples::names::{MOST_NAMES, MOST_TEXT};
use crate::ntriples::{Names, Text};
use crate::table::{Lanes, LONGEST};
use std::collections::BTreeSet;

/// A valid file: its bytes, and each line's first byte with what that line means.
#[derive(Clone, Debug, Default, PartialEq, Eq)]
pub struct File {
    pub bytes: Vec<u8>,
    pub lines: Vec<(usize, Option<[Text; 3]>)>,
}

impl File {
    fn push(&mut self, said: Said, eol: &str) {
        if !said.bytes.is_empty() {
            self.lines.push((self.bytes.len(), said.means));
        }
        self.bytes.extend(said.bytes);
        self.bytes.extend(eol.bytes());
    }
}

/// All that a reading is handed.
#[derive(Clone, Debug, PartialEq, Eq)]
pub struct Reading {
    pub kind: u8,
    pub ann: u64,
    pub file: Vec<u8>,
    pub lanes: Lanes,
    pub names: Names,
}

/// Rows, entries and bytes of text.
#[derive(Clone, Copy, Debug, PartialEq, Eq)]
pub struct Needs {
    pub rows: usize,
    pub entries: usize,
    pub bytes: usize,
}

/// What these triples ask for: the different ones, and their different texts without the five.
pub fn needs<'a>(triples: impl Iterator<Item = &'a [Text; 3]>) -> Needs {
    let triples: BTreeSet<&[Text; 3]> = triples.collect();
    let texts: BTreeSet<&Text> = triples.iter().flat_map(|triple| triple.iter()).collect();
    let texts: Vec<&Text> = texts.into_iter().filter(|text| text.known().is_none()).collect();
    let bytes = texts.iter().map(|text| text.bytes.len()).sum();
    Needs { rows: triples.len(), entries: texts.len(), bytes }
}

/// What the lines of a file ask for, up to the first that is not N-Triples.
fn needs_of(file: &[u8]) -> Needs {
    let mut triples = Vec::new();
    for (_, line) in grammar::lines(file) {
        match grammar::line(line) {
            Line::Wrong => break,
            Line::Empty => {}
            Line::Triple(triple) => triples.push(triple),
        }
    }
    needs(triples.iter())
}

fn eol(random: &mut Random) -> &'static str {
    random.pick(&["\n", "\n", "\n", "\r\n", "\r", "\n\r", "\r\r\n", "\n\n"])
}

/// A valid file of so many lines over a few triples, spelled anew wherever they come again.
pub fn valid(random: &mut Random, lines: usize) -> File {
    let pool: Vec<[Term; 3]> = (0..lines.max(1)).map(|_| lines::terms(random)).collect();
    let mut file = File::default();
    if random.chance(8) {
        file.bytes.extend(eol(random).bytes());
    }
    for at in 0..lines {
        let chosen = pool.get(random.below(pool.len()));
        let said = match chosen {
            Some(terms) if !random.chance(6) => lines::line_of(random, terms),
            _ => lines::empty(random),
        };
        let last = at + 1 == lines && random.chance(2);
        file.push(said, if last { "" } else { eol(random) });
    }
    file
}

/// A valid file of one plain line for each of these triples.
pub fn plain<'a>(triples: impl IntoIterator<Item = [&'a str; 3]>) -> Vec<u8> {
    let lines = triples.into_iter().map(|[subj, pred, obj]| format!("{subj} {pred} {obj} .\n"));
    lines.collect::<String>().into_bytes()
}

/// A file with 510 to 514 different texts of all sorts.
pub fn many_names(random: &mut Random) -> Vec<u8> {
    let count = random.pick(&[510, 511, 511, 512, 512, 513, 513, 514]);
    let mut file = String::new();
    for at in 0..count - 1 {
        let object = match random.below(4) {
            0 => format!("_:b{at}"),
            1 => format!("\"l{at}\""),
            _ => format!("<m:{at}>"),
        };
        file += &format!("<m:p> <m:p> {object} .\n");
    }
    file.into_bytes()
}

/// A file whose texts are 32,766 to 32,770 bytes together.
pub fn much_text(random: &mut Random) -> Vec<u8> {
    let total = random.pick(&[32_766, 32_767, 32_767, 32_768, 32_768, 32_769, 32_769, 32_770]);
    // `m:p` takes three bytes; what is left of the total is parted among the objects.
    let mut left: usize = total - 3;
    let mut file = String::new();
    for at in 0..random.below(4) {
        let bytes = random.from_to(6, left / 2);
        let digit = char::from(b'0' + at as u8);
        file += &match random.below(3) {
            0 => format!("<m:p> <m:p> <m:{digit}{}> .\n", "n".repeat(bytes - 3)),
            1 => format!("<m:p> <m:p> _:{digit}{} .\n", "b".repeat(bytes - 1)),
            _ => format!("<m:p> <m:p> \"{digit}{}\"@x .\n", "l".repeat(bytes - 5)),
        };
        left -= bytes;
    }
    file += &format!("<m:p> <m:p> <m:z{}> .\n", "z".repeat(left - 3));
    file.into_bytes()
}

/// A file of 1,022 to 1,026 different triples over few names.
pub fn many_rows(random: &mut Random) -> Vec<u8> {
    let count = random.pick(&[1022, 1023, 1024, 1024, 1025, 1025, 1026]);
    let first = random.below(count);
    let lines = (0..count).map(|at| (at + first) % count);
    let lines =
        lines.map(|at| format!("<m:{}> <m:{}> <m:{}> .\n", at % 11, at / 11 % 10, at / 110));
    lines.collect::<String>().into_bytes()
}

/// A file of 65,534 to 65,537 bytes: valid lines, then filled up, perhaps with a fault in it.
pub fn long(random: &mut Random) -> Vec<u8> {
    let length = random.pick(&[65_534, 65_535, 65_535, 65_536, 65_536, 65_537, 70_000]);
    let lines = random.below(30);
    let mut bytes = valid(random, lines).bytes;
    match random.below(4) {
        0 => bytes.resize(length, b'\n'),
        1 => {
            bytes.extend(b"\n#");
            bytes.resize(length, b'x');
        }
        2 => {
            bytes.push(b'\n');
            while bytes.len() < length {
                bytes.extend(lines::triple(random).bytes);
                bytes.push(b'\n');
            }
            bytes.truncate(length);
        }
        _ => bytes.resize(length, b' '),
    }
    bytes
}

/// Valid lines with one to three spoiled ones between them.
pub fn spoiled(random: &mut Random) -> Vec<u8> {
    let count = random.below(5);
    let mut lines: Vec<Vec<u8>> = (0..count).map(|_| lines::triple(random).bytes).collect();
    for _ in 0..random.from_to(1, 3) {
        lines.insert(random.below(lines.len() + 1), lines::spoiled(random));
    }
    let mut file = Vec::new();
    for line in lines {
        file.extend(line);
        file.extend(eol(random).bytes());
    }
    file
}

/// Any file at all; mostly small.
pub fn any(random: &mut Random) -> Vec<u8> {
    match random.below(100) {
        0 => many_names(random),
        1 => much_text(random),
        2 => many_rows(random),
        3 | 4 => long(random),
        5..=44 => spoiled(random),
        _ => {
            let lines = random.below(9);
            valid(random, lines).bytes
        }
    }
}

/// A length around what is needed: just that, one less, one more, none, all there may be, or too
/// much.
fn length(random: &mut Random, need: usize, most: usize) -> usize {
    match random.below(32) {
        0 => 0,
        1 => most + 1,
        2..=6 => need.saturating_sub(1),
        7 | 8 => need + 1,
        9 => random.below(need + 1),
        10..=13 => most,
        _ => need,
    }
}

/// Old content that is no zero.
fn old_lane<T>(random: &mut Random, length: usize, make: impl Fn(u64) -> T) -> Vec<T> {
    (0..length).map(|_| make(random.draw() | 1)).collect()
}

/// Lanes with these lengths, full of what stood there before.
fn old_lanes(random: &mut Random, rows: usize) -> Lanes {
    Lanes {
        subj: old_lane(random, rows, |old| old as u16),
        pred: old_lane(random, rows, |old| old as u16),
        obj: old_lane(random, rows, |old| old as u16),
        ann: old_lane(random, rows, |old| old),
    }
}

fn old_names(random: &mut Random, entries: usize, bytes: usize) -> Names {
    Names {
        terms: old_lane(random, entries, |old| old as u16),
        ends: old_lane(random, entries, |old| old as u16),
        text: old_lane(random, bytes, |old| old as u8),
    }
}

/// A length that does not go with the others.
fn other_length(random: &mut Random, old: usize) -> usize {
    random.pick(&[0, old.saturating_sub(1), old + 1, old + 1, 512, 513, 1024, 1025])
}

/// Makes one lane or several longer or shorter than the rest.
fn unequal(random: &mut Random, lanes: &mut Lanes, names: &mut Names) {
    for lane in
        [&mut lanes.subj, &mut lanes.pred, &mut lanes.obj, &mut names.terms, &mut names.ends]
    {
        if random.chance(4) {
            lane.resize(other_length(random, lane.len()), 9);
        }
    }
    if random.chance(4) {
        lanes.ann.resize(other_length(random, lanes.ann.len()), 9);
    }
}

/// The lanes for a file: mostly roomy in all but one or two of the three lengths.
fn lent(random: &mut Random, needs: Needs) -> (Lanes, Names) {
    let rows = length(random, needs.rows, LONGEST);
    let entries = length(random, needs.entries, MOST_NAMES);
    let bytes = length(random, needs.bytes, MOST_TEXT);
    let (mut lanes, mut names) = (old_lanes(random, rows), old_names(random, entries, bytes));
    if random.chance(24) {
        unequal(random, &mut lanes, &mut names);
    }
    (lanes, names)
}

/// A kind and an annotation, sometimes illegal.
fn kind_and_annotation(random: &mut Random) -> (u8, u64) {
    if random.chance(24) {
        return (random.pick(&[0, 2, 6, 128, 255]), random.pick(&[0, 1, u64::MAX]));
    }
    let kind = legal_kind(random);
    let legal = !random.chance(24);
    (kind, if legal { annotation(random, kind) } else { bad_annotation(random, kind) })
}

/// A reading of this file into lanes made for it.
pub fn reading_of(random: &mut Random, file: Vec<u8>) -> Reading {
    let (kind, ann) = kind_and_annotation(random);
    let whole = file.get(..book::LONGEST).unwrap_or(&file);
    let (lanes, names) = lent(random, needs_of(whole));
    Reading { kind, ann, file, lanes, names }
}

/// Any reading at all.
pub fn reading(random: &mut Random) -> Reading {
    let file = any(random);
    reading_of(random, file)
}
