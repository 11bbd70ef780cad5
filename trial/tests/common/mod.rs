//! Short ways to say tables, books, questions and makers' lists in the tests.
#![allow(dead_code)]

use trial::ntriples::{self, Names, ReadOut};
use trial::pattern::{AnnSlot, Pattern, Slot};
use trial::question::{self, Part, Test};
use trial::steps::{self, Ran, Step};
use trial::table::{self, Lanes, Row};

pub const SP: u16 = 0;
pub const SC: u16 = 1;
pub const TYPE: u16 = 2;
pub const DOM: u16 = 3;
pub const RANGE: u16 = 4;

/// P1's book, byte by byte from the document.
pub const P1: [u8; 41] = [
    0x01, 0x00, 0x04, 0x01, 0x01, 0x07, 0xD0, //
    0x03, 0x00, 0x0E, 0x00, 0x0A, 0x00, 0x02, 0x00, 0x0B, 0, 0, 0, 0, 0, 0, 0, 0x78, //
    0x03, 0x00, 0x0E, 0x00, 0x0B, 0x00, 0x01, 0x00, 0x0C, 0, 0, 0, 0, 0, 0, 0x07, 0xE0,
];

/// P1's table once closed.
pub const P1_CLOSED: [Row; 3] = [((10, TYPE, 11), 120), ((10, TYPE, 12), 96), ((11, SC, 12), 2016)];

pub fn row(subj: u16, pred: u16, obj: u16, ann: u64) -> Row {
    ((subj, pred, obj), ann)
}

/// Lanes with these rows in this order, and zeros up to the room.
pub fn lanes(rows: &[Row], room: usize) -> Lanes {
    let mut lanes = Lanes::zero(room);
    table::fill(&mut lanes, rows);
    lanes
}

/// The closure of rows in any order, with room for 1,024.
pub fn closed(kind: u8, rows: &[Row]) -> Vec<Row> {
    trial::closing::closure(kind, 1, rows, 1024).expect("room")
}

/// What closing adds or changes, beside the input rows.
pub fn drawn(kind: u8, rows: &[Row]) -> Vec<Row> {
    closed(kind, rows).into_iter().filter(|row| !rows.contains(row)).collect()
}

pub fn c(value: u16) -> Slot {
    Slot::constant(value)
}

pub fn v(value: u16) -> Slot {
    Slot::variable(value)
}

pub fn ca(value: u64) -> AnnSlot {
    AnnSlot::constant(value)
}

pub fn va(value: u64) -> AnnSlot {
    AnnSlot::variable(value)
}

pub fn triple(subj: Slot, pred: Slot, obj: Slot, ann: AnnSlot) -> Part {
    Part::Triple(Pattern { subj, pred, obj, ann })
}

/// Any row at all.
pub fn plain() -> Part {
    triple(v(0), v(1), v(2), va(0))
}

pub fn both(left: Part, right: Part) -> Part {
    Part::Both(Box::new(left), Box::new(right))
}

pub fn either(left: Part, right: Part) -> Part {
    Part::Either(Box::new(left), Box::new(right))
}

pub fn only(part: Part, test: Test) -> Part {
    Part::Only { place: 0, part: Box::new(part), test }
}

/// Number and place of compiling these bytes, with 48 records lent.
pub fn compiled(kind: u8, bytes: &[u8]) -> (u32, u64) {
    let mut records = vec![Step::default(); 48];
    let compiled = question::compile(kind, bytes, &mut records);
    assert_eq!(compiled.number == 0, compiled.steps > 0);
    (compiled.number, compiled.place)
}

/// The same for a tree.
pub fn compiled_part(kind: u8, part: &Part) -> (u32, u64) {
    compiled(kind, &question::bytes_of(part))
}

/// Sixteen terms and eight annotations.
pub type Line = ([u16; 16], [u64; 8]);

/// Runs steps with answer lanes for `room` answers, and hands back the answers written. Lanes
/// past them must be as they were.
pub fn run_steps(
    kind: u8,
    table: (&Lanes, usize),
    steps: &[Step],
    allowed: u32,
    room: usize,
) -> (Ran, Vec<Line>) {
    let (mut terms, mut anns) = (vec![777; 16 * room], vec![777; 8 * room]);
    let count = steps.len();
    let ran = steps::run(kind, table.0, table.1, steps, count, allowed, &mut terms, &mut anns);
    assert!(terms[16 * ran.answers..].iter().all(|term| *term == 777));
    assert!(anns[8 * ran.answers..].iter().all(|ann| *ann == 777));
    let lines = terms.chunks(16).zip(anns.chunks(8)).take(ran.answers);
    let lines = lines.map(|(terms, anns)| (terms.try_into().unwrap(), anns.try_into().unwrap()));
    (ran, lines.collect())
}

/// Compiles a question and runs it.
pub fn run_part(
    kind: u8,
    table: (&Lanes, usize),
    part: &Part,
    allowed: u32,
    room: usize,
) -> (Ran, Vec<Line>) {
    assert_eq!(compiled_part(kind, part), (0, 0));
    run_steps(kind, table, &question::flat(part), allowed, room)
}

pub fn behind_length(bytes: &[u8]) -> Vec<u8> {
    [&(bytes.len() as u16).to_be_bytes()[..], bytes].concat()
}

/// Table lanes full of old rows.
pub fn old_lanes(room: usize) -> Lanes {
    lanes(&vec![row(60_000, 50_000, 40_000, 7); room], room)
}

/// A names list full of old entries.
pub fn old_names(room: usize, bytes: usize) -> Names {
    Names { terms: vec![9; room], ends: vec![3; room], text: vec![b'o'; bytes] }
}

/// A names list of these entries as reading would leave it, in lanes that just hold them.
pub fn names_of(entries: &[(u16, &str)]) -> Names {
    let text: Vec<u8> = entries.iter().flat_map(|entry| entry.1.bytes()).collect();
    let mut names = Names { text, ..Names::default() };
    for (number, text) in entries {
        let before = names.ends.last().copied().unwrap_or(0);
        names.terms.push(*number);
        names.ends.push(before + text.len() as u16);
    }
    names
}

/// A file read in kind 1 with annotation 7 into lanes full of old rows and entries.
pub struct Read {
    pub out: ReadOut,
    pub lanes: Lanes,
    pub names: Names,
}

impl Read {
    pub fn verdict(&self) -> (u32, u64) {
        (self.out.number, self.out.place)
    }

    pub fn triples(&self) -> Vec<(u16, u16, u16)> {
        table::rows(&self.lanes, self.out.count).iter().map(|row| row.0).collect()
    }

    /// The entries of the list as number and text.
    pub fn entries(&self) -> Vec<(u16, String)> {
        let texts = (0..self.out.names).map(|at| self.names.entry(at).expect("ends that rise"));
        let texts = texts.map(|bytes| String::from_utf8(bytes.to_vec()).expect("UTF-8"));
        self.names.terms.iter().copied().zip(texts).collect()
    }
}

/// Reads with room for so many rows, entries and bytes, and sees to what a refusal and a done
/// reading leave behind.
pub fn read_with(file: &[u8], rows: usize, entries: usize, bytes: usize) -> Read {
    let (mut table, mut names) = (old_lanes(rows), old_names(entries, bytes));
    let out = ntriples::read_triples(1, 7, file, &mut table, &mut names);
    match out.number {
        11 | 13 => assert_eq!((&table, &names), (&old_lanes(rows), &old_names(entries, bytes))),
        0 => {
            let zero = table::rows(&table, usize::MAX).split_off(out.count);
            assert!(zero.iter().all(|row| *row == ((0, 0, 0), 0)));
            assert!(names.terms[out.names..]
                .iter()
                .chain(&names.ends[out.names..])
                .all(|x| *x == 0));
            let end = names.ends[..out.names].last().copied().unwrap_or(0);
            assert!(names.text[usize::from(end)..].iter().all(|byte| *byte == 0));
        }
        _ => assert_eq!((&table, &names), (&Lanes::zero(rows), &Names::zero(entries, bytes))),
    }
    assert!(out.number == 0 || (out.count, out.names) == (0, 0));
    Read { out, lanes: table, names }
}

/// The same with all the room there may be.
pub fn read_all(file: &[u8]) -> Read {
    read_with(file, 1024, 512, 32_768)
}
