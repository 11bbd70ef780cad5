//! Reading a file of N-Triples into a table and a new names list (R1 to R8).

use super::grammar::{self, Line};
use super::names::Names;
use super::text::{Sort, Text};
use crate::annotation;
use crate::book;
use crate::table::{self, Lanes, Row, Triple, Verdict};
use std::collections::{BTreeMap, BTreeSet};

#[derive(Clone, Copy, Debug, PartialEq, Eq)]
pub struct ReadOut {
    pub number: u32,
    pub place: u64,
    /// Rows and entries; both 0 in a refusal.
    pub count: usize,
    pub names: usize,
}

impl ReadOut {
    fn refused(verdict: Verdict) -> ReadOut {
        ReadOut { number: verdict.number, place: verdict.place, count: 0, names: 0 }
    }

    /// The one number that the C host is given.
    pub fn packed(self) -> u64 {
        match self.number {
            0 => ((self.names as u64) << 16) | self.count as u64,
            number => (u64::from(number) << 32) | (self.place & 0xFFFF_FFFF),
        }
    }
}

/// What the lines read so far have given.
#[derive(Default)]
struct Contents {
    /// In the order met, all sorts mixed.
    entries: Vec<(u16, Text)>,
    numbers: BTreeMap<Text, u16>,
    /// The bytes of all entries.
    bytes: usize,
    triples: BTreeSet<Triple>,
}

/// Reads a file: 4, 11, 13, 10, then line by line 26, 27, 12. After 11 and 13 nothing has changed;
/// after any other refusal every lane is zero in all its length.
pub fn read_triples(
    kind: u8,
    ann: u64,
    file: &[u8],
    lanes: &mut Lanes,
    names: &mut Names,
) -> ReadOut {
    match judge(kind, ann, file, lanes, names) {
        Err(verdict) => {
            if verdict.number != 11 && verdict.number != 13 {
                table::fill(lanes, &[]);
                names.fill(&[]);
            }
            ReadOut::refused(verdict)
        }
        Ok(Contents { entries, triples, .. }) => {
            let rows: Vec<Row> = triples.iter().map(|triple| (*triple, ann)).collect();
            table::fill(lanes, &rows);
            names.fill(&entries);
            ReadOut { number: 0, place: 0, count: rows.len(), names: entries.len() }
        }
    }
}

fn judge(
    kind: u8,
    ann: u64,
    file: &[u8],
    lanes: &Lanes,
    names: &Names,
) -> Result<Contents, Verdict> {
    if !annotation::kind_legal(kind) {
        return Err(Verdict::new(4, 0));
    }
    if !lanes.fit() || !names.fit() {
        return Err(Verdict::new(11, 0));
    }
    if file.len() > book::LONGEST {
        return Err(Verdict::new(13, 0));
    }
    let number = annotation::judge(kind, ann);
    if number != 0 {
        return Err(Verdict::new(number, 0));
    }
    let mut contents = Contents::default();
    for (place, line) in grammar::lines(file) {
        let number = contents.take(line, lanes, names);
        if number != 0 {
            return Err(Verdict::new(number, place));
        }
    }
    Ok(contents)
}

impl Contents {
    /// Takes one line: 26, then 27 once its three texts are entered, then 12; else 0.
    fn take(&mut self, line: &[u8], lanes: &Lanes, names: &Names) -> u32 {
        let [subject, predicate, object] = match grammar::line(line) {
            Line::Wrong => return 26,
            Line::Empty => return 0,
            Line::Triple(texts) => texts,
        };
        let triple = (self.number(subject), self.number(predicate), self.number(object));
        if self.entries.len() > names.room() || self.bytes > names.text.len() {
            return 27;
        }
        self.triples.insert(triple);
        if self.triples.len() > lanes.room() {
            return 12;
        }
        0
    }

    /// The number of a text: 0 to 4, or that of its entry, which is made when it is first met.
    fn number(&mut self, text: Text) -> u16 {
        if let Some(number) = text.known().or_else(|| self.numbers.get(&text).copied()) {
            return number;
        }
        let number = self.next_of(text.sort);
        self.bytes += text.bytes.len();
        self.numbers.insert(text.clone(), number);
        self.entries.push((number, text));
        number
    }

    /// The number behind the last one given to this sort.
    fn next_of(&self, sort: Sort) -> u16 {
        let last = self.entries.iter().rev().find(|(_, text)| text.sort == sort);
        last.map_or(sort.first(), |(number, _)| number.wrapping_add(1))
    }
}
