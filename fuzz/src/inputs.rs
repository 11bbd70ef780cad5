//! Bytes as what a reading or a writing of a makers' list is handed, and back. Numbers have the high
//! byte first; where bytes are missing they count as 0. What a lane holds before is a pattern.

use trial::ntriples::names::{MOST_NAMES, MOST_TEXT};
use trial::ntriples::Names;
use trial::random::files::Reading;
use trial::random::lists::Writing;
use trial::table::{self, Lanes, LONGEST};

/// Bytes taken from the front.
struct Front<'a>(&'a [u8]);

impl Front<'_> {
    fn number(&mut self, bytes: usize) -> u64 {
        let (now, later) = self.0.split_at(bytes.min(self.0.len()));
        self.0 = later;
        let padded = now.iter().copied().chain(std::iter::repeat(0)).take(bytes);
        padded.fold(0, |number, byte| number << 8 | u64::from(byte))
    }

    fn byte(&mut self) -> u8 {
        self.number(1) as u8
    }

    fn short(&mut self) -> u16 {
        self.number(2) as u16
    }

    fn length(&mut self) -> usize {
        usize::from(self.short())
    }
}

/// Bytes that no call is likely to write in the same order.
pub fn pattern(length: usize) -> Vec<u8> {
    (0..length).map(|at| (at * 151 + 77) as u8).collect()
}

fn old(length: usize) -> Vec<u16> {
    (0..length).map(|at| (at * 40_503 + 9_973) as u16).collect()
}

/// Makes one of the six lanes that must be as long as others longer than they are.
fn stretch(odd: u8, lanes: &mut Lanes, names: &mut Names) {
    match odd {
        1 => lanes.subj.push(1),
        2 => lanes.pred.push(1),
        3 => lanes.obj.push(1),
        4 => lanes.ann.push(1),
        5 => names.terms.push(1),
        6 => names.ends.push(1),
        _ => {}
    }
}

/// Which lane is longer than it should be, if it is just one, and by one.
fn stretched(lanes: &Lanes, names: &Names) -> u8 {
    let Lanes { subj, pred, obj, ann } = lanes;
    let rows = subj.len().min(pred.len()).min(obj.len()).min(ann.len());
    let entries = names.terms.len().min(names.ends.len());
    let over = [subj.len(), pred.len(), obj.len(), ann.len()].map(|length| length > rows);
    let over = [&over[..], &[names.terms.len() > entries, names.ends.len() > entries]].concat();
    over.iter().position(|longer| *longer).map_or(0, |at| at as u8 + 1)
}

/// Kind, longer lane, annotation (8 bytes), rows, entries and bytes of text lent (2 each), the file.
pub fn reading(input: &[u8]) -> Reading {
    let mut front = Front(input);
    let (kind, odd, ann) = (front.byte(), front.byte(), front.number(8));
    let rows = front.length().min(LONGEST + 1);
    let entries = front.length().min(MOST_NAMES + 1);
    let bytes = front.length().min(MOST_TEXT + 1);
    let lane = old(rows);
    let anns = lane.iter().map(|old| u64::from(*old) << 40 | 1).collect();
    let mut lanes = Lanes { subj: lane.clone(), pred: lane.clone(), obj: lane, ann: anns };
    let mut names = Names { terms: old(entries), ends: old(entries), text: pattern(bytes) };
    stretch(odd, &mut lanes, &mut names);
    Reading { kind, ann, file: front.0.to_vec(), lanes, names }
}

/// The input for a reading, its lanes as long as they are.
pub fn of_reading(reading: &Reading) -> Vec<u8> {
    let Reading { kind, ann, file, lanes, names } = reading;
    let odd = stretched(lanes, names);
    let rows = lanes.subj.len().min(lanes.pred.len()).min(lanes.obj.len()).min(lanes.ann.len());
    let entries = names.terms.len().min(names.ends.len());
    let lengths = [rows, entries, names.text.len()].map(|length| (length as u16).to_be_bytes());
    [&[*kind, odd][..], &ann.to_be_bytes(), &lengths.concat(), file].concat()
}

/// Kind, longer lane, then rows, the count, entries, the number of names, the output's length (2 bytes
/// each), so many rows of 14 bytes, so many entries of 4 (number and end), and the text.
pub fn writing(input: &[u8]) -> Writing {
    let mut front = Front(input);
    let (kind, odd) = (front.byte(), front.byte());
    let (rows, count) = (front.length(), front.length());
    let (entries, listed) = (front.length(), front.length());
    let out = pattern(front.length());
    let mut lanes = Lanes::default();
    for _ in 0..rows.min(LONGEST + 1).min(front.0.len().div_ceil(14)) {
        lanes.subj.push(front.short());
        lanes.pred.push(front.short());
        lanes.obj.push(front.short());
        lanes.ann.push(front.number(8));
    }
    let mut names = Names::default();
    for _ in 0..entries.min(MOST_NAMES + 1).min(front.0.len().div_ceil(4)) {
        names.terms.push(front.short());
        names.ends.push(front.short());
    }
    names.text.extend(front.0.iter().take(MOST_TEXT + 1));
    stretch(odd, &mut lanes, &mut names);
    Writing { kind, lanes, count, names, listed, out }
}

/// The input for a writing, as far as it can be said so.
pub fn of_writing(writing: &Writing) -> Vec<u8> {
    let Writing { kind, lanes, count, names, listed, out } = writing;
    let odd = stretched(lanes, names);
    let rows = table::rows(lanes, usize::MAX);
    let entries: Vec<_> = names.terms.iter().zip(&names.ends).collect();
    let numbers = [rows.len(), *count, entries.len(), *listed, out.len()];
    let numbers = numbers.map(|number| u16::try_from(number).unwrap_or(u16::MAX).to_be_bytes());
    let mut bytes = [&[*kind, odd][..], &numbers.concat()].concat();
    for ((subj, pred, obj), ann) in rows {
        bytes.extend([subj, pred, obj].map(u16::to_be_bytes).concat());
        bytes.extend(ann.to_be_bytes());
    }
    for (number, end) in entries {
        bytes.extend([*number, *end].map(u16::to_be_bytes).concat());
    }
    bytes.extend(&names.text);
    bytes
}
