//! The two exported calls for makers' lists: what was read is written and read again, what was
//! written is read and written again.

use crate::inputs::{self, pattern};
use crate::{must, Fault};
use std::collections::BTreeSet;
use trial::book;
use trial::ntriples::names::{MOST_NAMES, MOST_TEXT};
use trial::ntriples::{self, Names};
use trial::random::files::Reading;
use trial::random::lists::Writing;
use trial::table::{self, Lanes, LONGEST};

/// Reading, as C sees it.
pub type Read = unsafe extern "C" fn(
    u8,
    u64,
    *const u8,
    usize,
    *mut u16,
    usize,
    *mut u16,
    usize,
    *mut u16,
    usize,
    *mut u64,
    usize,
    *mut u16,
    usize,
    *mut u16,
    usize,
    *mut u8,
    usize,
) -> u64;

/// Writing, as C sees it.
pub type Write = unsafe extern "C" fn(
    u8,
    *const u16,
    usize,
    *const u16,
    usize,
    *const u16,
    usize,
    *const u64,
    usize,
    usize,
    *const u16,
    usize,
    *const u16,
    usize,
    *const u8,
    usize,
    usize,
    *mut u8,
    usize,
) -> u64;

/// The two calls.
#[derive(Clone, Copy)]
pub struct Calls {
    pub read: Read,
    pub write: Write,
}

/// What reading, and what writing, may refuse.
const READ_REFUSALS: [u64; 8] = [4, 10, 11, 12, 13, 26, 27, 28];
const WRITE_REFUSALS: [u64; 10] = [4, 8, 9, 10, 11, 12, 14, 15, 28, 39];

/// More than is ever written of what was read: a line grows by at most four bytes.
const WRITTEN: usize = book::LONGEST + 4 * (LONGEST + 1);

impl Calls {
    fn read(&self, kind: u8, ann: u64, file: &[u8], lanes: &mut Lanes, names: &mut Names) -> u64 {
        let Lanes { subj, pred, obj, ann: anns } = lanes;
        let Names { terms, ends, text } = names;
        // All are as long as said and none overlap: all that the call asks for.
        unsafe {
            (self.read)(
                kind,
                ann,
                file.as_ptr(),
                file.len(),
                subj.as_mut_ptr(),
                subj.len(),
                pred.as_mut_ptr(),
                pred.len(),
                obj.as_mut_ptr(),
                obj.len(),
                anns.as_mut_ptr(),
                anns.len(),
                terms.as_mut_ptr(),
                terms.len(),
                ends.as_mut_ptr(),
                ends.len(),
                text.as_mut_ptr(),
                text.len(),
            )
        }
    }

    fn write(&self, writing: &Writing, out: &mut [u8]) -> u64 {
        let Writing { kind, lanes, count, names, listed, .. } = writing;
        let Lanes { subj, pred, obj, ann } = lanes;
        let Names { terms, ends, text } = names;
        // As above.
        unsafe {
            (self.write)(
                *kind,
                subj.as_ptr(),
                subj.len(),
                pred.as_ptr(),
                pred.len(),
                obj.as_ptr(),
                obj.len(),
                ann.as_ptr(),
                ann.len(),
                *count,
                terms.as_ptr(),
                terms.len(),
                ends.as_ptr(),
                ends.len(),
                text.as_ptr(),
                text.len(),
                *listed,
                out.as_mut_ptr(),
                out.len(),
            )
        }
    }
}

/// Hands an input over to reading and judges what comes back.
pub fn judge_reading(calls: Calls, input: &[u8]) -> Result<(), Fault> {
    let Reading { kind, ann, file, lanes, names } = inputs::reading(input);
    let (mut lanes_now, mut names_now) = (lanes.clone(), names.clone());
    let answer = calls.read(kind, ann, &file, &mut lanes_now, &mut names_now);
    let said = || format!("answer {} * 2^32 + {}", answer >> 32, answer as u32);
    match answer >> 32 {
        0 => {
            let (count, listed) = (answer as usize & 0xFFFF, answer as usize >> 16);
            sound(ann, &lanes_now, count, &names_now, listed).map_err(|fault| fault + &said())?;
            let (lanes, names, out) = (lanes_now.clone(), names_now.clone(), pattern(WRITTEN));
            let writing = Writing { kind, lanes, count, names, listed, out };
            there_and_back(calls, &writing).map_err(|fault| fault + &said())?;
        }
        number => {
            must(READ_REFUSALS.contains(&number), || format!("no such refusal: {}", said()))?;
            let place = answer as u32 as usize;
            let at_line = [12, 26, 27].contains(&number) && line_begins(&file, place);
            must(at_line || place == 0, || format!("not at a line: {}", said()))?;
            let (mut lanes, mut names) = (lanes.clone(), names.clone());
            if ![11, 13].contains(&number) {
                table::fill(&mut lanes, &[]);
                names.fill(&[]);
            }
            let left = lanes_now == lanes && names_now == names;
            must(left, || format!("refused, and the lanes are not as they must be: {}", said()))?;
        }
    }
    let (mut model_lanes, mut model_names) = (lanes, names);
    let model = ntriples::read_triples(kind, ann, &file, &mut model_lanes, &mut model_names);
    must(model.packed() == answer, || format!("model {model:?}: {}", said()))?;
    must(model_lanes == lanes_now, || format!("the model's lanes differ: {}", said()))?;
    must(model_names == names_now, || format!("the model's list differs: {}", said()))
}

/// Whether a line begins there: no CR or LF, and behind one or first of all.
fn line_begins(file: &[u8], place: usize) -> bool {
    let eol = |at: usize| file.get(at).map_or(true, |byte| matches!(byte, b'\r' | b'\n'));
    !eol(place) && (place == 0 || eol(place - 1))
}

/// Rows ascend and name listed terms, numbers go on by one in each sort, texts are not empty and lie
/// end to end, and what is past all of these is zero.
fn sound(ann: u64, lanes: &Lanes, count: usize, names: &Names, listed: usize) -> Result<(), Fault> {
    let fit = count <= lanes.subj.len() && listed <= names.terms.len();
    must(fit, || "more rows or names than were lent: ".to_string())?;
    let mut next = [5, 16_384, 32_768];
    let mut end = 0;
    for at in 0..listed {
        let (number, begin) = (names.terms[at], end);
        end = usize::from(names.ends[at]);
        let sort = usize::from(number >> 14);
        must(sort < 3 && next[sort] == number, || format!("number {number} at {at}: "))?;
        must(begin < end && end <= names.text.len(), || format!("end {end} at {at}: "))?;
        next[sort] += 1;
    }
    let rows = table::rows(lanes, count);
    let known = |term: u16| term < 5 || names.terms[..listed].contains(&term);
    for (at, ((subj, pred, obj), with)) in rows.iter().enumerate() {
        let named = [*subj, *pred, *obj].iter().all(|term| known(*term));
        must(named && *with == ann, || format!("row {at}: "))?;
        must(at == 0 || rows[at - 1].0 < rows[at].0, || format!("row {at} not above: "))?;
    }
    let mut whole = Lanes::zero(lanes.subj.len());
    table::fill(&mut whole, &rows);
    let mut list = Names::zero(names.terms.len(), names.text.len());
    list.terms[..listed].copy_from_slice(&names.terms[..listed]);
    list.ends[..listed].copy_from_slice(&names.ends[..listed]);
    list.text[..end].copy_from_slice(&names.text[..end]);
    must(whole == *lanes && list == *names, || "something past the last row or name: ".into())
}

/// What was read is written, read into just the room it takes, and written again: the same lines.
fn there_and_back(calls: Calls, writing: &Writing) -> Result<(), Fault> {
    let mut out = writing.out.clone();
    let length = calls.write(writing, &mut out) as usize;
    must(length <= out.len(), || format!("what was read is not written, {length}: "))?;
    must(out[length..] == writing.out[length..], || "changed past the length: ".to_string())?;
    let file = out[..length].to_vec();
    let (count, listed) = (writing.count, writing.listed);
    must(lines(&file).len() == count, || format!("not {count} lines: "))?;
    if length > book::LONGEST {
        return Ok(());
    }
    let bytes = listed.checked_sub(1).map_or(0, |last| usize::from(writing.names.ends[last]));
    let (mut lanes, mut names) = (Lanes::zero(count), Names::zero(listed, bytes));
    let answer = calls.read(1, 1, &file, &mut lanes, &mut names) as usize;
    must(answer == listed << 16 | count, || format!("read again, {answer:X}: "))?;
    let mut again = vec![0; length];
    let writing = Writing { kind: 1, lanes, count, names, listed, out: Vec::new() };
    let answer = calls.write(&writing, &mut again) as usize;
    let same = answer == length && lines(&again) == lines(&file);
    must(same, || format!("written again, {answer:X}: "))
}

/// The different lines of a file, each with its LF.
fn lines(file: &[u8]) -> BTreeSet<&[u8]> {
    file.split_inclusive(|byte| *byte == b'\n').collect()
}

/// Hands an input over to writing and judges what comes back.
pub fn judge_writing(calls: Calls, input: &[u8]) -> Result<(), Fault> {
    let writing = inputs::writing(input);
    let Writing { kind, lanes, count, names, listed, out } = &writing;
    let mut out_now = out.clone();
    let answer = calls.write(&writing, &mut out_now);
    let said = || format!("answer {} * 2^32 + {}", answer >> 32, answer as u32);
    match answer >> 32 {
        0 => {
            let length = answer as usize;
            must(length <= out.len(), || format!("longer than the output: {}", said()))?;
            let past = out_now[length..] == out[length..];
            must(past, || format!("changed past the length: {}", said()))?;
            back_and_there(calls, &out_now[..length], *count).map_err(|fault| fault + &said())?;
        }
        number => {
            must(WRITE_REFUSALS.contains(&number), || format!("no such refusal: {}", said()))?;
            let place = answer as u32 as usize;
            let at_row = [8, 9, 10, 15, 28, 39].contains(&number) && place < *count;
            must(at_row || place == 0, || format!("not at a row: {}", said()))?;
            must(out_now == *out, || format!("refused, and output changed: {}", said()))?;
        }
    }
    let mut model_out = out.clone();
    let model = ntriples::write_triples(*kind, lanes, *count, names, *listed, &mut model_out);
    must(model.packed() == answer, || format!("model {model:?}: {}", said()))?;
    must(model_out == out_now, || format!("the model's output differs: {}", said()))
}

/// What was written is read (27 only where texts lay over each other) and written: the same lines.
fn back_and_there(calls: Calls, file: &[u8], count: usize) -> Result<(), Fault> {
    let ends = file.iter().filter(|byte| **byte == b'\n').count();
    must(ends == count && file.last().map_or(true, |last| *last == b'\n'), || {
        format!("{ends} lines of {count}: ")
    })?;
    if file.len() > book::LONGEST {
        return Ok(());
    }
    let (mut lanes, mut names) = (Lanes::zero(LONGEST), Names::zero(MOST_NAMES, MOST_TEXT));
    let answer = calls.read(4, 1000, file, &mut lanes, &mut names);
    if answer >> 32 == 27 {
        return Ok(());
    }
    must(answer >> 32 == 0, || format!("what was written is not read, {answer:X}: "))?;
    let (count, listed) = (answer as usize & 0xFFFF, answer as usize >> 16);
    let mut again = pattern(file.len());
    let writing = Writing { kind: 4, lanes, count, names, listed, out: Vec::new() };
    let length = calls.write(&writing, &mut again) as usize;
    let same = length <= again.len() && lines(&again[..length]) == lines(file);
    must(same && lines(file).len() == count, || format!("written again, {length:X}: "))
}
