//! The exported calls of the page (`examples/trackvesper.h`), as safe functions over the model's own types.
//!
//! Nothing checks these declarations against the Rattle source: a slice goes over as a pointer
//! and a length, a reference as a pointer.

use crate::records::{record_of, StepRecord};
use crate::running::Running;
use trial::book::{ReadOut, WriteOut};
use trial::closing::CloseOut;
use trial::ntriples::{self, Names};
use trial::question::Compiled;
use trial::steps::Ran;
use trial::table::{Added, Lanes, Row, Verdict};

/// Declares exports that take the four lanes: `const` or `mut`, between the semicolons, stands for
/// a pointer and a length of each.
macro_rules! exports_over_lanes {
    ($(fn $name:ident($($front:ident: $first:ty),*; $lent:tt; $($back:ident: $last:ty),*) -> $out:ty;)*) => {
        extern "C" {
            $(fn $name(
                $($front: $first,)*
                subj: *$lent u16,
                subj_len: usize,
                pred: *$lent u16,
                pred_len: usize,
                obj: *$lent u16,
                obj_len: usize,
                ann: *$lent u64,
                ann_len: usize,
                $($back: $last,)*
            ) -> $out;)*
        }
    };
}

/// Calls such an export: the lanes, and how their pointers are had, stand between the semicolons.
macro_rules! over_lanes {
    ($name:ident($($front:expr),*; $lanes:ident $pointer:ident; $($back:expr),*)) => {
        $name(
            $($front,)*
            $lanes.subj.$pointer(),
            $lanes.subj.len(),
            $lanes.pred.$pointer(),
            $lanes.pred.len(),
            $lanes.obj.$pointer(),
            $lanes.obj.len(),
            $lanes.ann.$pointer(),
            $lanes.ann.len(),
            $($back,)*
        )
    };
}

exports_over_lanes! {
    fn trackvesper_check(kind: u8; const; count: usize, place: *mut usize) -> u8;
    fn trackvesper_add(
        kind: u8; mut; count: *mut usize, s: u16, p: u16, o: u16, a: u64, place: *mut usize
    ) -> u8;
    fn trackvesper_read(
        book: *const u8, book_len: usize; mut;
        place: *mut usize, kind: *mut u8, base: *mut u16, rules: *mut u8, count: *mut usize
    ) -> u8;
    fn trackvesper_write(
        kind: u8, base: u16, rules: u8; const;
        count: usize, out: *mut u8, out_len: usize, place: *mut usize, length: *mut usize
    ) -> u8;
    fn trackvesper_close(kind: u8, rules: u8; mut; count: *mut usize, place: *mut usize) -> u8;
    fn trackvesper_read_triples(
        kind: u8, a: u64, file: *const u8, file_len: usize; mut;
        terms: *mut u16, terms_len: usize, ends: *mut u16, ends_len: usize,
        text: *mut u8, text_len: usize
    ) -> u64;
    fn trackvesper_write_triples(
        kind: u8; const;
        count: usize, terms: *const u16, terms_len: usize, ends: *const u16, ends_len: usize,
        text: *const u8, text_len: usize, names: usize, out: *mut u8, out_len: usize
    ) -> u64;
    fn trackvesper_run(
        kind: u8; const;
        count: usize, records: *const StepRecord, records_len: usize, steps: usize, allowed: u32,
        terms: *mut u16, terms_len: usize, anns: *mut u64, anns_len: usize
    ) -> RunDone;
}

extern "C" {
    fn trackvesper_close_book(
        book: *const u8,
        book_len: usize,
        out: *mut u8,
        out_len: usize,
    ) -> u64;

    fn trackvesper_compile(
        kind: u8,
        bytes: *const u8,
        bytes_len: usize,
        records: *mut StepRecord,
        records_len: usize,
    ) -> Filled;
}

#[repr(C)]
struct Filled {
    number: u8,
    place: usize,
    count: usize,
}

#[repr(C)]
struct RunDone {
    number: u8,
    place: usize,
    answers: usize,
    looks: u32,
}

pub fn check(kind: u8, lanes: &Lanes, count: usize) -> Verdict {
    let mut place = usize::MAX;
    // SAFETY: the slices are live for the call, which only reads them.
    let number = unsafe { over_lanes!(trackvesper_check(kind; lanes as_ptr; count, &mut place)) };
    Verdict::new(u32::from(number), place)
}

pub fn add(kind: u8, lanes: &mut Lanes, mut count: usize, row: Row) -> Added {
    let mut place = usize::MAX;
    let ((s, p, o), a) = row;
    // SAFETY: the slices are live for the call, borrowed for it alone, and do not overlap.
    let number = unsafe {
        over_lanes!(trackvesper_add(kind; lanes as_mut_ptr; &mut count, s, p, o, a, &mut place))
    };
    Added { number: u32::from(number), place: place as u64, count }
}

pub fn read(book: &[u8], lanes: &mut Lanes) -> ReadOut {
    let mut out = ReadOut { number: 0, place: 0, kind: 255, base: 255, rules: 255, count: 255 };
    let mut place = usize::MAX;
    let (kind, base) = (&mut out.kind, &mut out.base);
    let (rules, count) = (&mut out.rules, &mut out.count);
    // SAFETY: the slices are live for the call, the lanes borrowed for it alone, and none overlap.
    let number = unsafe {
        let (bytes, len) = (book.as_ptr(), book.len());
        over_lanes!(trackvesper_read(
            bytes, len; lanes as_mut_ptr; &mut place, kind, base, rules, count))
    };
    ReadOut { number: u32::from(number), place: place as u64, ..out }
}

pub fn write(
    kind: u8,
    base: u16,
    rules: u8,
    lanes: &Lanes,
    count: usize,
    out: &mut [u8],
) -> WriteOut {
    let (mut place, mut length) = (usize::MAX, usize::MAX);
    // SAFETY: the slices are live for the call, the output borrowed for it alone, and none overlap.
    let number = unsafe {
        let (bytes, len) = (out.as_mut_ptr(), out.len());
        let (place, length) = (&mut place, &mut length);
        over_lanes!(trackvesper_write(
            kind, base, rules; lanes as_ptr; count, bytes, len, place, length))
    };
    WriteOut { number: u32::from(number), place: place as u64, length }
}

pub fn close(kind: u8, rules: u8, lanes: &mut Lanes, mut count: usize) -> CloseOut {
    let mut place = usize::MAX;
    // SAFETY: the lanes are live for the call, borrowed for it alone, and do not overlap.
    let number = unsafe {
        over_lanes!(trackvesper_close(kind, rules; lanes as_mut_ptr; &mut count, &mut place))
    };
    CloseOut { number: u32::from(number), place: place as u64, count }
}

/// Reads a makers' list into a table and a names list.
pub fn read_triples(
    kind: u8,
    ann: u64,
    file: &[u8],
    lanes: &mut Lanes,
    names: &mut Names,
) -> ntriples::ReadOut {
    let Names { terms, ends, text } = names;
    // SAFETY: the slices are live for the call, the lanes borrowed for it alone, and none overlap.
    let word = unsafe {
        over_lanes!(trackvesper_read_triples(kind, ann, file.as_ptr(), file.len(); lanes as_mut_ptr;
            terms.as_mut_ptr(), terms.len(), ends.as_mut_ptr(), ends.len(),
            text.as_mut_ptr(), text.len()))
    };
    let (number, place) = refused(word);
    let (count, names) = if number == 0 { (word & 0xFFFF, word >> 16) } else { (0, 0) };
    ntriples::ReadOut { number, place, count: count as usize, names: names as usize }
}

/// Writes a table by the first `listed` entries of a names list.
pub fn write_triples(
    kind: u8,
    lanes: &Lanes,
    count: usize,
    names: &Names,
    listed: usize,
    out: &mut [u8],
) -> ntriples::WriteOut {
    let Names { terms, ends, text } = names;
    // SAFETY: the slices are live for the call, the output borrowed for it alone, and none overlap.
    let word = unsafe {
        over_lanes!(trackvesper_write_triples(kind; lanes as_ptr;
            count, terms.as_ptr(), terms.len(), ends.as_ptr(), ends.len(),
            text.as_ptr(), text.len(), listed, out.as_mut_ptr(), out.len()))
    };
    let (number, place) = refused(word);
    let length = if number == 0 { word as usize } else { 0 };
    ntriples::WriteOut { number, place, length }
}

/// The number and the place in a word that a call answered; 0 and 0 where it was done.
fn refused(word: u64) -> (u32, u64) {
    let number = (word >> 32) as u32;
    (number, if number == 0 { 0 } else { word & 0xFFFF_FFFF })
}

pub fn close_book(book: &[u8], out: &mut [u8]) -> u64 {
    // SAFETY: both slices are live for the call and do not overlap.
    unsafe { trackvesper_close_book(book.as_ptr(), book.len(), out.as_mut_ptr(), out.len()) }
}

/// Compiles into records that are lent.
pub fn compile(kind: u8, question: &[u8], records: &mut [StepRecord]) -> Compiled {
    // SAFETY: both slices are live for the call and do not overlap; the record has C's layout on both sides.
    let filled = unsafe {
        let (lent, room) = (records.as_mut_ptr(), records.len());
        trackvesper_compile(kind, question.as_ptr(), question.len(), lent, room)
    };
    Compiled { number: u32::from(filled.number), place: filled.place as u64, steps: filled.count }
}

/// Runs over records that are lent, made of the running's steps.
pub fn run(running: &Running, terms: &mut [u16], anns: &mut [u64]) -> Ran {
    let Running { kind, lanes, count, steps, step_count, allowed, .. } = running;
    let records: Vec<StepRecord> = steps.iter().map(record_of).collect();
    // SAFETY: the slices are live for the call, the answer lanes borrowed for it alone, and none overlap.
    let done = unsafe {
        over_lanes!(trackvesper_run(*kind; lanes as_ptr;
            *count, records.as_ptr(), records.len(), *step_count, *allowed,
            terms.as_mut_ptr(), terms.len(), anns.as_mut_ptr(), anns.len()))
    };
    let (number, place) = (u32::from(done.number), done.place as u64);
    Ran { number, place, answers: done.answers, looks: done.looks }
}
