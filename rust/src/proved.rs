//! The proved library's exported calls (`examples/trackvesper.h`), as safe functions.
//!
//! Nothing checks these declarations against the library: a slice goes over as a pointer and a
//! length, a place for an answer as a pointer.

use crate::calls::{
    answers, Asked, Book, Calls, Lanes, NameLanes, NameList, Refusal, Row, RuleSet, Table, ANNS,
    MOST_ANSWERS, ROOM, TERMS,
};

// A lane and its length side by side.
#[rustfmt::skip]
extern "C" {
    fn trackvesper_read(
        book: *const u8, book_length: usize,
        subj: *mut u16, subj_length: usize, pred: *mut u16, pred_length: usize,
        obj: *mut u16, obj_length: usize, ann: *mut u64, ann_length: usize,
        place: *mut usize, kind: *mut u8, base: *mut u16, rules: *mut u8, count: *mut usize,
    ) -> u8;

    fn trackvesper_check(
        kind: u8,
        subj: *const u16, subj_length: usize, pred: *const u16, pred_length: usize,
        obj: *const u16, obj_length: usize, ann: *const u64, ann_length: usize,
        count: usize, place: *mut usize,
    ) -> u8;

    fn trackvesper_add(
        kind: u8,
        subj: *mut u16, subj_length: usize, pred: *mut u16, pred_length: usize,
        obj: *mut u16, obj_length: usize, ann: *mut u64, ann_length: usize,
        count: *mut usize, s: u16, p: u16, o: u16, a: u64, place: *mut usize,
    ) -> u8;

    fn trackvesper_write(
        kind: u8, base: u16, rules: u8,
        subj: *const u16, subj_length: usize, pred: *const u16, pred_length: usize,
        obj: *const u16, obj_length: usize, ann: *const u64, ann_length: usize,
        count: usize, out: *mut u8, out_length: usize,
        place: *mut usize, length: *mut usize,
    ) -> u8;

    fn trackvesper_close_book(
        book: *const u8, book_length: usize, out: *mut u8, out_length: usize,
    ) -> u64;

    fn trackvesper_close(
        kind: u8, rules: u8,
        subj: *mut u16, subj_length: usize, pred: *mut u16, pred_length: usize,
        obj: *mut u16, obj_length: usize, ann: *mut u64, ann_length: usize,
        count: *mut usize, place: *mut usize,
    ) -> u8;

    fn trackvesper_ask(
        kind: u8,
        subj: *const u16, subj_length: usize, pred: *const u16, pred_length: usize,
        obj: *const u16, obj_length: usize, ann: *const u64, ann_length: usize,
        count: usize, question: *const u8, question_length: usize, allowed: u32,
        terms: *mut u16, terms_length: usize, anns: *mut u64, anns_length: usize,
        place: *mut usize, answers: *mut usize, looks: *mut u32,
    ) -> u8;

    fn trackvesper_read_triples(
        kind: u8, annotation: u64, file: *const u8, file_length: usize,
        subj: *mut u16, subj_length: usize, pred: *mut u16, pred_length: usize,
        obj: *mut u16, obj_length: usize, ann: *mut u64, ann_length: usize,
        terms: *mut u16, terms_length: usize, ends: *mut u16, ends_length: usize,
        text: *mut u8, text_length: usize,
    ) -> u64;

    fn trackvesper_write_triples(
        kind: u8,
        subj: *const u16, subj_length: usize, pred: *const u16, pred_length: usize,
        obj: *const u16, obj_length: usize, ann: *const u64, ann_length: usize,
        count: usize,
        terms: *const u16, terms_length: usize, ends: *const u16, ends_length: usize,
        text: *const u8, text_length: usize, names: usize,
        out: *mut u8, out_length: usize,
    ) -> u64;
}

/// The library that is linked.
pub struct Proved;

/// Room for what is written at once: whoever hands over rows hands over as many as this holds.
const LONGEST_OUT: usize = 1 << 18;

fn refusal(number: u8, place: usize) -> Result<(), Refusal> {
    match number {
        0 => Ok(()),
        _ => Err(Refusal { number: u32::from(number), place }),
    }
}

/// A word that has a number in its upper half.
fn unpacked(word: u64) -> Result<usize, Refusal> {
    match (word >> 32) as u32 {
        0 => Ok(word as usize),
        number => Err(Refusal { number, place: word as u32 as usize }),
    }
}

/// What a book of so many rows takes at most: a head of 7 bytes, or 8 in rule set 2, and 17 for each row.
const fn book_size(rows: usize) -> usize {
    8 + 17 * rows
}

/// Calls beside those that a text form needs.
#[rustfmt::skip]
impl Proved {
    /// Checks a table: whether its kind is one, and its rows are legal and ascend.
    pub fn check(&self, table: &Table) -> Result<(), Refusal> {
        let lanes = Lanes::of(&table.rows);
        let mut place = 0;
        // SAFETY: the slices are live for the call, which only reads them.
        let number = unsafe {
            trackvesper_check(
                table.kind,
                lanes.subj.as_ptr(), lanes.subj.len(), lanes.pred.as_ptr(), lanes.pred.len(),
                lanes.obj.as_ptr(), lanes.obj.len(), lanes.ann.as_ptr(), lanes.ann.len(),
                table.rows.len(), &mut place,
            )
        };
        refusal(number, place)
    }

    /// The table with a row added: joined where its triple is there, else put in.
    pub fn add(&self, table: &Table, row: Row) -> Result<Table, Refusal> {
        let mut lanes = Lanes::of(&table.rows);
        let ([s, p, o], a) = (row.triple, row.value);
        let (mut count, mut place) = (table.rows.len(), 0);
        // SAFETY: the slices are live for the call, borrowed for it alone, and none overlap.
        let number = unsafe {
            trackvesper_add(
                table.kind,
                lanes.subj.as_mut_ptr(), lanes.subj.len(), lanes.pred.as_mut_ptr(), lanes.pred.len(),
                lanes.obj.as_mut_ptr(), lanes.obj.len(), lanes.ann.as_mut_ptr(), lanes.ann.len(),
                &mut count, s, p, o, a, &mut place,
            )
        };
        refusal(number, place)?;
        Ok(Table { kind: table.kind, rows: lanes.rows(count) })
    }

    /// The bytes of a book.
    pub fn write(&self, book: &Book) -> Result<Vec<u8>, Refusal> {
        let lanes = Lanes::of(&book.table.rows);
        let mut out = vec![0; book_size(ROOM)];
        let (mut place, mut length) = (0, 0);
        // SAFETY: the slices are live for the call, the output borrowed for it alone, and none overlap.
        let number = unsafe {
            trackvesper_write(
                book.table.kind, book.base, book.rules.number(),
                lanes.subj.as_ptr(), lanes.subj.len(), lanes.pred.as_ptr(), lanes.pred.len(),
                lanes.obj.as_ptr(), lanes.obj.len(), lanes.ann.as_ptr(), lanes.ann.len(),
                book.table.rows.len(), out.as_mut_ptr(), out.len(), &mut place, &mut length,
            )
        };
        refusal(number, place)?;
        out.truncate(length);
        Ok(out)
    }

    /// The bytes of a book with what follows from it by its rule set.
    pub fn close_book(&self, book: &[u8]) -> Result<Vec<u8>, Refusal> {
        let mut out = vec![0; book_size(ROOM)];
        // SAFETY: as above.
        let word = unsafe {
            trackvesper_close_book(book.as_ptr(), book.len(), out.as_mut_ptr(), out.len())
        };
        out.truncate(unpacked(word)?);
        Ok(out)
    }
}

#[rustfmt::skip]
impl Calls for Proved {
    fn read(&self, book: &[u8]) -> Result<Book, Refusal> {
        let mut lanes = Lanes::zero();
        let (mut place, mut kind, mut base, mut rules, mut count) = (0, 0, 0, 0, 0);
        // SAFETY: the slices are live for the call, the lanes borrowed for it alone, and none
        // overlap.
        let number = unsafe {
            trackvesper_read(
                book.as_ptr(), book.len(),
                lanes.subj.as_mut_ptr(), lanes.subj.len(), lanes.pred.as_mut_ptr(), lanes.pred.len(),
                lanes.obj.as_mut_ptr(), lanes.obj.len(), lanes.ann.as_mut_ptr(), lanes.ann.len(),
                &mut place, &mut kind, &mut base, &mut rules, &mut count,
            )
        };
        refusal(number, place)?;
        let rules = RuleSet::try_from(rules)?;
        Ok(Book { base, rules, table: Table { kind, rows: lanes.rows(count) } })
    }

    fn close(&self, rules: RuleSet, table: &Table) -> Result<Table, Refusal> {
        let mut lanes = Lanes::of(&table.rows);
        let (mut count, mut place) = (table.rows.len(), 0);
        // SAFETY: as above.
        let number = unsafe {
            trackvesper_close(
                table.kind, rules.number(),
                lanes.subj.as_mut_ptr(), lanes.subj.len(), lanes.pred.as_mut_ptr(), lanes.pred.len(),
                lanes.obj.as_mut_ptr(), lanes.obj.len(), lanes.ann.as_mut_ptr(), lanes.ann.len(),
                &mut count, &mut place,
            )
        };
        refusal(number, place)?;
        Ok(Table { kind: table.kind, rows: lanes.rows(count) })
    }

    fn ask(&self, table: &Table, question: &[u8], looks: u32) -> Asked {
        let lanes = Lanes::of(&table.rows);
        let (mut terms, mut anns) = (vec![0; TERMS * MOST_ANSWERS], vec![0; ANNS * MOST_ANSWERS]);
        let (mut place, mut count, mut made) = (0, 0, 0);
        // SAFETY: as above; the table's lanes and the question are only read.
        let number = unsafe {
            trackvesper_ask(
                table.kind,
                lanes.subj.as_ptr(), lanes.subj.len(), lanes.pred.as_ptr(), lanes.pred.len(),
                lanes.obj.as_ptr(), lanes.obj.len(), lanes.ann.as_ptr(), lanes.ann.len(),
                table.rows.len(), question.as_ptr(), question.len(), looks,
                terms.as_mut_ptr(), terms.len(), anns.as_mut_ptr(), anns.len(),
                &mut place, &mut count, &mut made,
            )
        };
        let refusal = Refusal { number: u32::from(number), place };
        Asked { refusal, looks: made, answers: answers(&terms, &anns, count) }
    }

    fn read_triples(&self, kind: u8, value: u64, file: &[u8]) -> Result<(Table, NameList), Refusal> {
        let (mut lanes, mut names) = (Lanes::zero(), NameLanes::zero());
        // SAFETY: as above.
        let word = unsafe {
            trackvesper_read_triples(
                kind, value, file.as_ptr(), file.len(),
                lanes.subj.as_mut_ptr(), lanes.subj.len(), lanes.pred.as_mut_ptr(), lanes.pred.len(),
                lanes.obj.as_mut_ptr(), lanes.obj.len(), lanes.ann.as_mut_ptr(), lanes.ann.len(),
                names.terms.as_mut_ptr(), names.terms.len(), names.ends.as_mut_ptr(), names.ends.len(),
                names.text.as_mut_ptr(), names.text.len(),
            )
        };
        let counts = unpacked(word)?;
        let list = names.names(counts >> 16).unwrap_or_default();
        Ok((Table { kind, rows: lanes.rows(counts & 0xFFFF) }, list))
    }

    fn write_triples(&self, table: &Table, names: &NameList) -> Result<Vec<u8>, Refusal> {
        let lanes = Lanes::of(&table.rows);
        let list = NameLanes::of(names).ok_or(Refusal { number: 27, place: 0 })?;
        let mut out = vec![0; LONGEST_OUT];
        // SAFETY: as above; only the output is written to.
        let word = unsafe {
            trackvesper_write_triples(
                table.kind,
                lanes.subj.as_ptr(), lanes.subj.len(), lanes.pred.as_ptr(), lanes.pred.len(),
                lanes.obj.as_ptr(), lanes.obj.len(), lanes.ann.as_ptr(), lanes.ann.len(),
                table.rows.len(),
                list.terms.as_ptr(), list.terms.len(), list.ends.as_ptr(), list.ends.len(),
                list.text.as_ptr(), list.text.len(), names.len(),
                out.as_mut_ptr(), out.len(),
            )
        };
        out.truncate(unpacked(word)?);
        Ok(out)
    }
}
