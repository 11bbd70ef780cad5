//! Books: a head field, then triple fields; reading into lanes and writing from them.

use crate::table::{self, Lanes, Row, Triple, Verdict};
use crate::{annotation, rules, term};
use std::collections::BTreeMap;

/// A longer book is 13.
pub const LONGEST: usize = 65_535;

#[derive(Clone, Copy, Debug, PartialEq, Eq)]
pub struct ReadOut {
    pub number: u32,
    pub place: u64,
    /// Kind, base year, rule set and count are all 0 in a refusal.
    pub kind: u8,
    pub base: u16,
    pub rules: u8,
    pub count: usize,
}

/// What a head says when it is not refused.
struct Head {
    kind: u8,
    base: u16,
    rules: u8,
}

/// What the fields of a book say when none is refused.
struct Contents {
    head: Head,
    map: BTreeMap<Triple, u64>,
}

/// Reads a book: 11, 13, then field by field. 11 and 13 change nothing; any other refusal
/// leaves all rows zero.
pub fn read(book: &[u8], lanes: &mut Lanes) -> ReadOut {
    if !lanes.fit() {
        return refused(Verdict::new(11, 0));
    }
    if book.len() > LONGEST {
        return refused(Verdict::new(13, 0));
    }
    match read_fields(book, lanes.room()) {
        Err(verdict) => {
            table::fill(lanes, &[]);
            refused(verdict)
        }
        Ok(Contents { head: Head { kind, base, rules }, map }) => {
            let rows: Vec<Row> = map.into_iter().collect();
            table::fill(lanes, &rows);
            ReadOut { number: 0, place: 0, kind, base, rules, count: rows.len() }
        }
    }
}

fn refused(verdict: Verdict) -> ReadOut {
    let Verdict { number, place } = verdict;
    ReadOut { number, place, kind: 0, base: 0, rules: 0, count: 0 }
}

fn read_fields(book: &[u8], room: usize) -> Result<Contents, Verdict> {
    if book.is_empty() {
        return Err(Verdict::new(2, 0));
    }
    let (tag, value) = field(book, 0)?;
    let head = read_head(tag, value)?;
    let kind = head.kind;
    let mut map = BTreeMap::new();
    let mut at = 3 + value.len();
    while at < book.len() {
        let (tag, value) = field(book, at)?;
        let row = read_triple(kind, tag, value).map_err(|number| Verdict::new(number, at))?;
        table::join_in(kind, &mut map, row);
        // 12 comes last within its field: later fields are then not seen.
        if map.len() > room {
            return Err(Verdict::new(12, at));
        }
        at += 3 + value.len();
    }
    Ok(Contents { head, map })
}

/// Tag and value of the field at a byte; 1 where the book ends inside it, whatever the tag.
fn field(book: &[u8], at: usize) -> Result<(u8, &[u8]), Verdict> {
    let cut = Verdict::new(1, at);
    match book.get(at..) {
        Some([tag, high, low, rest @ ..]) => {
            let length = usize::from(*high) * 256 + usize::from(*low);
            rest.get(..length).map(|value| (*tag, value)).ok_or(cut)
        }
        _ => Err(cut),
    }
}

/// The head stands at byte 0, so every place is 0. Its tag and its length are judged first (2), then
/// the edition (3), then whether that length is the edition's own (2 again), then its content.
fn read_head(tag: u8, value: &[u8]) -> Result<Head, Verdict> {
    let number = match (tag, value) {
        (1, [edition, kind, high, low, last @ ..]) if last.len() <= 1 => {
            let base = u16::from_be_bytes([*high, *low]);
            let suits = last.len() == usize::from(edition.saturating_sub(1));
            // Edition 1 says nothing of rules and means rule set 1.
            let rules = last.first().copied().unwrap_or(1);
            match judge_head(*edition, suits, *kind, base, rules) {
                0 => return Ok(Head { kind: *kind, base, rules }),
                number => number,
            }
        }
        _ => 2,
    };
    Err(Verdict::new(number, 0))
}

fn judge_head(edition: u8, suits: bool, kind: u8, base: u16, rules: u8) -> u32 {
    if !matches!(edition, 1 | 2) {
        3
    } else if !suits {
        2
    } else {
        judge_saying(kind, base, rules)
    }
}

/// What a head says, as reading and writing judge it: 4, 5, 36; 0 if legal.
fn judge_saying(kind: u8, base: u16, rules: u8) -> u32 {
    if !annotation::kind_legal(kind) {
        4
    } else if !base_legal(kind, base) {
        5
    } else if !rules::legal(rules) {
        36
    } else {
        0
    }
}

/// 1900 to 2100 in kind 1, else 0.
pub fn base_legal(kind: u8, base: u16) -> bool {
    match kind {
        1 => (1900..=2100).contains(&base),
        _ => base == 0,
    }
}

/// A field after the head: tag (2 for a second head, 6), length 7, then content in byte order.
fn read_triple(kind: u8, tag: u8, value: &[u8]) -> Result<Row, u32> {
    if tag == 1 {
        return Err(2);
    }
    if tag != 3 {
        return Err(6);
    }
    let Ok(bytes) = <[u8; 14]>::try_from(value) else {
        return Err(7);
    };
    let term_at = |at: usize| u16::from_be_bytes([bytes[at], bytes[at + 1]]);
    let (subj, pred, obj) = (term_at(0), term_at(2), term_at(4));
    let ann = bytes[6..].iter().fold(0, |sum, byte| sum * 256 + u64::from(*byte));
    // In byte order, unlike a table's row: a blank predicate is seen before the object.
    if !term::legal(subj) || !term::legal(pred) {
        Err(8)
    } else if !term::name(pred) {
        Err(9)
    } else if !term::legal(obj) {
        Err(8)
    } else {
        match annotation::judge(kind, ann) {
            0 => Ok(((subj, pred, obj), ann)),
            number => Err(number),
        }
    }
}

#[derive(Clone, Copy, Debug, PartialEq, Eq)]
pub struct WriteOut {
    pub number: u32,
    pub place: u64,
    /// Bytes written; 0 in a refusal, which changes nothing.
    pub length: usize,
}

/// Writes a table as a book: 4, 5, 36, the table's refusals, 12.
pub fn write(
    kind: u8,
    base: u16,
    rules: u8,
    lanes: &Lanes,
    count: usize,
    out: &mut [u8],
) -> WriteOut {
    let verdict = Verdict::new(judge_saying(kind, base, rules), 0)
        .or_else(|| table::check(kind, lanes, count))
        .or_else(|| judge_room(rules, count, out.len()));
    if !verdict.done() {
        return WriteOut { number: verdict.number, place: verdict.place, length: 0 };
    }
    let bytes = bytes_of(kind, base, rules, &table::rows(lanes, count));
    for (entry, byte) in out.iter_mut().zip(&bytes) {
        *entry = *byte;
    }
    WriteOut { number: 0, place: 0, length: bytes.len() }
}

/// 12 where the head and the rows do not fit.
fn judge_room(rules: u8, count: usize, room: usize) -> Verdict {
    let head = if rules == 2 { 8 } else { 7 };
    Verdict::new(if room < head + 17 * count { 12 } else { 0 }, 0)
}

/// The book of these rows in their order, judging nothing.
pub fn bytes_of(kind: u8, base: u16, rules: u8, rows: &[Row]) -> Vec<u8> {
    let mut bytes = written_head(kind, base, rules);
    for row in rows {
        bytes.extend(triple_field(*row));
    }
    bytes
}

/// The head that the writer uses: edition 2 only for rule set 2.
pub fn written_head(kind: u8, base: u16, rules: u8) -> Vec<u8> {
    if rules == 2 {
        long_head(2, kind, base, rules)
    } else {
        head(1, kind, base)
    }
}

/// A head field of length 4, edition 1's, judging nothing.
pub fn head(edition: u8, kind: u8, base: u16) -> Vec<u8> {
    let [high, low] = base.to_be_bytes();
    vec![1, 0, 4, edition, kind, high, low]
}

/// A head field of length 5, edition 2's, judging nothing.
pub fn long_head(edition: u8, kind: u8, base: u16, rules: u8) -> Vec<u8> {
    let [high, low] = base.to_be_bytes();
    vec![1, 0, 5, edition, kind, high, low, rules]
}

/// A triple field, judging nothing.
pub fn triple_field(row: Row) -> Vec<u8> {
    let ((subj, pred, obj), ann) = row;
    let mut bytes = vec![3, 0, 14];
    for one in [subj, pred, obj] {
        bytes.extend(one.to_be_bytes());
    }
    bytes.extend(ann.to_be_bytes());
    bytes
}
