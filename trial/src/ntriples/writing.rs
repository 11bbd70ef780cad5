//! Writing a table in N-Triples' canonical form, its terms' texts from a names list (W1 to W7).

use super::names::Names;
use super::text::{Sort, Text};
use crate::table::{self, Lanes, Row, Verdict};

#[derive(Clone, Copy, Debug, PartialEq, Eq)]
pub struct WriteOut {
    pub number: u32,
    pub place: u64,
    /// Bytes written; 0 in a refusal, which changes nothing.
    pub length: usize,
}

impl WriteOut {
    /// The one number that the C host is given.
    pub fn packed(self) -> u64 {
        match self.number {
            0 => self.length as u64,
            number => (u64::from(number) << 32) | (self.place & 0xFFFF_FFFF),
        }
    }
}

/// Writes a table: 4, the table's refusals, the list's 11 and 14, 39, 12.
pub fn write_triples(
    kind: u8,
    lanes: &Lanes,
    count: usize,
    names: &Names,
    listed: usize,
    out: &mut [u8],
) -> WriteOut {
    let bytes = match judge(kind, lanes, count, names, listed) {
        Ok(bytes) if bytes.len() > out.len() => Err(Verdict::new(12, 0)),
        judged => judged,
    };
    match bytes {
        Err(verdict) => WriteOut { number: verdict.number, place: verdict.place, length: 0 },
        Ok(bytes) => {
            for (entry, byte) in out.iter_mut().zip(&bytes) {
                *entry = *byte;
            }
            WriteOut { number: 0, place: 0, length: bytes.len() }
        }
    }
}

/// All that is to be written, or the refusal that comes before 12.
pub fn judge(
    kind: u8,
    lanes: &Lanes,
    count: usize,
    names: &Names,
    listed: usize,
) -> Result<Vec<u8>, Verdict> {
    let verdict = table::check(kind, lanes, count).or_else(|| judge_list(names, listed));
    if !verdict.done() {
        return Err(verdict);
    }
    let mut bytes = Vec::new();
    for (at, row) in table::rows(lanes, count).iter().enumerate() {
        let texts = texts_of(names, listed, *row).ok_or(Verdict::new(39, at))?;
        bytes.extend(line_of(&texts));
    }
    Ok(bytes)
}

fn judge_list(names: &Names, listed: usize) -> Verdict {
    if !names.fit() {
        Verdict::new(11, 0)
    } else if listed > names.room() {
        Verdict::new(14, 0)
    } else {
        Verdict::DONE
    }
}

/// The three texts of a row; none, so 39, for a literal subject or a term without a text.
pub fn texts_of(names: &Names, listed: usize, row: Row) -> Option<[Text; 3]> {
    let ((subj, pred, obj), _) = row;
    if Sort::of(subj) == Some(Sort::Literal) {
        return None;
    }
    let text = |number| names.text_of(listed, number);
    Some([text(subj)?, text(pred)?, text(obj)?])
}

/// The canonical line: a blank behind each term, the dot, LF.
pub fn line_of(texts: &[Text; 3]) -> Vec<u8> {
    let mut bytes = Vec::new();
    for text in texts {
        bytes.extend(text.written());
        bytes.push(b' ');
    }
    bytes.extend(b".\n");
    bytes
}
