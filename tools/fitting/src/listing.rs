//! What follows from a book, itself a text that can be read again.

use crate::calls::Row;
use crate::columns::Columns;
use crate::head::Head;
use crate::names::Names;
use std::collections::HashMap;

/// Whether a book's own lines say a row, and for how much of it.
#[derive(Clone, Copy, Debug, PartialEq, Eq)]
pub enum Source {
    Stated,
    Follows,
    InTheBookForLess,
}

impl Source {
    pub fn of(row: &Row, stated: &HashMap<[u16; 3], u64>) -> Source {
        match stated.get(&row.triple) {
            None => Source::Follows,
            Some(value) if *value == row.value => Source::Stated,
            Some(_) => Source::InTheBookForLess,
        }
    }

    /// The mark of a listing.
    pub fn words(self) -> &'static str {
        match self {
            Source::Stated => "",
            Source::Follows => "follows",
            Source::InTheBookForLess => "in the book for less",
        }
    }
}

/// The numbers of `implies` and `within`.
const IMPLIES: u16 = 0;
const WITHIN: u16 = 1;

/// Whether a row says of something that it implies itself or lies within itself, and no line of the
/// book says so.
pub fn is_bare_reflexive(row: &Row, stated: &HashMap<[u16; 3], u64>) -> bool {
    let [subj, pred, obj] = row.triple;
    subj == obj && [IMPLIES, WITHIN].contains(&pred) && !stated.contains_key(&row.triple)
}

/// The rows as lines of a text; what the book's own lines do not say is marked in comments. Nothing
/// if a term has no name.
pub fn listing(
    head: Head,
    names: &Names,
    rows: &[Row],
    stated: Option<&HashMap<[u16; 3], u64>>,
) -> Option<String> {
    let mut lines = Vec::new();
    for row in rows {
        let mut line = terms(names, row)?.to_vec();
        line.push(head.kind.written(row.value));
        match stated.map(|stated| Source::of(row, stated)) {
            None | Some(Source::Stated) => {}
            Some(source) => line.push(format!("# {}", source.words())),
        }
        lines.push(line);
    }
    let mut shown = format!("{}\n", head.line());
    for line in Columns::default().lines(&lines) {
        shown += &format!("{line}\n");
    }
    Some(shown)
}

/// A row's terms as a text writes them.
pub fn terms(names: &Names, row: &Row) -> Option<[String; 3]> {
    let [subj, pred, obj] = row.triple.map(|term| names.text(term));
    Some([subj?, pred?, obj?])
}
