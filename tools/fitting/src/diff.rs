//! What holds by one book and not by another, by years.

use crate::annotation::Kind;
use crate::columns::Columns;
use crate::head::Head;
use crate::order;
use std::cmp::Ordering;
use std::collections::BTreeMap;

/// A closed book, its terms as a text writes them.
pub struct Holding {
    pub file: String,
    pub head: Head,
    pub rows: Vec<Held>,
}

/// A row of it.
pub struct Held {
    pub triple: [String; 3],
    pub value: u64,
    /// Reflexive, and no line of the book's own.
    pub is_bare: bool,
}

/// A triple in the order of the names.
#[derive(PartialEq, Eq)]
struct Key([String; 3]);

impl Ord for Key {
    fn cmp(&self, other: &Key) -> Ordering {
        let pairs = self.0.iter().zip(&other.0);
        pairs
            .map(|(mine, yours)| order::compare_terms(mine, yours))
            .find(|one| one.is_ne())
            .unwrap_or(Ordering::Equal)
    }
}

impl PartialOrd for Key {
    fn partial_cmp(&self, other: &Key) -> Option<Ordering> {
        Some(self.cmp(other))
    }
}

/// The lines in which two books differ: `-` holds by the first alone, `+` by the second alone; without
/// reflexive lines that neither says itself, if these are left out. An error says why they cannot be
/// compared.
pub fn differences(
    left: &Holding,
    right: &Holding,
    without_reflexive: bool,
) -> Result<String, String> {
    let (left_kind, right_kind) = (left.head.kind, right.head.kind);
    let is_same = match left_kind {
        Kind::Sheets(_) => left_kind == right_kind,
        _ => left_kind.number() == right_kind.number(),
    };
    if !is_same {
        let (one, other) = (left.head.line(), right.head.line());
        let kinds = format!("{} says `{one}`, {} says `{other}`", left.file, right.file);
        return Err(format!("{kinds}: books of two kinds cannot be compared\n"));
    }
    // `always` is told by its years where the two books have not the same.
    let same_years = left_kind == right_kind;
    let shown = |kind: Kind, value: u64| {
        if same_years {
            kind.written(value)
        } else {
            kind.written_span(value)
        }
    };
    let mut lines = Vec::new();
    for (Key(triple), [mine, yours]) in &by_both(left, right, without_reflexive) {
        let only_left = left_kind.only(*mine, right_kind, *yours);
        let only_right = right_kind.only(*yours, left_kind, *mine);
        for (mark, kind, only) in [("-", left_kind, only_left), ("+", right_kind, only_right)] {
            if let Some(value) = only {
                lines.push([&[mark.to_string()], &triple[..], &[shown(kind, value)]].concat());
            }
        }
    }
    Ok(written(left, right, &lines))
}

/// What each of the two books has of every triple; 0 is nothing.
fn by_both(left: &Holding, right: &Holding, without_reflexive: bool) -> BTreeMap<Key, [u64; 2]> {
    let mut both: BTreeMap<Key, ([u64; 2], bool)> = BTreeMap::new();
    for (at, book) in [left, right].into_iter().enumerate() {
        for Held { triple, value, is_bare } in &book.rows {
            let (values, all_bare) = both.entry(Key(triple.clone())).or_insert(([0; 2], true));
            values[at] = *value;
            *all_bare &= *is_bare;
        }
    }
    both.retain(|_, (_, all_bare)| !(without_reflexive && *all_bare));
    both.into_iter().map(|(key, (values, _))| (key, values)).collect()
}

fn written(left: &Holding, right: &Holding, lines: &[Vec<String>]) -> String {
    if lines.is_empty() {
        return format!("the same holds by {} and {}\n", left.file, right.file);
    }
    let head = format!("- holds by {} alone, + by {} alone\n", left.file, right.file);
    Columns::default().lines(lines).iter().fold(head, |shown, line| format!("{shown}{line}\n"))
}
