//! Notes: what is right as it stands, and yet looks like a slip of the pen. They go to standard
//! error and stop nothing.

use crate::mentions::Mention;
use crate::names::{Sort, FIVE_WORDS};
use crate::near;
use crate::text::Text;
use crate::Fault;
use std::collections::HashMap;

/// The notes on a text, in the order of its lines.
pub fn notes(text: &Text) -> Vec<Fault> {
    let mentions = text.mentions.by_line();
    let mut found = lone_relations(text, &mentions);
    for sort in [Sort::Name, Sort::Blank, Sort::Literal] {
        found.extend(near_names(text, &mentions, sort));
    }
    found.extend(quoted_names(text, &mentions));
    found.sort_by_key(|note| note.line);
    found
}

/// Notes shown at once.
const MOST_SHOWN: usize = 20;

/// One line each.
pub fn written(file: &str, notes: &[Fault]) -> String {
    let shown = notes.iter().take(MOST_SHOWN);
    let mut written: String =
        shown.map(|note| format!("{file}:{}: note: {}\n", note.line, note.words)).collect();
    if notes.len() > MOST_SHOWN {
        written += &format!("{file}: and {} more notes\n", notes.len() - MOST_SHOWN);
    }
    written
}

/// The kept texts of a sort's terms, with what is said of each; the five are not among them.
fn of_sort<'a>(
    text: &'a Text,
    mentions: &'a [(u16, Mention)],
    sort: Sort,
) -> Vec<(&'a str, &'a Mention)> {
    let own = mentions.iter().filter(|(term, _)| usize::from(*term) >= FIVE_WORDS.len());
    let kept = own.filter_map(|(term, mention)| Some((text.names.kept(*term)?, mention)));
    kept.filter(|((other, _), _)| *other == sort)
        .map(|((_, kept), mention)| (kept, mention))
        .collect()
}

/// A relation that stands once and is no property elsewhere.
fn lone_relations(text: &Text, mentions: &[(u16, Mention)]) -> Vec<Fault> {
    let names = of_sort(text, mentions, Sort::Name);
    let known = |name: &&(&str, &Mention)| name.1.relations > 1 || name.1.is_property;
    let lone = |name: &&(&str, &Mention)| name.1.relations == 1 && !name.1.is_property;
    let words = || FIVE_WORDS.into_iter().chain(names.iter().filter(known).map(|(name, _)| *name));
    let note = |(name, mention): &(&str, &Mention)| {
        let meant = match near::meant(name, words()) {
            Some(word) => format!("; is `{word}` meant?"),
            None => " (the five are is, within, implies, from, to)".to_string(),
        };
        let shown = Sort::Name.written(name);
        Fault::new(
            mention.relation_line,
            format!("`{shown}` is a relation in this line only{meant}"),
        )
    };
    names.iter().filter(lone).map(note).collect()
}

/// Names that are easily taken for one another.
fn near_names(text: &Text, mentions: &[(u16, Mention)], sort: Sort) -> Vec<Fault> {
    let names = of_sort(text, mentions, sort);
    let texts: Vec<&str> = names.iter().map(|(name, _)| *name).collect();
    let note = |(earlier, later, apart): (usize, usize, near::Apart)| {
        let (known, first) = names[earlier];
        let (name, mention) = names[later];
        let (name, known) = (sort.written(name), sort.written(known));
        Fault::new(mention.line, apart.note(&name, &known, first.line))
    };
    near::pairs(&texts).into_iter().map(note).collect()
}

/// A name in quotes is another thing than the same name without.
fn quoted_names(text: &Text, mentions: &[(u16, Mention)]) -> Vec<Fault> {
    let names: HashMap<&str, &Mention> = of_sort(text, mentions, Sort::Name).into_iter().collect();
    let note = |(literal, mention): (&str, &Mention)| {
        let plain = literal.strip_prefix('"')?.strip_suffix('"')?;
        let first = names.get(plain)?;
        let words =
            format!("{literal} in quotes is another thing than `{plain}` (line {})", first.line);
        Some(Fault::new(mention.line, words))
    };
    of_sort(text, mentions, Sort::Literal).into_iter().filter_map(note).collect()
}
