//! Makers' lists: N-Triples in and out, by the library's calls, some lines at a time.

use crate::calls::{Calls, NameList, Refusal, Row, Table, MOST_NAMES, MOST_NAME_TEXT};
use crate::letters::is_unseen;
use crate::literal::is_in_iri;
use crate::names::{iri_of, is_name, Names, Sort, FIVE_IRIS, FIVE_WORDS};
use std::collections::{BTreeSet, HashMap, HashSet};

/// The front of a plain name's IRI, unless the caller says another.
pub const BASE: &str = "urn:fitting:";

/// Lines handed over at once: so many have no more names than a list takes.
const MOST_LINES: usize = MOST_NAMES / 3;

/// Reads a list: rows of terms that `names` knows. A refusal's place is a byte of the file.
pub fn read(
    calls: &dyn Calls,
    kind: u8,
    value: u64,
    file: &[u8],
    base: &str,
    names: &mut Names,
) -> Result<Vec<Row>, Refused> {
    let mut found = Vec::new();
    for (start, piece) in pieces(file) {
        let (table, list) = calls.read_triples(kind, value, piece).map_err(|refusal| {
            Refused::Call(Refusal { place: start + refusal.place, ..refusal })
        })?;
        let texts: HashMap<u16, String> = list.into_iter().collect();
        for Row { triple, value } in table.rows {
            found.push((triple.map(|term| (term, texts.get(&term).cloned())), value));
        }
    }
    let blanks = fresh_blanks(found.iter().flat_map(|(triple, _)| triple));
    let mut rows = Vec::new();
    for (triple, value) in found {
        let mut terms = [0; 3];
        for (number, (term, text)) in terms.iter_mut().zip(triple) {
            *number =
                entered(names, term, text.as_deref(), base, &blanks).map_err(Refused::Names)?;
        }
        rows.push(Row { triple: terms, value });
    }
    Ok(rows)
}

/// Why a list was not read.
#[derive(Debug)]
pub enum Refused {
    Call(Refusal),
    /// More names than a text can have.
    Names(String),
}

/// Whole lines of a file, few enough for one call each; and where each piece begins.
fn pieces(file: &[u8]) -> Vec<(usize, &[u8])> {
    let mut found = Vec::new();
    let (mut start, mut lines, mut at) = (0, 0, 0);
    for line in file.split_inclusive(|byte| *byte == b'\n' || *byte == b'\r') {
        if lines == MOST_LINES || at + line.len() - start > MOST_NAME_TEXT && at > start {
            found.push((start, &file[start..at]));
            (start, lines) = (at, 0);
        }
        lines += 1;
        at += line.len();
    }
    found.push((start, &file[start..]));
    found
}

/// The term of a text as N-Triples has it.
fn entered(
    names: &mut Names,
    term: u16,
    text: Option<&str>,
    base: &str,
    blanks: &HashMap<String, String>,
) -> Result<u16, String> {
    let (Some(sort), Some(text)) = (Sort::of(term), text) else {
        return Ok(term);
    };
    match sort {
        Sort::Name => {
            match text.strip_prefix(base).and_then(decoded).filter(|name| is_name(name)) {
                Some(name) => names.term(Sort::Name, &name),
                None => names.iri(text),
            }
        }
        Sort::Blank => names.term(Sort::Blank, blanks.get(text).map_or(text, |label| label)),
        Sort::Literal => names.term(Sort::Literal, text),
    }
}

/// Other labels for blanks whose own cannot be seen in a text.
fn fresh_blanks<'a>(
    terms: impl Iterator<Item = &'a (u16, Option<String>)>,
) -> HashMap<String, String> {
    let blank = |(term, text): &'a (u16, Option<String>)| {
        text.as_ref().filter(|_| Sort::of(*term) == Some(Sort::Blank))
    };
    let labels: HashSet<&String> = terms.filter_map(blank).collect();
    let unseen = |label: &&String| label.contains(is_unseen);
    relabelled(&labels, unseen)
}

/// Labels that none of these has, for those that want one.
fn relabelled(
    labels: &HashSet<&String>,
    wants: impl Fn(&&String) -> bool,
) -> HashMap<String, String> {
    let mut unfit: Vec<&String> = labels.iter().copied().filter(|label| wants(label)).collect();
    unfit.sort();
    let fresh = (1..).map(|number| format!("b{number}")).filter(|label| !labels.contains(label));
    unfit.into_iter().cloned().zip(fresh).collect()
}

/// Writes rows as N-Triples. An error is what to print.
pub fn written(
    calls: &dyn Calls,
    kind: u8,
    names: &Names,
    rows: &[Row],
    base: &str,
) -> Result<Vec<u8>, String> {
    let texts = texts(names, rows, base)?;
    let mut out = Vec::new();
    let mut rest = rows;
    while !rest.is_empty() {
        let count = fitting_rows(&texts, rest);
        let (some, more) = rest.split_at(count);
        let used: BTreeSet<u16> = some.iter().flat_map(|row| row.triple).collect();
        let list: NameList =
            used.iter().filter_map(|term| Some((*term, texts.get(term)?.clone()))).collect();
        let table = Table { kind, rows: some.to_vec() };
        let bytes = calls
            .write_triples(&table, &list)
            .map_err(|refusal| unwritten(names, some, refusal))?;
        out.extend(bytes);
        rest = more;
    }
    Ok(out)
}

/// How many rows from the front on have texts few and short enough for one call; one at least.
fn fitting_rows(texts: &HashMap<u16, String>, rows: &[Row]) -> usize {
    let mut bytes = 0;
    let length = |row: &Row| {
        row.triple.iter().map(|term| texts.get(term).map_or(0, String::len)).sum::<usize>()
    };
    let fits = |row: &&Row| {
        bytes += length(row);
        bytes <= MOST_NAME_TEXT
    };
    rows.iter().take(MOST_LINES).take_while(fits).count().max(1)
}

fn unwritten(names: &Names, rows: &[Row], refusal: Refusal) -> String {
    let row = rows.get(refusal.place).or(rows.first());
    let words = row
        .and_then(|row| crate::listing::terms(names, row))
        .map_or(String::new(), |words| words.join(" "));
    match refusal.number {
        39 => format!("this line cannot be written as N-Triples: {words} (refused 39)\n"),
        27 => format!("the names of this line are over 32,768 bytes: {words} (refused 27)\n"),
        number => format!("the rows cannot be written as N-Triples (refused {number})\n"),
    }
}

/// The texts of the rows' terms as N-Triples has them. An error is what to print: two names would
/// become one.
fn texts(names: &Names, rows: &[Row], base: &str) -> Result<HashMap<u16, String>, String> {
    let terms: BTreeSet<u16> = rows.iter().flat_map(|row| row.triple).collect();
    let own = terms.into_iter().filter(|term| usize::from(*term) >= FIVE_WORDS.len());
    let kept: Vec<(u16, Sort, String)> = own
        .filter_map(|term| names.kept(term).map(|(sort, text)| (term, sort, text.to_string())))
        .collect();
    let labels: HashSet<&String> =
        kept.iter().filter(|(_, sort, _)| *sort == Sort::Blank).map(|(_, _, text)| text).collect();
    let blanks = relabelled(&labels, |label| !is_plain_label(label));
    let mut texts = HashMap::new();
    let mut known: HashMap<(Sort, String), u16> = HashMap::new();
    for (term, sort, text) in &kept {
        let written = match sort {
            Sort::Name => {
                iri_of(text).map_or_else(|| format!("{base}{}", encoded(text)), str::to_string)
            }
            Sort::Blank => blanks.get(text).unwrap_or(text).clone(),
            Sort::Literal => text.clone(),
        };
        let five = *sort == Sort::Name && FIVE_IRIS.contains(&written.as_str());
        let other = known.insert((*sort, written.clone()), *term);
        if five || other.is_some() {
            return Err(format!(
                "`{}` would be written as another name is, <{written}>: say another --base\n",
                sort.written(text)
            ));
        }
        texts.insert(*term, written);
    }
    Ok(texts)
}

/// A label that N-Triples surely lets stand.
fn is_plain_label(label: &str) -> bool {
    let fits = |letter: char| letter.is_ascii_alphanumeric() || "_-.".contains(letter);
    !label.starts_with(['-', '.']) && !label.ends_with('.') && label.chars().all(fits)
}

/// A plain name in an IRI: what no IRI holds stands by its bytes, and so does `%`.
fn encoded(name: &str) -> String {
    let letter = |letter: char| match is_in_iri(letter) && letter != '%' {
        true => letter.to_string(),
        false => letter.to_string().bytes().map(|byte| format!("%{byte:02X}")).collect(),
    };
    name.chars().map(letter).collect()
}

/// The name that was encoded, if one was.
fn decoded(text: &str) -> Option<String> {
    let mut bytes = Vec::new();
    let mut rest = text.bytes();
    while let Some(byte) = rest.next() {
        match byte {
            b'%' => {
                let digits = [rest.next()?, rest.next()?];
                bytes.push(u8::from_str_radix(std::str::from_utf8(&digits).ok()?, 16).ok()?);
            }
            _ => bytes.push(byte),
        }
    }
    String::from_utf8(bytes).ok().filter(|name| encoded(name) == text)
}

#[cfg(test)]
mod tests {
    use super::*;

    #[test]
    fn pieces_are_whole_lines_and_nothing_is_left_out() {
        let file: String =
            (0..1000).map(|number| format!("<m:{number}> <m:p> <m:o> .\r\n")).collect();
        let found = pieces(file.as_bytes());
        let whole: Vec<u8> = found.iter().flat_map(|(_, piece)| piece.to_vec()).collect();
        assert_eq!(whole, file.as_bytes());
        assert!(found.iter().all(|(start, piece)| file.as_bytes()[*start..].starts_with(piece)));
        assert!(found
            .iter()
            .all(|(_, piece)| piece.iter().filter(|byte| **byte == b'\n').count() <= MOST_LINES));
        assert_eq!(pieces(b""), [(0, &b""[..])]);
        let long = [b"#".repeat(70_000), b"\n<m:a> <m:p> <m:o> .".to_vec()].concat();
        assert_eq!(
            pieces(&long).iter().map(|(start, _)| *start).collect::<Vec<usize>>(),
            [0, 70_001]
        );
    }

    #[test]
    fn plain_names_in_iris() {
        for name in ["lamp-7", "Rücklicht", "a%b", "a|b{c}", "50%", "a^`\\"] {
            assert_eq!(decoded(&encoded(name)).as_deref(), Some(name));
            assert!(encoded(name).chars().all(is_in_iri), "{name}");
        }
        for other in ["%4", "%41", "%FF", "%zz"] {
            assert_eq!(decoded(other), None, "{other}");
        }
    }

    #[test]
    fn labels() {
        assert!(is_plain_label("b") && is_plain_label("0a.b-c"));
        assert!(
            !is_plain_label("-a")
                && !is_plain_label("a.")
                && !is_plain_label("a/b")
                && !is_plain_label("ä")
        );
        let labels = ["b1".to_string(), "a/b".to_string(), "c/d".to_string()];
        let fresh = relabelled(&labels.iter().collect(), |label| !is_plain_label(label));
        assert_eq!(
            fresh,
            HashMap::from([
                ("a/b".to_string(), "b2".to_string()),
                ("c/d".to_string(), "b3".to_string())
            ])
        );
    }
}
