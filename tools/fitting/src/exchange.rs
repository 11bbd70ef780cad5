//! In and out: makers' lists and tables of spreadsheets into a text, and a book's rows into them.

use crate::annotation::Kind;
use crate::calls::{Calls, Row};
use crate::csv::{self, Record};
use crate::encoding;
use crate::head::Head;
use crate::input::Source;
use crate::listing;
use crate::names::{Names, Sort};
use crate::ntriples;
use crate::refusal::{self, Refused};
use crate::slips;
use crate::statement::{self, Cursor, When};
use crate::words::{words, Placed, Word};
use crate::{value, Fault, Faults};

/// The forms besides a text.
#[derive(Clone, Copy, Debug, PartialEq, Eq)]
pub enum Form {
    NTriples,
    Csv,
}

impl Form {
    pub fn of_word(word: &str) -> Option<Form> {
        match word {
            "nt" => Some(Form::NTriples),
            "csv" => Some(Form::Csv),
            _ => None,
        }
    }

    /// The form that a file's name says.
    pub fn of_file(file: &str) -> Option<Form> {
        let (_, ending) = file.rsplit_once('.')?;
        match ending.to_lowercase().as_str() {
            "nt" | "ntriples" => Some(Form::NTriples),
            "csv" | "tsv" => Some(Form::Csv),
            _ => None,
        }
    }
}

/// What words such as `years from 2000` say of a book; an error is in plain words.
pub fn head(said: &str) -> Result<Head, String> {
    let placed = placed(&format!("kind {said}"), 0)?;
    statement::head(&mut Cursor::new(&placed)).map_err(|fault| fault.words)
}

/// What words such as `2000-2002, 2005` say in a book of this kind.
pub fn when(kind: Kind, said: &str) -> Result<u64, String> {
    let placed = placed(said, 0)?;
    let mut cursor = Cursor::new(&placed);
    let value = statement::when(&mut cursor, kind)
        .and_then(|value| statement::nothing_left(&cursor).map(|()| value));
    match value.map_err(|fault| fault.words)? {
        Some(When::Constant(value)) => Ok(value),
        _ => Err(format!("here stand {}, or always", kind.example())),
    }
}

fn placed(text: &str, line: usize) -> Result<Vec<Placed>, String> {
    Ok(words(text)?.into_iter().map(|word| Placed { word, line }).collect())
}

/// A makers' list as a text. An error is what to print.
pub fn import_list(
    calls: &dyn Calls,
    source: &Source,
    head: Head,
    value: u64,
    base: &str,
) -> Result<String, String> {
    let mut names = Names::default();
    let rows = ntriples::read(calls, head.kind.number(), value, &source.bytes, base, &mut names);
    match rows {
        Ok(rows) => text_of(head, &names, &rows),
        Err(ntriples::Refused::Names(words)) => Err(format!("{}: {words}\n", source.name)),
        Err(ntriples::Refused::Call(refusal)) => {
            let before = source.bytes.get(..refusal.place).unwrap_or(&source.bytes);
            let line = 1 + String::from_utf8_lossy(before)
                .replace("\r\n", "\n")
                .matches(['\n', '\r'])
                .count();
            let behind = String::from_utf8_lossy(&source.bytes[before.len()..]).into_owned();
            let shown: String =
                behind.lines().next().unwrap_or("").chars().take(200).map(seen).collect();
            Err(refusal::written(
                &source.name,
                Some(line),
                Some(&shown),
                None,
                Refused::List,
                refusal,
            ))
        }
    }
}

/// What a message shows of a character that cannot be seen.
fn seen(letter: char) -> char {
    if crate::letters::is_unseen(letter) {
        '\u{FFFD}'
    } else {
        letter
    }
}

/// A spreadsheet's table as a text. An error is what to print.
pub fn import_table(source: &Source, said: Option<Head>) -> Result<String, String> {
    let (head, names, rows) =
        read_table(&source.bytes, said).map_err(|faults| faults.written(&source.name))?;
    text_of(head, &names, &rows)
}

/// A table's head, names and rows.
fn read_table(bytes: &[u8], said: Option<Head>) -> Result<(Head, Names, Vec<Row>), Faults> {
    let at = |(line, words): csv::Wrong| Fault::new(line, words);
    let mut records =
        csv::read(encoding::decoded(bytes).map_err(Faults::one)?).map(|record| record.map_err(at));
    let first = records.next().transpose().map_err(Faults::one)?;
    let head = first_line(first.as_ref(), said).map_err(Faults::one)?;
    let (mut names, mut rows, mut faults) = (Names::default(), Vec::new(), Faults::default());
    for record in records {
        match record.and_then(|record| row(&record, &mut names, head.kind)) {
            Ok(row) => rows.push(row),
            Err(fault) => faults.add(fault),
        }
    }
    if faults.count() > 0 {
        return Err(faults);
    }
    Ok((head, names, rows))
}

/// What a table's first line says of the book, or the caller.
fn first_line(first: Option<&Record>, said: Option<Head>) -> Result<Head, Fault> {
    let wanted = "the first line of the table is: subject,relation,object,years from 2000";
    let Some(Record { line, cells }) = first else {
        return Err(Fault::new(1, wanted));
    };
    let small: Vec<String> = cells.iter().map(|cell| cell.to_lowercase()).collect();
    let [subject, relation, object, when, ..] = &small[..] else {
        return Err(Fault::new(*line, wanted));
    };
    if [subject.as_str(), relation, object] != ["subject", "relation", "object"] {
        return Err(Fault::new(*line, wanted));
    }
    match (head(when), said) {
        (Ok(head), None) => Ok(head),
        (Ok(head), Some(said)) if head == said => Ok(head),
        (Ok(head), Some(_)) => {
            Err(Fault::new(*line, format!("the table says `{}`, and --kind another", head.words())))
        }
        (Err(_), Some(said)) => Ok(said),
        (Err(words), None) if when.contains(" rules") => Err(Fault::new(*line, words)),
        (Err(_), None) => Err(Fault::new(
            *line,
            format!("`{when}` does not say the kind: write `years from 2000` there, or say --kind"),
        )),
    }
}

/// A line of a table: three cells of one word each, and when.
fn row(record: &Record, names: &mut Names, kind: Kind) -> Result<Row, Fault> {
    let at = |words: String| Fault::new(record.line, words);
    let mut line = Vec::new();
    for (role, cell) in ["subject", "relation", "object"]
        .into_iter()
        .zip(record.cells.iter().chain(std::iter::repeat(&String::new())))
    {
        let mut found = placed(cell, record.line).map_err(at)?;
        match (found.len(), cell.is_empty()) {
            (1, _) => line.append(&mut found),
            (_, true) => return Err(at(format!("the {role} is missing"))),
            _ => return Err(at(one_word(cell))),
        }
    }
    let when = record.cells.get(3).map_or("", |cell| cell);
    line.extend(placed(&when.replace(';', ","), record.line).map_err(at)?);
    if line.iter().take(3).any(|placed| placed.word == Word::Comma) {
        return Err(at(slips::COMMA.to_string()));
    }
    let (triple, value) = statement::row(&mut Cursor::new(&line), names, kind)?;
    Ok(Row { triple, value })
}

fn one_word(cell: &str) -> String {
    let hyphens: String = cell.split_whitespace().collect::<Vec<&str>>().join("-");
    format!("a cell has one word, and this one is `{cell}`: write {hyphens}, or the quotes too: \"{cell}\"")
}

/// Rows as a text, in the order of the names.
fn text_of(head: Head, names: &Names, rows: &[Row]) -> Result<String, String> {
    let mut ordered = names.in_order();
    let mut again = |term: u16| match value::of(term) {
        Some(_) => Some(term),
        None => names.kept(term).and_then(|(sort, text)| ordered.term(sort, text).ok()),
    };
    let mut moved = Vec::new();
    for Row { triple, value } in rows {
        let [Some(subj), Some(pred), Some(obj)] = triple.map(&mut again) else {
            return Err("a term has no name\n".to_string());
        };
        moved.push(Row { triple: [subj, pred, obj], value: *value });
    }
    moved.sort_by_key(|row| row.triple);
    listing::listing(head, &ordered, &moved, None).ok_or_else(|| "a term has no name\n".to_string())
}

/// Rows as a spreadsheet's table; what the book's own lines do not say is marked in a fifth cell.
pub fn export_table(
    head: Head,
    names: &Names,
    rows: &[(Row, listing::Source)],
) -> (String, Vec<String>) {
    let marks = rows.iter().any(|(_, source)| *source != listing::Source::Stated);
    let mut first =
        vec!["subject".to_string(), "relation".to_string(), "object".to_string(), head.words()];
    first.extend(marks.then(|| "note".to_string()));
    let mut records = vec![first];
    let mut formulas = Vec::new();
    for (row, source) in rows {
        let mut cells = listing::terms(names, row).map(Vec::from).unwrap_or_default();
        formulas.extend(cells.iter().filter(|cell| csv::looks_like_formula(cell)).cloned());
        cells.push(head.kind.written(row.value));
        cells.extend(marks.then(|| source.words().to_string()));
        records.push(cells);
    }
    formulas.dedup();
    (csv::written(&records), formulas)
}

/// Rows as N-Triples, and those that have none: a quoted text is no subject there. An error is what
/// to print.
pub fn export_list(
    calls: &dyn Calls,
    kind: Kind,
    names: &Names,
    rows: &[Row],
    base: &str,
) -> Result<(Vec<u8>, Vec<Row>), String> {
    let is_unsaid = |row: &&Row| {
        let has_value = row.triple.iter().any(|term| value::of(*term).is_some());
        has_value || Sort::of(row.triple[0]) == Some(Sort::Literal)
    };
    let (unsaid, plain): (Vec<&Row>, Vec<&Row>) = rows.iter().partition(is_unsaid);
    let plain: Vec<Row> = plain.into_iter().copied().collect();
    let bytes = ntriples::written(calls, kind.number(), names, &plain, base)?;
    Ok((bytes, unsaid.into_iter().copied().collect()))
}
