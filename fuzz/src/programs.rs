//! The two programs: what they may print, and what the model prints.

use crate::lines::{behind, lines, numbers};
use crate::{must, Fault};
use trial::{annotation, book, programs, table};

/// A program by its name, with what is judged of its output.
pub struct Program {
    pub name: &'static str,
    /// False for input that may take long by the document's own count of looks.
    pub ends_soon: fn(&[u8]) -> bool,
    pub form: fn(&[u8], &[u8]) -> Result<(), Fault>,
    pub model: fn(&[u8]) -> String,
}

pub const PROGRAMS: [Program; 2] = [
    Program {
        name: "close_book",
        ends_soon: |_| true,
        form: closing_form,
        model: programs::close_book_program,
    },
    Program {
        name: "counter",
        ends_soon: few_looks,
        form: counter_form,
        model: programs::counter_program,
    },
];

pub fn named(name: &str) -> Option<&'static Program> {
    PROGRAMS.iter().find(|program| program.name == name)
}

impl Program {
    /// Judges an output by its form, then against the model.
    pub fn judge(&self, input: &[u8], output: &[u8]) -> Result<(), Fault> {
        (self.form)(input, output)?;
        let model = (self.model)(input);
        must(output == model.as_bytes(), || {
            format!("printed:\n{}model:\n{model}", String::from_utf8_lossy(output))
        })
    }
}

/// What reading a book, and closing within 1,024 rows, may refuse.
pub const REFUSALS: [u64; 14] = [1, 2, 3, 4, 5, 6, 7, 8, 9, 10, 12, 13, 28, 36];

/// `refused NUMBER PLACE`, with a place within the input.
fn refusal(input: &[u8], line: &str) -> Result<(), Fault> {
    let Some(found) = behind("refused", line) else {
        return Err(format!("neither a result nor a refusal: {line}"));
    };
    let found = found?;
    let &[number, place] = &found[..] else {
        return Err(format!("not a number and a place: {line}"));
    };
    must(REFUSALS.contains(&number), || format!("no such refusal: {line}"))?;
    must(place == 0 || place < input.len() as u64, || format!("place outside the input: {line}"))
}

/// `closed KIND BASE ROWS` and so many legal rows, ascending; or one refusal.
fn closing_form(input: &[u8], output: &[u8]) -> Result<(), Fault> {
    let lines = lines(output)?;
    let (first, rows) = lines.split_first().ok_or("nothing printed")?;
    let Some(head) = behind("closed", first) else {
        must(rows.is_empty(), || format!("lines behind: {first}"))?;
        return refusal(input, first);
    };
    let head = head?;
    let &[kind @ 1..=5, base @ 0..=2100, count] = &head[..] else {
        return Err(format!("not a kind, a base year and a count: {first}"));
    };
    let kind = kind as u8;
    must(annotation::kind_legal(kind), || format!("kind: {first}"))?;
    must(book::base_legal(kind, base as u16), || format!("base year: {first}"))?;
    must(count <= 1024 && count == rows.len() as u64, || format!("{} rows: {first}", rows.len()))?;
    let mut before = None;
    for line in rows {
        let row = row(line)?;
        must(table::judge(kind, row) == 0 && annotation::legal(kind, row.1), || {
            format!("not a legal row: {line}")
        })?;
        must(before < Some(row.0), || format!("not above the row before: {line}"))?;
        before = Some(row.0);
    }
    Ok(())
}

fn row(line: &str) -> Result<table::Row, Fault> {
    let &[subj, pred, obj, ann] = &numbers(line)?[..] else {
        return Err(format!("not a row: {line}"));
    };
    let term = |number| u16::try_from(number).map_err(|_| format!("not a term: {line}"));
    Ok(((term(subj)?, term(pred)?, term(obj)?), ann))
}

/// What compiling a question, and running it with 256 answer rows, may give.
const ASKED: [u64; 13] = [0, 8, 9, 10, 12, 16, 17, 18, 19, 20, 21, 22, 28];

/// `asked NUMBER PLACE COUNT LOOKS` with so many answers behind it, any number of times; then
/// perhaps one refusal.
fn counter_form(input: &[u8], output: &[u8]) -> Result<(), Fault> {
    let lines = lines(output)?;
    let mut rest = &lines[..];
    while let Some((first, behind_it)) = rest.split_first() {
        let Some(asked) = behind("asked", first) else {
            must(behind_it.is_empty(), || format!("lines behind: {first}"))?;
            return refusal(input, first);
        };
        let asked = asked?;
        let &[number, place, count @ 0..=256, looks] = &asked[..] else {
            return Err(format!("not a number, a place, a count and looks: {first}"));
        };
        let long = number == 24 && looks == u64::from(u32::MAX);
        must(long || ASKED.contains(&number), || format!("no such answer: {first}"))?;
        must(place <= input.len() as u64, || format!("place outside the input: {first}"))?;
        must(looks <= u64::from(u32::MAX), || format!("too many looks: {first}"))?;
        must(number != 12 || count == 256, || format!("no room, and not 256: {first}"))?;
        must([0, 12, 24].contains(&number) || (count, looks) == (0, 0), || {
            format!("refused, and yet answers or looks: {first}")
        })?;
        let count = count as usize;
        must(count <= behind_it.len(), || format!("answers missing: {first}"))?;
        let (answers, next) = behind_it.split_at(count);
        answers.iter().try_for_each(|line| answer(line))?;
        rest = next;
    }
    Ok(())
}

/// 16 terms, or 65,535, and 8 annotations.
fn answer(line: &str) -> Result<(), Fault> {
    let numbers = numbers(line)?;
    must(numbers.len() == 24, || format!("not 24 numbers: {line}"))?;
    must(numbers[..16].iter().all(|term| *term <= 65_535), || format!("not terms: {line}"))
}

/// The questions to one table, and the looks each may take, in input that is worth its time.
const FEW_QUESTIONS: usize = 32;
const FEW_LOOKS: u32 = 200_000;

/// The document allows a question 4,294,967,295 looks, and the table is closed anew for each: input
/// that takes long by that is no hang and is passed over.
fn few_looks(input: &[u8]) -> bool {
    let mut rest = input;
    let mut behind_lengths = 0;
    while let [high, low, next @ ..] = rest {
        let length = usize::from(*high) * 256 + usize::from(*low);
        rest = next.get(length..).unwrap_or_default();
        behind_lengths += 1;
    }
    let dear = || programs::counter_with_looks(input, FEW_LOOKS);
    behind_lengths <= FEW_QUESTIONS + 1 && !dear().lines().any(|line| line.starts_with("asked 24 "))
}
