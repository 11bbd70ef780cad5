//! A whole text: the book's lines and the questions.

use crate::encoding;
use crate::fields::Fields;
use crate::head::Head;
use crate::mentions::Mentions;
use crate::names::Names;
use crate::question::{question, Question};
use crate::statement::{head, in_capitals, row, Cursor};
use crate::words::{words, Placed, Word, MOST_WORDS, TOO_LONG};
use crate::{Fault, Faults};
use std::collections::HashMap;

const ROW: u8 = 3;

/// Far more than anyone asks; so many take little memory.
const MOST_QUESTIONS: usize = 10_000;

pub struct Text {
    pub lines: Lines,
    /// Not there in a text that says nothing.
    pub head: Option<Head>,
    /// Numbered in the order of the names, whichever line names them first.
    pub names: Names,
    pub book: Fields,
    /// What the book's own lines say of a triple, taken together.
    pub stated: HashMap<[u16; 3], u64>,
    pub questions: Vec<Question>,
    /// Where each term stands.
    pub mentions: Mentions,
}

/// The lines of a text, as they were written.
#[derive(Clone, Debug, Default)]
pub struct Lines {
    source: String,
    /// Where each line begins and ends.
    spans: Vec<(u32, u32)>,
}

impl Lines {
    fn of(source: &str) -> Lines {
        let start = source.as_ptr() as usize;
        let span = |line: &str| {
            let from = (line.as_ptr() as usize - start) as u32;
            (from, from + line.trim_end().len() as u32)
        };
        Lines { spans: source.lines().map(span).collect(), source: source.to_string() }
    }

    /// The line of this number, from 1 on.
    pub fn line(&self, number: usize) -> &str {
        let span = number.checked_sub(1).and_then(|at| self.spans.get(at));
        span.map_or("", |(from, to)| &self.source[*from as usize..*to as usize])
    }

    /// The lines from `first` to `last`.
    pub fn between(&self, first: usize, last: usize) -> impl Iterator<Item = &str> {
        (first..=last.min(self.spans.len())).map(|number| self.line(number))
    }
}

/// Reads a text, or says what is wrong with its lines.
pub fn read(bytes: &[u8]) -> Result<Text, Faults> {
    let source = encoding::decoded(bytes).map_err(Faults::one)?;
    let lines = Lines::of(source);
    // Once for the names, and once more with their numbers in order.
    let Text { lines, names, .. } = read_lines(lines, Names::default())?;
    read_lines(lines, names.in_order())
}

fn read_lines(lines: Lines, names: Names) -> Result<Text, Faults> {
    let mut text = Text {
        lines: Lines::default(),
        head: None,
        names,
        book: Fields::default(),
        stated: HashMap::new(),
        questions: Vec::new(),
        mentions: Mentions::default(),
    };
    let mut faults = Faults::default();
    let mut statement = Statement::default();
    for number in 1..=lines.spans.len() {
        match words(lines.line(number)) {
            Err(words) => faults.add(Fault::new(number, words)),
            Ok(words) if words.is_empty() => {}
            Ok(words) => {
                if !statement.goes_on(&words[0]) {
                    finish(&mut text, std::mem::take(&mut statement), &mut faults);
                    // Without a kind no other line can be read.
                    if text.head.is_none() && faults.count() > 0 {
                        return Err(faults);
                    }
                }
                statement.add(words, number);
            }
        }
    }
    finish(&mut text, statement, &mut faults);
    if faults.count() > 0 {
        return Err(faults);
    }
    text.lines = lines;
    Ok(text)
}

/// Reads a statement that is whole.
fn finish(text: &mut Text, statement: Statement, faults: &mut Faults) {
    let read = match (statement.is_too_long, statement.words.first()) {
        (true, Some(first)) => Err(Fault::new(first.line, TOO_LONG)),
        _ => add(text, &statement.words),
    };
    read.unwrap_or_else(|fault| faults.add(fault));
}

/// The words of a line of the book or of a question, and the parentheses open behind them.
#[derive(Default)]
struct Statement {
    words: Vec<Placed>,
    open: usize,
    /// It went on for more words than are kept.
    is_too_long: bool,
}

impl Statement {
    fn add(&mut self, words: Vec<Word>, line: usize) {
        if self.words.len() + words.len() > MOST_WORDS {
            self.is_too_long = true;
            return;
        }
        for word in words {
            match word {
                Word::Open => self.open += 1,
                Word::Close => self.open = self.open.saturating_sub(1),
                _ => {}
            }
            self.words.push(Placed { word, line });
        }
    }

    /// A question goes on over lines that begin with `and`, `or`, `where` or `)`, and over any line
    /// while a parenthesis is open or the last word wants another.
    fn goes_on(&self, next: &Word) -> bool {
        let asks = self.words.first().is_some_and(|first| first.word.is("ask"));
        let unfinished = self.words.last().is_some_and(|last| {
            ["ask", "and", "or", "where"].iter().any(|plain| last.word.is(plain))
        });
        let joins = goes_on_with(next) || *next == Word::Close;
        let begins = next.is("ask") || next.is("kind");
        asks && !begins && (joins || unfinished || self.open > 0)
    }
}

fn goes_on_with(word: &Word) -> bool {
    ["and", "or", "where"].iter().any(|plain| word.is(plain))
}

fn add(text: &mut Text, words: &[Placed]) -> Result<(), Fault> {
    let mut cursor = Cursor::new(words);
    let Some(first) = cursor.peek(0) else {
        return Ok(());
    };
    let line = cursor.line();
    if first.is("kind") {
        let head = head(&mut cursor)?;
        text.head = Some(head);
        text.book.add(&head.field(line));
        return Ok(());
    }
    let Some(Head { kind, .. }) = text.head else {
        let says = "the first line says the kind, such as: kind years from 2000";
        return Err(Fault::new(line, in_capitals(first).unwrap_or(says.to_string())));
    };
    if first.is("ask") {
        if text.questions.len() == MOST_QUESTIONS {
            return Err(Fault::new(
                line,
                "this is one question too many: a text has at most 10,000",
            ));
        }
        let question = question(words, &mut text.names, kind)?;
        question.constants.iter().for_each(|constant| text.mentions.asked(*constant));
        text.questions.push(question);
        return Ok(());
    }
    if goes_on_with(first) {
        return Err(Fault::new(
            line,
            "this line goes on with a question, but none is right above it",
        ));
    }
    let (triple, value) = row(&mut cursor, &mut text.names, kind)?;
    text.book.add(&row_field(triple, value, line));
    text.mentions.stated(triple, line);
    let stated = text.stated.entry(triple).or_insert(value);
    *stated = kind.join(*stated, value);
    Ok(())
}

fn row_field(triple: [u16; 3], value: u64, line: usize) -> Fields {
    let terms = triple.map(u16::to_be_bytes).concat();
    Fields::one(ROW, &[&terms[..], &value.to_be_bytes()].concat(), line)
}
