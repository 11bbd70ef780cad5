//! What a line is made of: its words one by one, terms, when it holds; and the lines of a book.

use crate::annotation::{whole_number, Kind};
use crate::head::{Head, BASIC};
use crate::names::{Names, Sort, FIVE_WORDS};
use crate::sheets::Sheets;
use crate::words::{Placed, Word};
use crate::Fault;
use crate::{near, slips, value};

/// Words that are never names, with those of `COMPARES`.
const RESERVED: [&str; 7] = ["kind", "ask", "and", "or", "where", "during", "always"];

/// The words of tests.
pub const COMPARES: [&str; 4] = ["=", "!=", "covers", ">="];

/// The document's words for the five, which a text does not use.
const DOCUMENT_WORDS: [&str; 5] = ["sp", "sc", "type", "dom", "range"];

/// Words that a list of years ends at.
const LIST_ENDS: [&str; 3] = ["and", "or", "where"];

/// What a term is to be.
#[derive(Clone, Copy, Debug, PartialEq, Eq)]
pub enum Role {
    Subject,
    Relation,
    Object,
    /// A side of `=` or `!=`.
    Side,
}

/// The terms of a triple, in their order.
pub const ROLES: [Role; 3] = [Role::Subject, Role::Relation, Role::Object];

/// The order in which a triple is written.
pub const ORDER: &str = "SUBJECT RELATION OBJECT WHEN";

impl Role {
    fn missing(self) -> String {
        match self {
            Role::Subject => format!("the subject is missing: {ORDER}"),
            Role::Relation => format!("the relation is missing: {ORDER}"),
            Role::Object => format!("the object is missing: {ORDER}"),
            Role::Side => "there is nothing to compare with".to_string(),
        }
    }

    /// Something else stands in its place.
    fn misplaced(self, found: &str) -> String {
        match self {
            Role::Subject => format!("{found} stands where the subject should be: {ORDER}"),
            Role::Relation => format!("{found} stands where the relation should be: {ORDER}"),
            Role::Object => format!("{found} stands where the object should be: {ORDER}"),
            Role::Side => format!("{found} is not a name to compare with"),
        }
    }
}

/// A term of a triple, or a variable in its place.
#[derive(Clone, Debug, PartialEq, Eq)]
pub enum Slot {
    Constant(u16),
    Variable(String),
}

/// When a triple holds: an annotation, or a variable in its place.
#[derive(Clone, Debug, PartialEq, Eq)]
pub enum When {
    Constant(u64),
    Variable(String),
}

/// The words of a statement, read from the left.
pub struct Cursor<'a> {
    words: &'a [Placed],
    at: usize,
}

impl<'a> Cursor<'a> {
    pub fn new(words: &'a [Placed]) -> Cursor<'a> {
        Cursor { words, at: 0 }
    }

    /// The word `ahead` of the next one.
    pub fn peek(&self, ahead: usize) -> Option<&'a Word> {
        self.words.get(self.at + ahead).map(|placed| &placed.word)
    }

    pub fn word(&mut self) -> Option<&'a Word> {
        let word = self.peek(0)?;
        self.at += 1;
        Some(word)
    }

    /// The line of the next word, or of the last one.
    pub fn line(&self) -> usize {
        let placed = self.words.get(self.at).or(self.words.last());
        placed.map_or(0, |placed| placed.line)
    }

    pub fn fault(&self, words: impl Into<String>) -> Fault {
        Fault::new(self.line(), words)
    }

    /// Passes over this word if it is the next; its line.
    pub fn take(&mut self, plain: &str) -> Option<usize> {
        let line = self.line();
        self.peek(0).filter(|word| word.is(plain))?;
        self.at += 1;
        Some(line)
    }
}

/// A term, or a variable.
pub fn term(cursor: &mut Cursor, names: &mut Names, role: Role) -> Result<Slot, Fault> {
    let line = cursor.line();
    let number = match cursor.word() {
        None => Err(role.missing()),
        Some(Word::Variable(name)) => return Ok(Slot::Variable(name.clone())),
        Some(Word::Plain(text)) => judge_name(text)
            .map_err(|wrong| wrong.words(role, cursor.peek(0)))
            .and_then(|()| names.term(Sort::Name, text)),
        Some(Word::Iri(iri)) => names.iri(iri),
        Some(Word::Value(value)) => Ok(value::term(*value)),
        Some(Word::Blank(text)) => names.term(Sort::Blank, text),
        Some(Word::Literal(text)) => names.term(Sort::Literal, text),
        Some(Word::Comma) if role != Role::Side => Err(slips::COMMA.to_string()),
        Some(word) => Err(role.misplaced(&word.shown())),
    };
    number.map(Slot::Constant).map_err(|words| Fault::new(line, words))
}

/// Why a plain word is no name.
pub enum NoName<'a> {
    Reserved(&'a str),
    Number(&'a str),
    Words(String),
}

impl NoName<'_> {
    fn words(self, role: Role, next: Option<&Word>) -> String {
        let unit = next.and_then(|word| match word {
            Word::Plain(unit) => Some(unit.as_str()),
            _ => None,
        });
        match self {
            NoName::Reserved(text) => role.misplaced(&format!("`{text}`")),
            NoName::Number(text) => {
                if let Some(words) = value::meant(text, unit) {
                    return words;
                }
                let misplaced = role.misplaced(&format!("`{text}`"));
                format!("{misplaced} (a name that is a number is put in quotes: \"{text}\")")
            }
            NoName::Words(words) => words,
        }
    }
}

pub fn judge_name(text: &str) -> Result<(), NoName<'_>> {
    if RESERVED.contains(&text) {
        return Err(NoName::Reserved(text));
    }
    if COMPARES.contains(&text) {
        let words = format!("`{text}` belongs in the tests of a question, behind `where`");
        return Err(NoName::Words(words));
    }
    if let Some(at) = DOCUMENT_WORDS.iter().position(|word| *word == text) {
        return Err(NoName::Words(format!("`{text}` is written `{}` here", FIVE_WORDS[at])));
    }
    judge_capitals(text).map_err(NoName::Words)?;
    if text.chars().all(|letter| letter.is_ascii_digit() || "-–—.".contains(letter)) {
        return Err(NoName::Number(text));
    }
    Ok(())
}

/// What to say of a word of the text form that is not in small letters.
pub fn in_capitals(word: &Word) -> Option<String> {
    match word {
        Word::Plain(text) => judge_capitals(text).err(),
        _ => None,
    }
}

/// A word of the text form in other letters is most often meant as that word.
fn judge_capitals(text: &str) -> Result<(), String> {
    let small = text.to_lowercase();
    let known = [&FIVE_WORDS[..], &RESERVED, &COMPARES].concat().contains(&&*small);
    if known && small != text {
        return Err(format!("`{text}` is written in small letters: `{small}`"));
    }
    Ok(())
}

/// When it holds, if that is said: `always`, a variable, or a list; `during` may stand before it.
pub fn when(cursor: &mut Cursor, kind: Kind) -> Result<Option<When>, Fault> {
    let during = cursor.take("during").is_some();
    if cursor.take("always").is_some() {
        return Ok(Some(When::Constant(kind.top())));
    }
    if let Some(Word::Variable(name)) = cursor.peek(0) {
        cursor.word();
        return Ok(Some(When::Variable(name.clone())));
    }
    let line = cursor.line();
    let (items, side_by_side) = list(cursor, None)?;
    if let (Kind::Sheets(_), Some((left, right))) = (kind, side_by_side) {
        let between = "stands `+` if both are needed, a comma if either will do";
        return Err(Fault::new(line, format!("between {left} and {right} {between}")));
    }
    if items.is_empty() {
        let missing = format!("behind `during` stand {}, a ?variable or `always`", kind.example());
        return if during { Err(cursor.fault(missing)) } else { Ok(None) };
    }
    let judged = items.iter().try_for_each(|item| judge_item(item));
    let value = judged
        .and_then(|()| slips::judge_years(kind, &items))
        .and_then(|()| kind.value(&items))
        .map_err(|words| Fault::new(line, words))?;
    Ok(Some(When::Constant(value)))
}

fn judge_item(item: &str) -> Result<(), String> {
    match item {
        "always" => Err("`always` stands alone, with nothing before or behind it".to_string()),
        "during" => Err("`during` stands once, before all".to_string()),
        _ => judge_capitals(item),
    }
}

/// The words of a list, and the first two that stand side by side with nothing between them.
type List<'a> = (Vec<&'a str>, Option<(&'a str, &'a str)>);

/// The words up to the end of a list; a comma stands between two of them or not. A list can end at a
/// word of its own, which with a comma before it is one of the list.
fn list<'a>(cursor: &mut Cursor<'a>, end: Option<&str>) -> Result<List<'a>, Fault> {
    let mut items: Vec<&str> = Vec::new();
    let mut side_by_side = None;
    let mut is_apart = true;
    while let Some(item) = list_item(cursor, 0) {
        if !is_apart && end == Some(item) {
            break;
        }
        if let Some(last) = items.last().filter(|_| !is_apart) {
            let plus = last.ends_with('+') || item.starts_with('+');
            side_by_side = side_by_side.or((!plus).then_some((*last, item)));
        }
        items.push(item);
        cursor.word();
        is_apart = cursor.peek(0) == Some(&Word::Comma);
        if is_apart {
            if list_item(cursor, 1).is_none() {
                return Err(cursor.fault("something is missing behind the `,`"));
            }
            cursor.word();
        }
    }
    Ok((items, side_by_side))
}

fn list_item<'a>(cursor: &Cursor<'a>, ahead: usize) -> Option<&'a str> {
    match cursor.peek(ahead)? {
        Word::Plain(text) if !LIST_ENDS.contains(&text.as_str()) => Some(text),
        _ => None,
    }
}

/// A line of the book: subject, relation, object, and when it holds.
pub fn row(cursor: &mut Cursor, names: &mut Names, kind: Kind) -> Result<([u16; 3], u64), Fault> {
    let mut triple = [0; 3];
    for (number, role) in triple.iter_mut().zip(ROLES) {
        *number = match term(cursor, names, role)? {
            Slot::Constant(number) => number,
            Slot::Variable(name) => return Err(no_variable(cursor, &name)),
        };
    }
    let value = match when(cursor, kind)? {
        None => return Err(no_when(cursor, kind)),
        Some(When::Constant(value)) => value,
        Some(When::Variable(name)) => return Err(no_variable(cursor, &name)),
    };
    nothing_left(cursor)?;
    Ok((triple, value))
}

/// A year that was forgotten must not become every year.
fn no_when(cursor: &Cursor, kind: Kind) -> Fault {
    let missing = cursor.fault(format!("say when: {}, or `always`", kind.example()));
    nothing_left(cursor).err().unwrap_or(missing)
}

fn no_variable(cursor: &Cursor, name: &str) -> Fault {
    cursor
        .fault(format!("`?{name}` is a variable; only a question has them, and begins with `ask`"))
}

pub fn nothing_left(cursor: &Cursor) -> Result<(), Fault> {
    match cursor.peek(0) {
        None => Ok(()),
        Some(Word::Comma) => Err(cursor.fault(slips::COMMA)),
        Some(word) if LIST_ENDS.iter().any(|end| word.is(end)) => {
            let where_it_belongs = "belongs in questions; between years stands a comma";
            Err(cursor.fault(format!("{} {where_it_belongs}", word.shown())))
        }
        Some(word) => Err(cursor.fault(format!("{} is too much in this line", word.shown()))),
    }
}

/// The line that says the book's kind, and its rule set if it is not the first. Whether the first year
/// and the rule set are allowed is for the library to say.
pub fn head(cursor: &mut Cursor) -> Result<Head, Fault> {
    let line = cursor.line();
    cursor.word();
    let kinds = "the kinds are: years from 2000, sheets maker, importer, degree, strict";
    let kind = match cursor.word() {
        Some(word) if word.is("years") => Kind::Years { base: first_year(cursor)? },
        Some(word) if word.is("sheets") => Kind::Sheets(sheets(cursor)?),
        Some(word) if word.is("degree") => Kind::Degree,
        Some(word) if word.is("strict") => Kind::Strict,
        Some(word) => {
            return Err(Fault::new(line, format!("no kind is {}; {kinds}", word.shown())))
        }
        None => return Err(Fault::new(line, format!("the kind is missing; {kinds}"))),
    };
    let rules = rules(cursor)?;
    nothing_left(cursor)?;
    Ok(Head { kind, rules })
}

/// The sheets that a book names, up to its rule set.
fn sheets(cursor: &mut Cursor) -> Result<Sheets, Fault> {
    let line = cursor.line();
    let names = list(cursor, Some(RULES))?.0;
    let at = |words: String| Fault::new(line, words);
    let is_number = |name: &&str| whole_number::<u64>(name).is_some();
    if names.windows(2).any(|two| two[0] == RULES && is_number(&two[1])) {
        let words = "the sheets come first, and no comma before `rules`: kind sheets maker, importer rules 2";
        return Err(at(words.to_string()));
    }
    Sheets::of(&names).map_err(at)
}

/// The word for a rule set in a book's first line.
const RULES: &str = "rules";

/// The rule set, if the line says one.
fn rules(cursor: &mut Cursor) -> Result<u8, Fault> {
    if let Some(Word::Plain(text)) = cursor.peek(0).filter(|word| !word.is(RULES)) {
        let meant = near::meant(text, [RULES].into_iter()).is_some();
        let words = format!("`{text}` is too much in this line; is `rules 2` meant?");
        return if meant { Err(cursor.fault(words)) } else { Ok(BASIC) };
    }
    if cursor.take(RULES).is_none() {
        return Ok(BASIC);
    }
    let missing = cursor.fault("behind `rules` stands the number of a rule set, 1 or 2");
    match cursor.word() {
        Some(Word::Plain(number)) => whole_number(number).ok_or_else(|| {
            let words = format!("`{number}` is no rule set: there are rules 1 and rules 2");
            Fault::new(missing.line, words)
        }),
        _ => Err(missing),
    }
}

fn first_year(cursor: &mut Cursor) -> Result<u16, Fault> {
    let fault = cursor.fault("the first year is missing or no year: kind years from 2000");
    cursor.take("from").ok_or_else(|| fault.clone())?;
    match cursor.word() {
        Some(Word::Plain(year)) => whole_number(year).ok_or(fault),
        _ => Err(fault),
    }
}
