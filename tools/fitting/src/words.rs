//! One line of text into words.

use crate::letters::{is_odd_blank, is_unseen};
use crate::{literal, value};

#[derive(Clone, Debug, PartialEq, Eq)]
pub enum Word {
    /// A name, a number, a run of years, or a word of the text form.
    Plain(String),
    /// `<http://maker.example/lamp>`, without its marks.
    Iri(String),
    /// `?lamp`, without its mark.
    Variable(String),
    /// `_thing`, without its mark.
    Blank(String),
    /// `"12 volt"`, from its quote on, as N-Triples has it.
    Literal(String),
    /// `500 mA`.
    Value(u16),
    Comma,
    Open,
    Close,
}

/// A word and the line it stands in.
#[derive(Clone, Debug, PartialEq, Eq)]
pub struct Placed {
    pub word: Word,
    pub line: usize,
}

impl Word {
    pub fn is(&self, plain: &str) -> bool {
        matches!(self, Word::Plain(text) if text == plain)
    }

    /// The word as it stands in the text, for messages.
    pub fn shown(&self) -> String {
        match self {
            Word::Plain(text) => format!("`{text}`"),
            Word::Iri(text) => literal::written_iri(text),
            Word::Variable(text) => format!("`?{text}`"),
            Word::Blank(text) => format!("`_{text}`"),
            Word::Literal(text) => literal::written(text),
            Word::Value(value) => value::written(*value),
            Word::Comma => "`,`".to_string(),
            Word::Open => "`(`".to_string(),
            Word::Close => "`)`".to_string(),
        }
    }
}

/// A line or a question with more words is refused: none needs nearly as many.
pub const MOST_WORDS: usize = 10_000;

pub const TOO_LONG: &str =
    "this is too long: a line has a handful of words, and a question at most 32 parts";

/// The words of a line, up to a comment.
pub fn words(line: &str) -> Result<Vec<Word>, String> {
    if let Some(letter) = line.chars().find(|letter| is_unseen(*letter)) {
        return Err(unseen(letter));
    }
    let mut found = Vec::new();
    let mut rest = line.trim_start();
    while let Some(first) = rest.chars().next() {
        if first == '#' {
            break;
        }
        if found.len() == MOST_WORDS {
            return Err(TOO_LONG.to_string());
        }
        let (word, after) = match first {
            ',' => (Word::Comma, &rest[1..]),
            '(' => (Word::Open, &rest[1..]),
            ')' => (Word::Close, &rest[1..]),
            '"' => quoted(rest)?,
            '<' => literal::read_iri(rest)
                .and_then(|(iri, after)| Ok((Word::Iri(iri), ended(after, "`>`")?)))?,
            _ => match value::read(rest)? {
                Some((value, after)) => (Word::Value(value), after),
                None => plain(rest)?,
            },
        };
        found.push(word);
        rest = after.trim_start();
    }
    Ok(found)
}

fn unseen(letter: char) -> String {
    let code = letter as u32;
    match letter {
        '\r' => "a line end of an old Mac (CR) stands within this line: save the file with the line ends of your system".to_string(),
        _ => format!("there is a character here that cannot be seen: U+{code:04X}; take it out"),
    }
}

/// A quoted text, with its language or sort if it has one.
fn quoted(rest: &str) -> Result<(Word, &str), String> {
    let (text, after) = literal::read(rest)?;
    let after = ended(after, "a closing quote")
        .map_err(|words| format!("{words} (a quote within quotes is written \\\")"))?;
    Ok((Word::Literal(text), after))
}

/// What stands behind a closing mark, if that ends a word.
fn ended<'a>(after: &'a str, mark: &str) -> Result<&'a str, String> {
    if after.is_empty() || after.starts_with(ends_word) {
        return Ok(after);
    }
    Err(format!("behind {mark} stands a space"))
}

fn ends_word(letter: char) -> bool {
    letter.is_whitespace() || ",()".contains(letter)
}

fn plain(rest: &str) -> Result<(Word, &str), String> {
    let (text, after) = rest.split_at(rest.find(ends_word).unwrap_or(rest.len()));
    judge_letters(text)?;
    let word = match text.split_at(text.chars().next().map_or(0, char::len_utf8)) {
        ("?", name) => Word::Variable(variable(name)?),
        ("_", "") => return Err("a blank needs a name of its own: _a".to_string()),
        ("_", name) => Word::Blank(name.to_string()),
        _ => Word::Plain(text.to_string()),
    };
    Ok((word, after))
}

fn judge_letters(text: &str) -> Result<(), String> {
    if text.contains(['“', '”', '„', '‟', '«', '»']) {
        return Err(format!("{text}: use plain quotes, as in \"12 volt\""));
    }
    if text.contains('"') {
        return Err(format!("{text}: a quote stands at the beginning of a word only"));
    }
    if text.contains(';') {
        return Err(format!(
            "{text}: no semicolon is wanted: words stand apart by spaces, years by commas"
        ));
    }
    Ok(())
}

fn variable(name: &str) -> Result<String, String> {
    if name.is_empty() {
        return Err("a variable needs a name: ?lamp".to_string());
    }
    let fits = |letter: char| letter.is_alphanumeric() || "-_".contains(letter);
    if !name.chars().all(fits) {
        let why = "a variable's name has letters, digits, - and _ (put spaces around = and !=)";
        return Err(format!("?{name}: {why}"));
    }
    Ok(name.to_string())
}

/// Whether a text can stand as one plain word, read back as itself.
pub fn is_plain(text: &str) -> bool {
    let held = |letter: char| ends_word(letter) || is_unseen(letter) || is_odd_blank(letter);
    let begins = text.starts_with(['?', '_', '#', '<', '"']);
    !text.is_empty() && !begins && !text.contains(held) && judge_letters(text).is_ok()
}
