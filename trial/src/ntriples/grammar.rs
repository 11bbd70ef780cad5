//! The grammar of N-Triples, production by production, on the characters of one line.
//!
//! A production takes what it matches from the cursor and says what that means; if it answers
//! none, the line is no N-Triples. The next character always decides between alternatives, so
//! nothing is tried twice, and a terminal is the longest match (N4).

use super::character;
use super::text::{Tail, Text};

/// N2: what a line is.
#[derive(Clone, Debug, PartialEq, Eq)]
pub enum Line {
    Empty,
    Triple([Text; 3]),
    /// 26.
    Wrong,
}

/// The lines of a file with their first bytes (N1): the longest runs of bytes other than CR and
/// LF. An empty run is no line.
pub fn lines(file: &[u8]) -> Vec<(usize, &[u8])> {
    let mut lines = Vec::new();
    let mut place = 0;
    for run in file.split(|byte| matches!(byte, b'\r' | b'\n')) {
        if !run.is_empty() {
            lines.push((place, run));
        }
        place += run.len() + 1;
    }
    lines
}

/// Judges the bytes of one line. Bytes that are no UTF-8 make it wrong wherever they stand (N8).
pub fn line(bytes: &[u8]) -> Line {
    let Some(chars) = characters(bytes) else {
        return Line::Wrong;
    };
    let cursor = &mut Cursor::new(&chars);
    white_space(cursor);
    if rest(cursor).is_some() {
        return Line::Empty;
    }
    match triple(cursor).filter(|_| rest(cursor).is_some()) {
        Some(triple) => Line::Triple(triple),
        None => Line::Wrong,
    }
}

/// The characters of bytes that are UTF-8 (RFC 3629): no overlong form, no surrogate, none above
/// 10FFFF, nothing cut.
pub fn characters(bytes: &[u8]) -> Option<Vec<char>> {
    std::str::from_utf8(bytes).ok().map(|text| text.chars().collect())
}

/// Characters, and how many of them are taken.
struct Cursor<'a> {
    chars: &'a [char],
    at: usize,
}

impl<'a> Cursor<'a> {
    fn new(chars: &'a [char]) -> Cursor<'a> {
        Cursor { chars, at: 0 }
    }

    /// The next character, not taken.
    fn peek(&self) -> Option<char> {
        self.chars.get(self.at).copied()
    }

    /// Takes one character of a class.
    fn one(&mut self, class: impl Fn(char) -> bool) -> Option<char> {
        let one = self.peek().filter(|one| class(*one))?;
        self.at += 1;
        Some(one)
    }

    /// Takes exactly this character.
    fn this(&mut self, wanted: char) -> Option<char> {
        self.one(|one| one == wanted)
    }

    /// Takes the longest run of characters of a class; it may be empty.
    fn run(&mut self, class: impl Fn(char) -> bool) -> String {
        let mut run = String::new();
        while let Some(one) = self.one(&class) {
            run.push(one);
        }
        run
    }

    /// What a production gives that takes every character.
    fn whole<T>(mut self, production: impl Fn(&mut Cursor) -> Option<T>) -> Option<T> {
        production(&mut self).filter(|_| self.peek().is_none())
    }
}

/// White space, perhaps none.
fn white_space(cursor: &mut Cursor) {
    cursor.run(character::white_space);
}

/// White space, then perhaps a comment, then the end of the line. Takes nothing else.
fn rest(cursor: &mut Cursor) -> Option<()> {
    white_space(cursor);
    if cursor.peek() == Some('#') {
        cursor.run(|one| !character::eol(one));
    }
    match cursor.peek() {
        None => Some(()),
        Some(_) => None,
    }
}

/// `triple ::= subject predicate object '.'`, with white space or none between them.
fn triple(cursor: &mut Cursor) -> Option<[Text; 3]> {
    let subject = subject(cursor)?;
    white_space(cursor);
    let predicate = predicate(cursor)?;
    white_space(cursor);
    let object = object(cursor)?;
    white_space(cursor);
    cursor.this('.')?;
    Some([subject, predicate, object])
}

/// `subject ::= IRIREF | BLANK_NODE_LABEL`
fn subject(cursor: &mut Cursor) -> Option<Text> {
    match cursor.peek()? {
        '<' => iriref(cursor).map(Text::name),
        '_' => blank_node_label(cursor).map(Text::blank),
        _ => None,
    }
}

/// `predicate ::= IRIREF`
fn predicate(cursor: &mut Cursor) -> Option<Text> {
    iriref(cursor).map(Text::name)
}

/// `object ::= IRIREF | BLANK_NODE_LABEL | literal`
fn object(cursor: &mut Cursor) -> Option<Text> {
    match cursor.peek()? {
        '"' => literal(cursor),
        _ => subject(cursor),
    }
}

/// `literal ::= STRING_LITERAL_QUOTE ('^^' IRIREF | LANGTAG)?`, with white space or none between
/// the three (N5). White space behind a string alone is that before the dot.
fn literal(cursor: &mut Cursor) -> Option<Text> {
    let string = string_literal_quote(cursor)?;
    white_space(cursor);
    let tail = match cursor.peek() {
        Some('@') => Tail::Tag(langtag(cursor)?),
        Some('^') => {
            cursor.this('^')?;
            cursor.this('^')?;
            white_space(cursor);
            Tail::Datatype(iriref(cursor)?)
        }
        _ => Tail::None,
    };
    Some(Text::literal(&string, &tail))
}

/// `LANGTAG ::= '@' [a-zA-Z]+ ('-' [a-zA-Z0-9]+)*`: the tag without its mark.
fn langtag(cursor: &mut Cursor) -> Option<String> {
    cursor.this('@')?;
    let mut tag = several(cursor, |one| one.is_ascii_alphabetic())?;
    while cursor.this('-').is_some() {
        tag.push('-');
        tag.push_str(&several(cursor, |one| one.is_ascii_alphanumeric())?);
    }
    Some(tag)
}

/// One character of a class or more.
fn several(cursor: &mut Cursor, class: impl Fn(char) -> bool) -> Option<String> {
    Some(cursor.run(class)).filter(|run| !run.is_empty())
}

/// ``IRIREF ::= '<' ([^#x00-#x20<>"{}|^`\] | UCHAR)* '>'``: the IRI, its escapes resolved. It is
/// judged after that: the characters of N10, and absolute.
fn iriref(cursor: &mut Cursor) -> Option<String> {
    cursor.this('<')?;
    let mut iri = String::new();
    while cursor.peek()? != '>' {
        iri.push(match cursor.peek()? {
            '\\' => uchar(cursor)?,
            _ => cursor.one(character::in_iri)?,
        });
    }
    cursor.this('>')?;
    Some(iri).filter(|iri| iri_legal(iri))
}

/// `STRING_LITERAL_QUOTE ::= '"' ([^#x22#x5C#xA#xD] | ECHAR | UCHAR)* '"'`: the characters, their
/// escapes resolved.
fn string_literal_quote(cursor: &mut Cursor) -> Option<String> {
    cursor.this('"')?;
    let mut string = String::new();
    while cursor.peek()? != '"' {
        string.push(match cursor.peek()? {
            '\\' => echar_or_uchar(cursor)?,
            _ => cursor.one(character::in_string)?,
        });
    }
    cursor.this('"')?;
    Some(string)
}

/// The character behind the backslash decides.
fn echar_or_uchar(cursor: &mut Cursor) -> Option<char> {
    match cursor.chars.get(cursor.at + 1)? {
        'u' | 'U' => uchar(cursor),
        _ => {
            cursor.this('\\')?;
            let letter = cursor.one(|one| character::echar(one).is_some())?;
            character::echar(letter)
        }
    }
}

/// `UCHAR ::= '\u' HEX HEX HEX HEX | '\U' HEX HEX HEX HEX HEX HEX HEX HEX`. It gives a Unicode
/// scalar value or nothing (N9).
fn uchar(cursor: &mut Cursor) -> Option<char> {
    cursor.this('\\')?;
    let digits = match cursor.one(|one| one == 'u' || one == 'U')? {
        'u' => 4,
        _ => 8,
    };
    let mut value = 0;
    for _ in 0..digits {
        value = value * 16 + cursor.one(character::hex)?.to_digit(16)?;
    }
    char::from_u32(value)
}

/// `BLANK_NODE_LABEL ::= '_:' (PN_CHARS_U | [0-9]) ((PN_CHARS | '.')* PN_CHARS)?`: the label
/// without its mark.
fn blank_node_label(cursor: &mut Cursor) -> Option<String> {
    cursor.this('_')?;
    cursor.this(':')?;
    label(cursor)
}

/// What stands behind `_:`: the longest run, its trailing dots given back (N4).
fn label(cursor: &mut Cursor) -> Option<String> {
    let first = cursor.one(|one| character::pn_chars_u(one) || one.is_ascii_digit())?;
    let run = cursor.run(|one| character::pn_chars(one) || one == '.');
    let kept = run.trim_end_matches('.');
    cursor.at -= run.len() - kept.len();
    Some(format!("{first}{kept}"))
}

/// N10 and N11: the characters of an IRI, and absolute. Escapes are resolved already.
pub fn iri_legal(iri: &str) -> bool {
    iri.chars().all(character::in_iri) && absolute(iri)
}

/// N11: a letter, then letters, digits, '+', '-', '.', then ':'.
fn absolute(iri: &str) -> bool {
    let Some((scheme, _)) = iri.split_once(':') else {
        return false;
    };
    let inner = |one: char| one.is_ascii_alphanumeric() || matches!(one, '+' | '-' | '.');
    scheme.starts_with(|one: char| one.is_ascii_alphabetic()) && scheme.chars().all(inner)
}

/// Whether all of these characters are one label.
pub fn label_legal(chars: &[char]) -> bool {
    Cursor::new(chars).whole(label).is_some()
}

/// The text of the literal that all of these characters are, in whatever spelling.
pub fn whole_literal(chars: &[char]) -> Option<Text> {
    Cursor::new(chars).whole(literal)
}
