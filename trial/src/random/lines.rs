//! Lines of N-Triples: valid ones in every spelling, together with the texts they mean, and lines
//! that are spoiled. What a line means is said here from its making, not by reading it.

use super::Random;
use crate::ntriples::text::{Sort, Tail, Text, FIVE, XSD_STRING};

/// A term before it is spelled.
#[derive(Clone, Debug, PartialEq, Eq)]
pub enum Term {
    Name(String),
    Blank(String),
    Literal(String, Tail),
}

/// A line's bytes and the triple that it means; an empty line means none.
#[derive(Clone, Debug, PartialEq, Eq)]
pub struct Said {
    pub bytes: Vec<u8>,
    pub means: Option<[Text; 3]>,
}

/// So few that they meet again; the last ones hold what only an IRI of this grammar may.
const IRIS: [&str; 14] = [
    "m:a",
    "m:b",
    "m:c",
    "m:p",
    "m:p",
    "m:q",
    "a:",
    "M:a",
    "m:\u{E9}",
    "x.y+z-1:#?[%zz]",
    "m:\u{7F}\u{80}\u{FEFF}\u{FFFF}",
    "urn:\u{1F600}\u{10FFFF}",
    "http://lamps.example/tail/led#7",
    XSD_STRING,
];

/// Nearly one of the five.
const NEAR_FIVE: [&str; 5] = [
    "http://www.w3.org/2000/01/rdf-schema#subClass",
    "http://www.w3.org/2000/01/rdf-schema#subclassOf",
    "http://www.w3.org/1999/02/22-rdf-syntax-ns#types",
    "http://www.w3.org/2000/01/rdf-schema%23range",
    "https://www.w3.org/2000/01/rdf-schema#domain",
];

const DATATYPES: [&str; 7] = [
    XSD_STRING,
    XSD_STRING,
    "http://www.w3.org/2001/XMLSchema#strin",
    "http://www.w3.org/2001/XMLSchema#stringy",
    "m:d",
    "d:\u{E9}",
    "http://www.w3.org/1999/02/22-rdf-syntax-ns#langString",
];

const TAGS: [&str; 7] = ["en", "EN", "en-GB", "de", "x-1a-2B", "a-b-c", "de-1996"];

const LABELS: [&str; 12] =
    ["a", "b", "b0", "0", "9.9", "a.b", "a..b", ":", "a:b:", "_-", "m:a", "\u{FEFF}\u{B7}"];

/// Characters at the edges of the label's ranges that may begin one.
const LABEL_FIRST: [char; 30] = [
    'A',
    'Z',
    'a',
    'z',
    '_',
    ':',
    '0',
    '9',
    '\u{C0}',
    '\u{D6}',
    '\u{D8}',
    '\u{F6}',
    '\u{F8}',
    '\u{2FF}',
    '\u{370}',
    '\u{37D}',
    '\u{37F}',
    '\u{1FFF}',
    '\u{200C}',
    '\u{200D}',
    '\u{2070}',
    '\u{218F}',
    '\u{2C00}',
    '\u{2FEF}',
    '\u{3001}',
    '\u{D7FF}',
    '\u{F900}',
    '\u{FDCF}',
    '\u{FDF0}',
    '\u{EFFFF}',
];

/// Characters that may only follow; a dot not as the last one.
const LABEL_LATER: [char; 10] = [
    '-',
    '\u{B7}',
    '\u{300}',
    '\u{36F}',
    '\u{203F}',
    '\u{2040}',
    '.',
    '.',
    '\u{FFFD}',
    '\u{10000}',
];

/// Neighbours of those ranges, which no label holds, and others that end one.
pub const NO_LABEL: [char; 20] = [
    '\u{BF}',
    '\u{D7}',
    '\u{F7}',
    '\u{37E}',
    '\u{2000}',
    '\u{200E}',
    '\u{203E}',
    '\u{2041}',
    '\u{206F}',
    '\u{2190}',
    '\u{2BFF}',
    '\u{2FF0}',
    '\u{3000}',
    '\u{E000}',
    '\u{FDD0}',
    '\u{FFFE}',
    '\u{F0000}',
    '/',
    '@',
    '\\',
];

/// What strings and comments hold.
const CHARACTERS: [char; 34] = [
    'a',
    'b',
    'x',
    'A',
    '0',
    ' ',
    '#',
    '.',
    '<',
    '>',
    '@',
    '^',
    '\'',
    '"',
    '\\',
    '\n',
    '\r',
    '\t',
    '\u{8}',
    '\u{C}',
    '\0',
    '\u{1}',
    '\u{1F}',
    '\u{7F}',
    '\u{80}',
    '\u{85}',
    '\u{E9}',
    '\u{7FF}',
    '\u{2028}',
    '\u{D7FF}',
    '\u{FEFF}',
    '\u{FFFE}',
    '\u{FFFF}',
    '\u{1F600}',
];

/// What IRIs hold behind their scheme.
const IRI_CHARACTERS: [char; 24] = [
    'a',
    'Z',
    '0',
    '/',
    ':',
    '#',
    '?',
    '%',
    '[',
    '&',
    '\'',
    '!',
    '~',
    '_',
    '\u{7F}',
    '\u{80}',
    '\u{A0}',
    '\u{7FF}',
    '\u{800}',
    '\u{E000}',
    '\u{FEFF}',
    '\u{FFFF}',
    '\u{10000}',
    '\u{10FFFF}',
];

fn string_of(random: &mut Random, most: usize, from: &[char]) -> String {
    (0..random.below(most + 1)).map(|_| random.pick(from)).collect()
}

/// An absolute IRI, one of the five among them.
pub fn iri(random: &mut Random) -> String {
    match random.below(10) {
        0 | 1 => random.pick(&FIVE).to_string(),
        2 => random.pick(&NEAR_FIVE).to_string(),
        3 => {
            let scheme = random.pick(&["a", "Zz9", "m", "x+y", "h-.", "urn"]);
            format!("{scheme}:{}", string_of(random, 6, &IRI_CHARACTERS))
        }
        _ => random.pick(&IRIS).to_string(),
    }
}

/// A label, often with dots inside it.
pub fn label(random: &mut Random) -> String {
    if !random.chance(3) {
        return random.pick(&LABELS).to_string();
    }
    let mut label = String::from(random.pick(&LABEL_FIRST));
    for _ in 0..random.below(5) {
        let from: &[char] = if random.chance(2) { &LABEL_FIRST } else { &LABEL_LATER };
        label.push(random.pick(from));
    }
    label.trim_end_matches('.').to_string()
}

fn literal(random: &mut Random) -> Term {
    let string = match random.below(4) {
        0 => string_of(random, 8, &CHARACTERS),
        1 => String::new(),
        _ => random.pick(&["x", "x", "xA\t", "5 W", "1", "01"]).to_string(),
    };
    let tail = match random.below(3) {
        0 => Tail::Tag(random.pick(&TAGS).to_string()),
        1 => Tail::Datatype(random.pick(&DATATYPES).to_string()),
        _ => Tail::None,
    };
    Term::Literal(string, tail)
}

fn subject(random: &mut Random) -> Term {
    match random.below(3) {
        0 => Term::Blank(label(random)),
        _ => Term::Name(iri(random)),
    }
}

/// Subject, predicate and object of one triple.
pub fn terms(random: &mut Random) -> [Term; 3] {
    let predicate = Term::Name(iri(random));
    let object = if random.chance(2) { literal(random) } else { subject(random) };
    [subject(random), predicate, object]
}

/// A term of a sort.
pub fn term_of(random: &mut Random, sort: Sort) -> Term {
    match sort {
        Sort::Name => Term::Name(iri(random)),
        Sort::Blank => Term::Blank(label(random)),
        Sort::Literal => literal(random),
    }
}

/// The text that a term has, whatever its spelling.
pub fn text(term: &Term) -> Text {
    match term {
        Term::Name(iri) => Text { sort: Sort::Name, bytes: iri.clone().into_bytes() },
        Term::Blank(label) => Text { sort: Sort::Blank, bytes: label.clone().into_bytes() },
        Term::Literal(string, tail) => {
            let inner = string.replace('\\', "\\\\").replace('"', "\\\"");
            let inner = inner.replace('\n', "\\n").replace('\r', "\\r");
            let tail = match tail {
                Tail::None => String::new(),
                Tail::Tag(tag) => format!("@{tag}"),
                Tail::Datatype(iri) if iri == XSD_STRING => String::new(),
                Tail::Datatype(iri) => format!("^^<{iri}>"),
            };
            Text { sort: Sort::Literal, bytes: format!("\"{inner}\"{tail}").into_bytes() }
        }
    }
}

/// A character as `\u` or `\U`, its digits in either case.
fn uchar(random: &mut Random, one: char) -> String {
    let number = u32::from(one);
    let short = number <= 0xFFFF && !random.chance(3);
    let digits = if short { format!("{number:04x}") } else { format!("{number:08x}") };
    let mut spelled = String::from(if short { "\\u" } else { "\\U" });
    for digit in digits.chars() {
        spelled.push(if random.chance(2) { digit.to_ascii_uppercase() } else { digit });
    }
    spelled
}

/// The letter of a character's ECHAR, if it has one.
fn echar(one: char) -> Option<char> {
    let pairs = [('\t', 't'), ('\u{8}', 'b'), ('\n', 'n'), ('\r', 'r'), ('\u{C}', 'f')];
    let letter = pairs.iter().find(|pair| pair.0 == one).map(|pair| pair.1);
    letter.or(Some(one).filter(|one| "\"'\\".contains(*one)))
}

/// How often an escape is taken where none is needed: never, or once in so many characters.
fn rate(random: &mut Random) -> usize {
    random.pick(&[0, 0, 0, 1, 2, 6])
}

fn spelled_iri(random: &mut Random, iri: &str) -> String {
    let rate = rate(random);
    let mut spelled = String::from("<");
    for one in iri.chars() {
        match rate > 0 && random.chance(rate) {
            true => spelled.push_str(&uchar(random, one)),
            false => spelled.push(one),
        }
    }
    spelled + ">"
}

fn spelled_string(random: &mut Random, string: &str) -> String {
    let rate = rate(random);
    let mut spelled = String::from("\"");
    for one in string.chars() {
        let needed = "\"\\\n\r".contains(one);
        let escaped = needed || (rate > 0 && random.chance(rate));
        match echar(one) {
            _ if !escaped => spelled.push(one),
            Some(letter) if !random.chance(3) => spelled.extend(['\\', letter]),
            _ => spelled.push_str(&uchar(random, one)),
        }
    }
    spelled + "\""
}

/// White space where it may be absent; mostly one blank.
fn gap(random: &mut Random) -> &'static str {
    random.pick(&[" ", " ", " ", " ", "", "", "\t", "  ", " \t ", "\t\t"])
}

/// White space inside a literal; mostly none.
fn inner_gap(random: &mut Random) -> &'static str {
    random.pick(&["", "", "", "", "", " ", "\t", "  \t"])
}

/// One of a term's spellings.
pub fn spelled(random: &mut Random, term: &Term) -> String {
    match term {
        Term::Name(iri) => spelled_iri(random, iri),
        Term::Blank(label) => format!("_:{label}"),
        Term::Literal(string, tail) => {
            let string = spelled_string(random, string) + inner_gap(random);
            match tail {
                Tail::None => string,
                Tail::Tag(tag) => format!("{string}@{tag}"),
                Tail::Datatype(iri) => {
                    let gap = inner_gap(random);
                    format!("{string}^^{gap}{}", spelled_iri(random, iri))
                }
            }
        }
    }
}

/// A comment of any characters, or none.
fn comment(random: &mut Random) -> String {
    match random.below(6) {
        0 => {
            let text = string_of(random, 9, &CHARACTERS);
            format!("#{}", text.replace(['\r', '\n'], "\0"))
        }
        1 => random.pick(&["#", "# lamp 7", "# <m:a> <m:p> <m:b> .", "#.", "#\u{FEFF}"]).into(),
        _ => String::new(),
    }
}

/// A line with this triple in one of its spellings.
pub fn line_of(random: &mut Random, terms: &[Term; 3]) -> Said {
    let mut line = String::from(random.pick(&["", "", "", "", " ", "\t "]));
    for term in terms {
        line += &spelled(random, term);
        line += gap(random);
    }
    line += ".";
    line += random.pick(&["", "", "", " ", "\t"]);
    line += &comment(random);
    let means = terms.each_ref().map(text);
    Said { bytes: line.into_bytes(), means: Some(means) }
}

/// A line with a triple.
pub fn triple(random: &mut Random) -> Said {
    let terms = terms(random);
    line_of(random, &terms)
}

/// A line with none: white space, a comment, or nothing at all.
pub fn empty(random: &mut Random) -> Said {
    let bytes = format!("{}{}", gap(random), comment(random)).into_bytes();
    Said { bytes, means: None }
}

/// Lines that miss being N-Triples by little.
pub const WRONG: [&str; 54] = [
    ".",
    "x",
    "<",
    "_",
    "\"",
    "\\",
    "<m:s>",
    "<m:s> <m:p>",
    "<m:s> <m:p> <m:o>",
    "<m:s> <m:p> .",
    "<m:s> <m:p> <m:o> . .",
    "<m:s> <m:p> <m:o> . <m:s> <m:p> <m:o> .",
    "<m:s> <m:p> <m:o> <m:g> .",
    "<m:s> <m:p> <m:o> # .",
    "<m:s> <m:p> <m:o> ; <m:q> <m:o> .",
    "<m:s> <m:p> \u{A0}<m:o> .",
    "<m:s> <m:p> <m:o> .\u{C}",
    "\u{FEFF}<m:s> <m:p> <m:o> .",
    "\u{FEFF}# x",
    "\"x\" <m:p> <m:o> .",
    "<m:s> _:p <m:o> .",
    "<m:s> \"p\" <m:o> .",
    "<m:s> a <m:o> .",
    "@prefix m: <m:> .",
    "<m:s> <m:p> 'x' .",
    "<m:s> <m:p> \"\"\"x\"\"\" .",
    "<m:s> <m:p> 1 .",
    "<m:s> <m:p> _:a..",
    "<m:s> <m:p> _:a. .",
    "<m:s> <m:p> _:-a .",
    "<m:s> <m:p> _: .",
    "<m:s> <m:p> _ :a .",
    "<m:s> <m:p> _:a\\u0041 .",
    "<m:s> <m:p> \"x\"@ .",
    "<m:s> <m:p> \"x\"@1 .",
    "<m:s> <m:p> \"x\"@en- .",
    "<m:s> <m:p> \"x\"@en--a .",
    "<m:s> <m:p> \"x\"@en_GB .",
    "<m:s> <m:p> \"x\"^^ .",
    "<m:s> <m:p> \"x\"^<m:d> .",
    "<m:s> <m:p> \"x\"^^<d> .",
    "<m:s> <m:p> \"x\"^^_:d .",
    "<m:s> <m:p> \"x\"@en^^<m:d> .",
    "<m:s> <m:p> \"\\x41\" .",
    "<m:s> <m:p> \"\\a\" .",
    "<m:s> <m:p> \"\\u004g\" .",
    "<m:s> <m:p> \"\\uD83D\\uDE00\" .",
    "<m:s> <m:p> \"\\U00110000\" .",
    "<m:s> <m:p> <m:\\u0020> .",
    "<m:s> <m:p> <m:\\U0000003e> .",
    "<m:s> <m:p> <m:\\t> .",
    "<m:s> <m:p> <m:a b> .",
    "<m:s> <m:p> <o> .",
    "<m:s> <m:p> <9:o> .",
];

/// Bytes that are no UTF-8, between whatever characters they are put.
pub const NO_UTF8: [&[u8]; 22] = [
    b"\x80",
    b"\xBF",
    b"\xC3",
    b"\xC0\x80",
    b"\xC1\xBF",
    b"\xC3\xA9\x80",
    b"\xE2\x82",
    b"\xE2",
    b"\xE0\x80\x80",
    b"\xE0\x9F\xBF",
    b"\xED\xA0\x80",
    b"\xED\xBF\xBF",
    b"\xED\xA0\xBD\xED\xB8\x80",
    b"\xF0\x9F\x98",
    b"\xF0\x9F",
    b"\xF0",
    b"\xF0\x80\x80\x80",
    b"\xF0\x8F\xBF\xBF",
    b"\xF4\x90\x80\x80",
    b"\xF5\x80\x80\x80",
    b"\xFE",
    b"\xFF",
];

/// Bytes that mean something in a line, and some that never do.
const TOKENS: [u8; 34] = *b"<>\"\\@^_:.#- \t\r\n{}|`'uUtn09afA\0\x7F\x80\xC3\xE9";

/// A line with one byte changed, removed, doubled or put in, or cut there. It may still be valid.
pub fn mutated(random: &mut Random, line: &[u8]) -> Vec<u8> {
    let mut bytes = line.to_vec();
    let at = random.below(bytes.len());
    let byte = if random.chance(6) { random.draw() as u8 } else { random.pick(&TOKENS) };
    match (random.below(6), bytes.get(at).copied()) {
        (0, _) => bytes.truncate(at),
        (1, Some(_)) => {
            bytes.remove(at);
        }
        (2, Some(old)) => bytes.insert(at, old),
        (3, _) => bytes.insert(at, byte),
        (_, Some(_)) => bytes[at] = byte,
        (_, None) => bytes.push(byte),
    }
    bytes
}

/// A line with bytes put in at a place that make it no UTF-8.
pub fn damaged_at(line: &[u8], at: usize, damage: &[u8]) -> Vec<u8> {
    let (before, behind) = line.split_at(at.min(line.len()));
    [before, damage, behind].concat()
}

/// The same at any place of the line.
pub fn damaged(random: &mut Random, line: &[u8]) -> Vec<u8> {
    let (at, damage) = (random.below(line.len() + 1), random.below(NO_UTF8.len()));
    damaged_at(line, at, NO_UTF8.get(damage).copied().unwrap_or_default())
}

/// A line that holds a character where no label has it.
fn label_spoiled(random: &mut Random) -> Vec<u8> {
    let mut label = label(random);
    let places: Vec<usize> = label.char_indices().map(|(at, _)| at).collect();
    label.insert(random.pick(&places), random.pick(&NO_LABEL));
    format!("_:a <m:p> _:{label} .").into_bytes()
}

/// Tokens in no order.
fn rubbish(random: &mut Random) -> Vec<u8> {
    let parts =
        ["<m:a>", "_:b", "\"x\"", "@en", "^^", " ", ".", "#", "<", "\\u0041", "\t", "\u{E9}"];
    let parts: Vec<&str> = (0..random.below(9)).map(|_| random.pick(&parts)).collect();
    parts.concat().into_bytes()
}

/// A line that is most likely not N-Triples.
pub fn spoiled(random: &mut Random) -> Vec<u8> {
    match random.below(8) {
        0 => random.pick(&WRONG).as_bytes().to_vec(),
        1 => label_spoiled(random),
        2 => rubbish(random),
        3 | 4 => {
            let line = triple(random).bytes;
            damaged(random, &line)
        }
        _ => {
            let line = triple(random).bytes;
            mutated(random, &line)
        }
    }
}
