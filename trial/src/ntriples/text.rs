//! The texts of terms (L1), which of them are legal (L2), and the five that take no entry (L6).

use super::grammar;
use crate::term;

/// What a term is, by the top two bits of its number; a measured value is none of these, and
/// has no text.
#[derive(Clone, Copy, Debug, PartialEq, Eq, PartialOrd, Ord)]
pub enum Sort {
    Name,
    Blank,
    Literal,
}

impl Sort {
    pub const ALL: [Sort; 3] = [Sort::Name, Sort::Blank, Sort::Literal];

    pub fn of(number: u16) -> Option<Sort> {
        Sort::ALL.get(usize::from(term::sort(number))).copied()
    }

    /// The number that the first entry of this sort takes (R4).
    pub fn first(self) -> u16 {
        match self {
            Sort::Name => 5,
            Sort::Blank => 16_384,
            Sort::Literal => 32_768,
        }
    }
}

/// A sort and the bytes of a text. Equal terms are equal texts, and the other way round.
#[derive(Clone, Debug, PartialEq, Eq, PartialOrd, Ord)]
pub struct Text {
    pub sort: Sort,
    pub bytes: Vec<u8>,
}

/// What may stand behind a string.
#[derive(Clone, Debug, PartialEq, Eq)]
pub enum Tail {
    None,
    Tag(String),
    Datatype(String),
}

pub const XSD_STRING: &str = "http://www.w3.org/2001/XMLSchema#string";

/// The IRIs of the names 0 to 4.
pub const FIVE: [&str; 5] = [
    "http://www.w3.org/2000/01/rdf-schema#subPropertyOf",
    "http://www.w3.org/2000/01/rdf-schema#subClassOf",
    "http://www.w3.org/1999/02/22-rdf-syntax-ns#type",
    "http://www.w3.org/2000/01/rdf-schema#domain",
    "http://www.w3.org/2000/01/rdf-schema#range",
];

impl Text {
    /// A name's text is its IRI.
    pub fn name(iri: String) -> Text {
        Text { sort: Sort::Name, bytes: iri.into_bytes() }
    }

    /// A blank's text is its label.
    pub fn blank(label: String) -> Text {
        Text { sort: Sort::Blank, bytes: label.into_bytes() }
    }

    /// A literal's text is its canonical form, marks included. xsd:string is left out (N16).
    pub fn literal(string: &str, tail: &Tail) -> Text {
        let mut text = String::from("\"");
        for one in string.chars() {
            match one {
                '"' => text.push_str("\\\""),
                '\\' => text.push_str("\\\\"),
                '\n' => text.push_str("\\n"),
                '\r' => text.push_str("\\r"),
                _ => text.push(one),
            }
        }
        text.push('"');
        match tail {
            Tail::Tag(tag) => text.push_str(&format!("@{tag}")),
            Tail::Datatype(iri) if iri != XSD_STRING => text.push_str(&format!("^^<{iri}>")),
            Tail::Datatype(_) | Tail::None => {}
        }
        Text { sort: Sort::Literal, bytes: text.into_bytes() }
    }

    /// 0 to 4 if this is the text of one of the five.
    pub fn known(&self) -> Option<u16> {
        let at = FIVE.iter().position(|iri| iri.as_bytes() == self.bytes)?;
        u16::try_from(at).ok().filter(|_| self.sort == Sort::Name)
    }

    /// The text of a number from 0 to 4.
    pub fn of_known(number: u16) -> Option<Text> {
        FIVE.get(usize::from(number)).map(|iri| Text::name(iri.to_string()))
    }

    /// L2: legal for its sort, so that reading could give it.
    pub fn legal(&self) -> bool {
        let Some(chars) = grammar::characters(&self.bytes) else {
            return false;
        };
        match self.sort {
            Sort::Name => grammar::iri_legal(&chars.iter().collect::<String>()),
            Sort::Blank => grammar::label_legal(&chars),
            // In its canonical form it is its own text.
            Sort::Literal => grammar::whole_literal(&chars).is_some_and(|text| text == *self),
        }
    }

    /// The term as it is written, with its marks (W5).
    pub fn written(&self) -> Vec<u8> {
        match self.sort {
            Sort::Name => [b"<", &self.bytes[..], b">"].concat(),
            Sort::Blank => [b"_:", &self.bytes[..]].concat(),
            Sort::Literal => self.bytes.clone(),
        }
    }
}
