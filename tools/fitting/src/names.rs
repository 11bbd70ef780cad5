//! Texts to terms and back. The five words are names 0 to 4; other names are numbered from 5,
//! blanks and literals each from 0: as they are first met, or in the order of the names.

use crate::{literal, order, value, words};
use std::collections::HashMap;

/// The text's words for sp, sc, type, dom and range, in the order of their numbers.
pub const FIVE_WORDS: [&str; 5] = ["implies", "within", "is", "from", "to"];

/// The same as RDF names them, where a name is written out.
pub const FIVE_IRIS: [&str; 5] = [
    "http://www.w3.org/2000/01/rdf-schema#subPropertyOf",
    "http://www.w3.org/2000/01/rdf-schema#subClassOf",
    "http://www.w3.org/1999/02/22-rdf-syntax-ns#type",
    "http://www.w3.org/2000/01/rdf-schema#domain",
    "http://www.w3.org/2000/01/rdf-schema#range",
];

/// Terms of one sort.
const MOST: usize = 1 << 14;

/// A term's top two bits; where both are set it is a value and has no text to be kept.
#[derive(Clone, Copy, Debug, PartialEq, Eq, Hash)]
pub enum Sort {
    Name,
    Blank,
    Literal,
}

const SORTS: [Sort; 3] = [Sort::Name, Sort::Blank, Sort::Literal];

/// The texts of terms. A name's is the plain word, or an IRI in its `<` and `>`; a blank's is its
/// label; a literal's is what `literal` keeps of it.
pub struct Names {
    numbers: HashMap<(Sort, String), u16>,
    texts: [Vec<String>; 3],
}

impl Default for Names {
    fn default() -> Names {
        let mut names = Names { numbers: HashMap::new(), texts: Default::default() };
        for word in FIVE_WORDS {
            names.enter(Sort::Name, word);
        }
        names
    }
}

impl Names {
    /// The term of this text, a new one if the text is new.
    pub fn term(&mut self, sort: Sort, text: &str) -> Result<u16, String> {
        if let Some(number) = self.numbers.get(&(sort, text.to_string())) {
            return Ok(*number);
        }
        if self.texts[sort as usize].len() == MOST {
            return Err(format!(
                "{} is one {} too many: a text has at most {}",
                sort.written(text),
                sort.word(),
                sort.most()
            ));
        }
        Ok(self.enter(sort, text))
    }

    /// The term of an IRI; the five have their words.
    pub fn iri(&mut self, iri: &str) -> Result<u16, String> {
        match FIVE_IRIS.iter().position(|known| *known == iri) {
            Some(number) => Ok(number as u16),
            None => self.term(Sort::Name, &format!("<{iri}>")),
        }
    }

    fn enter(&mut self, sort: Sort, text: &str) -> u16 {
        let texts = &mut self.texts[sort as usize];
        let number = (sort as u16) << 14 | texts.len() as u16;
        texts.push(text.to_string());
        self.numbers.insert((sort, text.to_string()), number);
        number
    }

    /// The same texts, numbered in the order of the names.
    pub fn in_order(&self) -> Names {
        let mut names = Names::default();
        for sort in SORTS {
            let mut texts: Vec<&String> = self.texts[sort as usize].iter().collect();
            texts.sort_by(|left, right| order::compare(left, right));
            let new = |text: &&String| sort != Sort::Name || !FIVE_WORDS.contains(&text.as_str());
            for text in texts.into_iter().filter(new) {
                names.enter(sort, text);
            }
        }
        names
    }

    /// The term as the text writes it, if the text has it.
    pub fn text(&self, term: u16) -> Option<String> {
        if let Some(value) = value::of(term) {
            return Some(value::written(value));
        }
        let (sort, text) = self.kept(term)?;
        Some(sort.written(text))
    }

    /// The term's sort and its text as it is kept.
    pub fn kept(&self, term: u16) -> Option<(Sort, &str)> {
        let sort = Sort::of(term)?;
        let text = self.texts[sort as usize].get(usize::from(term) % MOST)?;
        Some((sort, text))
    }

    /// Every term but the five.
    pub fn terms(&self) -> impl Iterator<Item = u16> + '_ {
        let of = |sort: Sort| {
            (0..self.texts[sort as usize].len()).map(move |at| (sort as u16) << 14 | at as u16)
        };
        SORTS.into_iter().flat_map(of).filter(|term| usize::from(*term) >= FIVE_WORDS.len())
    }
}

impl Sort {
    pub fn of(term: u16) -> Option<Sort> {
        SORTS.get(usize::from(term >> 14)).copied()
    }

    fn word(self) -> &'static str {
        match self {
            Sort::Name => "name",
            Sort::Blank => "blank",
            Sort::Literal => "quoted text",
        }
    }

    /// How many a text can have of its own.
    fn most(self) -> usize {
        match self {
            Sort::Name => MOST - FIVE_WORDS.len(),
            Sort::Blank | Sort::Literal => MOST,
        }
    }

    pub fn written(self, text: &str) -> String {
        match self {
            Sort::Name => match iri_of(text) {
                Some(iri) => literal::written_iri(iri),
                None => text.to_string(),
            },
            Sort::Blank => format!("_{text}"),
            Sort::Literal => literal::written(text),
        }
    }
}

/// The IRI of a kept name that is one.
pub fn iri_of(text: &str) -> Option<&str> {
    text.strip_prefix('<')?.strip_suffix('>')
}

/// A plain word that may be a name: no word of the text form, and no number.
pub fn is_name(text: &str) -> bool {
    let is_value = !matches!(value::read(text), Ok(None));
    words::is_plain(text) && !is_value && crate::statement::judge_name(text).is_ok()
}

#[cfg(test)]
mod tests {
    use super::*;

    #[test]
    fn numbers_by_the_order_of_the_names() {
        let mut names = Names::default();
        for name in ["led", "lamp-12", "is", "lamp-7", "<m:a>"] {
            names.term(Sort::Name, name).unwrap();
        }
        names.term(Sort::Literal, "\"van 31\"").unwrap();
        names.term(Sort::Blank, "b").unwrap();
        let ordered = names.in_order();
        let written: Vec<String> = ordered.terms().filter_map(|term| ordered.text(term)).collect();
        assert_eq!(written, ["<m:a>", "lamp-7", "lamp-12", "led", "_b", "\"van 31\""]);
        assert_eq!(ordered.text(2).as_deref(), Some("is"));
        assert_eq!(ordered.text(5).as_deref(), Some("<m:a>"));
        assert_eq!((ordered.text(9), ordered.text(65_535)), (None, None));
    }

    #[test]
    fn the_five_are_their_words_in_either_spelling() {
        let mut names = Names::default();
        assert_eq!(names.iri(FIVE_IRIS[2]), Ok(2));
        assert_eq!(names.term(Sort::Name, "is"), Ok(2));
        assert_eq!(names.iri("m:a"), Ok(5));
        assert_eq!(names.term(Sort::Name, "<m:a>"), Ok(5));
    }

    #[test]
    fn words_that_may_be_names() {
        for name in ["lamp-7", "Rücklicht", "電球", "a#b", "7a"] {
            assert!(is_name(name), "{name}");
        }
        for other in [
            "500mA",
            "20000mA",
            "",
            "a b",
            "a,b",
            "2005",
            "kind",
            "type",
            "?x",
            "_x",
            "#a",
            "<a>",
            "a;b",
            "a\u{200C}",
            "\"a\"",
            "Is",
        ] {
            assert!(!is_name(other), "{other}");
        }
    }
}
