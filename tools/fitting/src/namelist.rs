//! Names lists as files: the numbers of terms and their texts, for the bytes of a book.

use crate::encoding;
use crate::input::Source;
use crate::names::{Names, FIVE_WORDS};
use crate::words::{words, Word};
use crate::{value, Fault, Faults};
use std::collections::HashMap;

/// One line each: number and text.
pub fn written(names: &Names) -> String {
    names.terms().filter_map(|term| Some(format!("{term} {}\n", names.text(term)?))).collect()
}

/// The texts of terms.
#[derive(Debug, Default)]
pub struct List(HashMap<u16, String>);

/// Reads a list; its texts are written as in a text.
pub fn read(source: &Source) -> Result<List, Faults> {
    let text = encoding::decoded(&source.bytes).map_err(Faults::one)?;
    let mut list = List::default();
    let mut faults = Faults::default();
    let mut texts: HashMap<String, usize> =
        FIVE_WORDS.into_iter().map(|word| (word.to_string(), 0)).collect();
    for (number, line) in (1..).zip(text.lines()) {
        match entry(line) {
            Ok(None) => {}
            Ok(Some((term, _))) if list.0.contains_key(&term) => {
                faults.add(Fault::new(number, format!("{term} has a name already")));
            }
            Ok(Some((term, text))) => match texts.insert(text.clone(), number) {
                Some(other) if other != number => faults.add(Fault::new(
                    number,
                    format!("{text} is the name of another number already"),
                )),
                _ => drop(list.0.insert(term, text)),
            },
            Err(words) => faults.add(Fault::new(number, words)),
        }
    }
    if faults.count() > 0 {
        Err(faults)
    } else {
        Ok(list)
    }
}

/// A line's number and text; nothing in an empty line.
fn entry(line: &str) -> Result<Option<(u16, String)>, String> {
    let wanted = "a line of a names list is a number and a name: 5 lamp-7";
    let found = words(line)?;
    let (number, text) = match &found[..] {
        [] => return Ok(None),
        [Word::Plain(number), text] => {
            (crate::annotation::whole_number::<u16>(number).ok_or(wanted)?, text)
        }
        _ => return Err(wanted.to_string()),
    };
    let (sort, written) = match text {
        Word::Plain(name) if crate::names::is_name(name) => (0, name.clone()),
        Word::Iri(_) => (0, text.shown()),
        Word::Blank(label) => (1, format!("_{label}")),
        Word::Literal(_) => (2, text.shown()),
        _ => return Err(format!("{} is not a name", text.shown())),
    };
    if number >> 14 != sort || usize::from(number) < FIVE_WORDS.len() {
        let sorts = "names are 5 to 16383, blanks (_a) 16384 to 32767, quoted texts 32768 to 49151";
        return Err(format!("{number} is not the number of {written}: {sorts}"));
    }
    Ok(Some((number, written)))
}

impl List {
    /// The term as a text writes it: by the list, else by its number, in a name that the list does
    /// not have.
    pub fn text(&self, term: u16) -> String {
        if let Some(word) = FIVE_WORDS.get(usize::from(term)) {
            return word.to_string();
        }
        if let Some(value) = value::of(term) {
            return value::written(value);
        }
        if let Some(text) = self.0.get(&term) {
            return text.clone();
        }
        let plain = match term >> 14 {
            0 => format!("name-{term}"),
            1 => format!("_blank-{term}"),
            _ => format!("\"text {term}\""),
        };
        let taken = |text: &String| self.0.values().any(|other| other == text);
        let others = (2..).map(|number| match plain.strip_suffix('"') {
            Some(open) => format!("{open} {number}\""),
            None => format!("{plain}-{number}"),
        });
        std::iter::once(plain.clone()).chain(others).find(|text| !taken(text)).unwrap_or(plain)
    }
}

#[cfg(test)]
mod tests {
    use super::*;

    fn list(text: &str) -> Result<List, String> {
        let source = Source { name: "n".to_string(), bytes: text.as_bytes().to_vec() };
        read(&source).map_err(|faults| faults.written("n"))
    }

    #[test]
    fn a_list_gives_texts_and_numbers_stand_for_the_rest() {
        let list = list("5 lamp-7\n\n16384 _b\n32768 \"van 31\"\n6 <m:a> # a maker's\n7 name-8\n")
            .unwrap();
        let terms = [2, 5, 6, 16_384, 32_768, 8, 9, 16_385, 32_769, 0xC1F4];
        let texts = terms.map(|term| list.text(term));
        let wanted = [
            "is",
            "lamp-7",
            "<m:a>",
            "_b",
            "\"van 31\"",
            "name-8-2",
            "name-9",
            "_blank-16385",
            "\"text 32769\"",
            "500 mA",
        ];
        assert_eq!(texts, wanted);
    }

    #[test]
    fn what_is_wrong_with_a_list() {
        for (text, begins) in [
            ("lamp-7\n", "n:1: a line of a names list is"),
            ("5 lamp 7\n", "n:1: a line of a names list is"),
            ("2 lamp\n", "n:1: 2 is not the number of lamp"),
            ("5 _b\n", "n:1: 5 is not the number of _b"),
            ("5 a\n5 b\n", "n:2: 5 has a name already"),
            ("5 a\n6 a\n", "n:2: a is the name of another number"),
            ("5 is\n", "n:1: is is the name of another number"),
            ("5 kind\n", "n:1: `kind` is not a name"),
        ] {
            let found = list(text).unwrap_err();
            assert!(found.starts_with(begins), "{text}: {found}");
        }
    }
}
