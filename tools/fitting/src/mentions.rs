//! Where the terms of a text stand, for the notes.

use crate::question::Constant;
use crate::statement::Role;
use std::collections::HashMap;

/// The numbers of `implies`, `from` and `to`: what stands there as a property is one.
const IMPLIES: u16 = 0;
const FROM: u16 = 3;
const TO: u16 = 4;

/// What a text says of one term.
#[derive(Clone, Copy, Debug, Default, PartialEq, Eq)]
pub struct Mention {
    /// The first line that has it.
    pub line: usize,
    /// Whether a line of the book has it, and not only a question.
    pub in_book: bool,
    /// How often it is a relation, and in which line first.
    pub relations: usize,
    pub relation_line: usize,
    /// Whether a line says of it what is said of a relation.
    pub is_property: bool,
}

#[derive(Clone, Debug, Default)]
pub struct Mentions(HashMap<u16, Mention>);

impl Mentions {
    /// A line of the book.
    pub fn stated(&mut self, [subj, pred, obj]: [u16; 3], line: usize) {
        self.relation(pred, line).in_book = true;
        self.at(subj, line).in_book = true;
        self.at(obj, line).in_book = true;
        if [IMPLIES, FROM, TO].contains(&pred) {
            self.at(subj, line).is_property = true;
        }
        if pred == IMPLIES {
            self.at(obj, line).is_property = true;
        }
    }

    /// A term that a question names.
    pub fn asked(&mut self, constant: Constant) {
        match constant.role {
            Role::Relation => self.relation(constant.term, constant.line),
            _ => self.at(constant.term, constant.line),
        };
    }

    fn at(&mut self, term: u16, line: usize) -> &mut Mention {
        self.0.entry(term).or_insert(Mention { line, ..Mention::default() })
    }

    fn relation(&mut self, term: u16, line: usize) -> &mut Mention {
        let mention = self.at(term, line);
        mention.relations += 1;
        if mention.relations == 1 {
            mention.relation_line = line;
        }
        mention
    }

    pub fn of(&self, term: u16) -> Option<&Mention> {
        self.0.get(&term)
    }

    pub fn is_in_book(&self, term: u16) -> bool {
        self.of(term).is_some_and(|mention| mention.in_book)
    }

    /// Every term with what is said of it, in the order of the lines.
    pub fn by_line(&self) -> Vec<(u16, Mention)> {
        let mut found: Vec<(u16, Mention)> =
            self.0.iter().map(|(term, mention)| (*term, *mention)).collect();
        found.sort_by_key(|(term, mention)| (mention.line, *term));
        found
    }
}
