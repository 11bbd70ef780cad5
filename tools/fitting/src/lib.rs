//! Fitting books and questions as text for people.
//!
//! A text is read into the bytes of a book and of questions; the proved library reads, closes and
//! answers; what it says is printed with the names back. Nothing is closed or answered here. What
//! the library judges is left to it, and its refusals are led back to the text's lines.

pub mod annotation;
pub mod answers;
pub mod arguments;
pub mod columns;
pub mod commands;
pub mod csv;
pub mod diff;
pub mod encoding;
pub mod exchange;
pub mod fields;
pub mod head;
pub mod input;
pub mod letters;
pub mod listing;
pub mod literal;
pub mod mentions;
pub mod namelist;
pub mod names;
pub mod near;
pub mod notes;
pub mod ntriples;
pub mod order;
pub mod page;
pub mod program;
pub mod question;
pub mod refusal;
pub mod sheets;
pub mod slips;
pub mod statement;
pub mod text;
pub mod usage;
pub mod value;
pub mod words;

pub use trackvesper::calls;
#[cfg(proved)]
pub use trackvesper::proved;

/// What is wrong, in plain words, and at which line of the text (from 1).
#[derive(Clone, Debug, PartialEq, Eq)]
pub struct Fault {
    pub line: usize,
    pub words: String,
}

impl Fault {
    pub fn new(line: usize, words: impl Into<String>) -> Fault {
        Fault { line, words: words.into() }
    }
}

/// What is wrong with a text: the first faults, and how many there are.
#[derive(Clone, Debug, Default)]
pub struct Faults {
    kept: Vec<Fault>,
    count: usize,
}

/// Faults that are kept, and shown at once; of a file full of them no more need be known.
const MOST_KEPT: usize = 200;
const MOST_SHOWN: usize = 20;

impl Faults {
    pub fn one(fault: Fault) -> Faults {
        Faults { kept: vec![fault], count: 1 }
    }

    pub fn add(&mut self, fault: Fault) {
        self.count += 1;
        if self.kept.len() < MOST_KEPT {
            self.kept.push(fault);
            self.kept.sort_by_key(|fault| fault.line);
        }
    }

    pub fn count(&self) -> usize {
        self.count
    }

    pub fn kept(&self) -> &[Fault] {
        &self.kept
    }

    /// One line each, as editors know them.
    pub fn written(&self, file: &str) -> String {
        let shown = self.kept.iter().take(MOST_SHOWN);
        let mut written: String =
            shown.map(|fault| format!("{file}:{}: {}\n", fault.line, fault.words)).collect();
        if self.count > MOST_SHOWN {
            written += &format!("{file}: and {} more\n", self.count - MOST_SHOWN);
        }
        written
    }
}
