//! Questions asked one after another, their answers printed as they come.

use crate::annotation::Kind;
use crate::calls::{Answer, Asked, Calls, Table};
use crate::columns::Columns;
use crate::near;
use crate::question::Question;
use crate::refusal::{self, place_word, Refused};
use crate::text::Text;
use std::collections::HashSet;
use std::io::{self, Write};

/// The looks of a first run. A longer question is run again with four times as many, and so on up
/// to those allowed: the answers found before come again, first and in their order, and only what
/// is new is shown. That costs a third more looks at most.
const FIRST_LOOKS: u32 = 1 << 22;

/// The looks used up; a longer run has more answers.
const LOOKS_USED_UP: u32 = 24;

/// A book that questions are asked of.
pub struct Asking<'a> {
    pub calls: &'a dyn Calls,
    pub file: &'a str,
    pub text: &'a Text,
    pub kind: Kind,
    pub table: &'a Table,
    pub looks: u32,
}

impl Asking<'_> {
    /// Asks every question; whether all were done.
    pub fn all(&self, out: &mut dyn Write) -> io::Result<bool> {
        let mut done = true;
        for (at, question) in self.text.questions.iter().enumerate() {
            if at > 0 {
                writeln!(out)?;
            }
            done &= self.one(question, out)?;
        }
        Ok(done)
    }

    fn one(&self, question: &Question, out: &mut dyn Write) -> io::Result<bool> {
        for line in self.text.lines.between(question.first_line, question.last_line) {
            writeln!(out, "{line}")?;
        }
        out.flush()?;
        let mut columns = Columns::default();
        let (mut shown, mut strangers) = (0, self.strangers(question));
        let asked = self.run(question, &mut |asked| {
            if place_word(Refused::Question, asked.refusal).is_none() {
                strangers.drain(..).try_for_each(|note| writeln!(out, "    Note: {note}"))?;
            }
            let new = asked.answers[shown..].iter();
            let lines: Vec<Vec<String>> = new.map(|answer| self.words(question, answer)).collect();
            shown = asked.answers.len();
            columns.lines(&lines).iter().try_for_each(|line| writeln!(out, "    {line}"))?;
            out.flush()
        })?;
        self.end(question, &asked, out)
    }

    /// Runs a question with more and more looks; what each run found is handed over.
    fn run(
        &self,
        question: &Question,
        found: &mut dyn FnMut(&Asked) -> io::Result<()>,
    ) -> io::Result<Asked> {
        let mut looks = FIRST_LOOKS.min(self.looks);
        loop {
            let asked = self.calls.ask(self.table, &question.fields.bytes, looks);
            found(&asked)?;
            if asked.refusal.number != LOOKS_USED_UP || looks == self.looks {
                return Ok(asked);
            }
            looks = looks.saturating_mul(4).min(self.looks);
        }
    }

    /// The same without printing, for a page.
    pub fn asked(&self, question: &Question) -> Asked {
        self.calls.ask(self.table, &question.fields.bytes, self.looks)
    }

    /// What stands under the answers.
    fn end(&self, question: &Question, asked: &Asked, out: &mut dyn Write) -> io::Result<bool> {
        if asked.refusal.number != 0 {
            for line in self.refused(question, asked).lines() {
                writeln!(out, "    {line}")?;
            }
        }
        // A question refused before its work has no answers to count.
        if place_word(Refused::Question, asked.refusal).is_none() {
            writeln!(out, "    {}", totals(asked))?;
        }
        out.flush()?;
        Ok(asked.refusal.number == 0)
    }

    /// Why a question was refused or cut short.
    pub fn refused(&self, question: &Question, asked: &Asked) -> String {
        let line = question.fields.line_at(asked.refusal.place);
        let placed = place_word(Refused::Question, asked.refusal).and(line);
        let source = placed.map(|line| self.text.lines.line(line));
        let line = placed.or(Some(question.first_line));
        let head = self.text.head;
        refusal::written(self.file, line, source, head, Refused::Question, asked.refusal)
    }

    /// What a question names and the book does not have; a misspelt name is among them.
    pub fn strangers(&self, question: &Question) -> Vec<String> {
        let mut seen = HashSet::new();
        let strange =
            |term: &u16| *term >= 5 && !self.text.mentions.is_in_book(*term) && seen.insert(*term);
        let terms = question.constants.iter().map(|constant| constant.term).filter(strange);
        terms.filter_map(|term| self.stranger(term)).collect()
    }

    fn stranger(&self, term: u16) -> Option<String> {
        let names = &self.text.names;
        let (sort, kept) = names.kept(term)?;
        let in_book = names.terms().filter(|other| self.text.mentions.is_in_book(*other));
        let known =
            in_book.filter_map(|other| names.kept(other)).filter(|(other, _)| *other == sort);
        let meant = match near::meant(kept, known.map(|(_, text)| text)) {
            Some(name) => format!("; is {} meant?", sort.written(name)),
            None => ".".to_string(),
        };
        Some(format!("{} stands nowhere in the book{meant}", sort.written(kept)))
    }

    fn words(&self, question: &Question, answer: &Answer) -> Vec<String> {
        let values = self.values(question, answer);
        let mut shown: Vec<String> =
            values.into_iter().map(|(name, value)| format!("?{name} = {value}")).collect();
        if shown.is_empty() {
            shown.push("yes".to_string());
        }
        shown
    }

    /// The variables of a question and their values in an answer; `-` is none.
    fn values(&self, question: &Question, answer: &Answer) -> Vec<(String, String)> {
        let term = |term: &Option<u16>| term.map_or("-".to_string(), |term| self.term(term));
        let when =
            |value: &Option<u64>| value.map_or("-".to_string(), |value| self.kind.written(value));
        let terms = question.variables.terms.iter().cloned().zip(answer.terms.iter().map(term));
        let anns = question.variables.anns.iter().cloned().zip(answer.anns.iter().map(when));
        terms.chain(anns).collect()
    }

    /// A term that the library gave back; it gives none that the text does not have.
    pub fn term(&self, term: u16) -> String {
        self.text.names.text(term).unwrap_or_else(|| format!("(term {term})"))
    }
}

pub fn totals(asked: &Asked) -> String {
    let count = |number: u64, one: &str| match number {
        0 => format!("no {one}"),
        1 => format!("1 {one}"),
        _ => format!("{number} {one}s"),
    };
    format!(
        "{}, {}",
        count(asked.answers.len() as u64, "answer"),
        count(u64::from(asked.looks), "look")
    )
}
