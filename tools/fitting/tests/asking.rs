//! Answers as they come, and the looks allowed.

mod common;
use common::*;
use fitting::annotation::Kind;
use fitting::answers::Asking;
use fitting::calls::{Answer, Asked, Calls, NameList, Refusal, RuleSet, Table};
use std::cell::RefCell;
use std::io::{self, Write};

/// P12: 3 looks give one answer, 2 none; what was found stands, and what 24 means is said.
#[test]
fn the_looks_allowed() {
    let text = years(
        "lamp is led 2003-2006\nled within light 2005-2010\nask ?x is led ?w and ?x is light ?w\n",
    );
    let asked = |looks: &str| command(&format!("ask t --looks {looks}"), &[text.as_bytes()]);
    let whole = asked("6");
    assert_eq!(whole.code, 0);
    let refused = "    t.fit:4: the looks allowed are used up, and there may be more answers: \
                   allow more (--looks N), or ask more narrowly\n        \
                   (refused 24: looks used up: a look is due and none is left)\n";
    let question = "ask ?x is led ?w and ?x is light ?w\n";
    let one = format!("{question}    ?x = lamp  ?w = 2005-2006\n{refused}    1 answer, 3 looks\n");
    assert_eq!((asked("3").text(), asked("3").code), (one.as_str(), 1));
    let none = format!("{question}{refused}    no answer, 2 looks\n");
    assert_eq!((asked("2").text(), asked("2").code), (none.as_str(), 1));
    assert_eq!(asked("0").code, 1);
}

/// A library whose question takes many looks: an answer for each million.
struct Slow {
    asked: RefCell<Vec<u32>>,
}

const LOOKS: u32 = 100_000_000;

impl Calls for Slow {
    fn ask(&self, _: &Table, _: &[u8], looks: u32) -> Asked {
        self.asked.borrow_mut().push(looks);
        let number = if looks < LOOKS { 24 } else { 0 };
        let made = looks.min(LOOKS);
        let answer = Answer { terms: vec![Some(5)], anns: vec![] };
        let answers = vec![answer; (made / 1_000_000) as usize];
        Asked { refusal: Refusal { number, place: 0 }, looks: made, answers }
    }
    fn read(&self, _: &[u8]) -> Result<fitting::calls::Book, Refusal> {
        unreachable!()
    }
    fn close(&self, _: RuleSet, _: &Table) -> Result<Table, Refusal> {
        unreachable!()
    }
    fn read_triples(&self, _: u8, _: u64, _: &[u8]) -> Result<(Table, NameList), Refusal> {
        unreachable!()
    }
    fn write_triples(&self, _: &Table, _: &NameList) -> Result<Vec<u8>, Refusal> {
        unreachable!()
    }
}

/// What was printed each time the output was flushed; the reader leaves after so many flushes.
struct Flushed {
    text: String,
    at: Vec<usize>,
    most: usize,
}

impl Write for Flushed {
    fn write(&mut self, bytes: &[u8]) -> io::Result<usize> {
        self.text += std::str::from_utf8(bytes).unwrap();
        Ok(bytes.len())
    }
    fn flush(&mut self) -> io::Result<()> {
        self.at.push(self.text.matches("?x = ").count());
        if self.at.len() > self.most {
            Err(io::ErrorKind::BrokenPipe.into())
        } else {
            Ok(())
        }
    }
}

fn slow(looks: u32, most: usize) -> (Flushed, io::Result<bool>, Vec<u32>) {
    let text = fitting::text::read(years("lamp is led 2000\nask ?x is led 2000\n").as_bytes())
        .ok()
        .unwrap();
    let library = Slow { asked: RefCell::default() };
    let table = Table { kind: 1, rows: vec![] };
    let kind = Kind::Years { base: 2000 };
    let asking = Asking { calls: &library, file: "t.fit", text: &text, kind, table: &table, looks };
    let mut out = Flushed { text: String::new(), at: Vec::new(), most };
    let done = asking.all(&mut out);
    let asked = library.asked.borrow().clone();
    (out, done, asked)
}

/// The question first, then more and more answers, each shown once.
#[test]
fn answers_come_while_a_question_is_asked() {
    let (out, done, asked) = slow(u32::MAX, 99);
    assert!(done.unwrap());
    assert!(out.text.starts_with("ask ?x is led 2000\n"));
    assert_eq!(out.text.matches("?x = lamp").count(), 100);
    assert_eq!(out.at[0], 0, "the question is shown before it is asked");
    assert!(
        out.at.windows(2).all(|pair| pair[0] <= pair[1]) && out.at[1] > 0 && out.at[1] < 100,
        "{:?}",
        out.at
    );
    let last = u64::from(*asked.last().unwrap());
    assert!(
        asked.iter().map(|looks| u64::from(*looks)).sum::<u64>() <= last * 4 / 3 + 1,
        "{asked:?}"
    );
}

#[test]
fn the_looks_allowed_are_never_gone_over() {
    let (out, done, asked) = slow(30_000_000, 99);
    assert!(!done.unwrap());
    assert_eq!(asked.last(), Some(&30_000_000));
    assert!(out.text.ends_with("    30 answers, 30000000 looks\n"), "{}", out.text);
}

/// Nothing more is worked out for a reader that has seen enough.
#[test]
fn a_reader_that_leaves_ends_the_work() {
    let (_, done, asked) = slow(u32::MAX, 1);
    assert_eq!(done.unwrap_err().kind(), io::ErrorKind::BrokenPipe);
    assert_eq!(asked.len(), 1);
}
