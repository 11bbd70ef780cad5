//! The two programs, as functions from their standard input to their standard output.

use crate::question;
use crate::steps::{self, Step, ANNS, MOST_ANSWERS, MOST_STEPS, TERMS};
use crate::table::{self, Lanes};
use crate::{book, closing};

/// The rows each program has room for.
pub const ROOM: usize = 1024;

/// The closing program: reads a book, prints the closed table.
pub fn close_book_program(input: &[u8]) -> String {
    let mut lanes = Lanes::zero(ROOM);
    let read = book::read(input, &mut lanes);
    if read.number != 0 {
        return refused(read.number, read.place);
    }
    let closed = closing::close(read.kind, read.rules, &mut lanes, read.count);
    if closed.number != 0 {
        return refused(closed.number, closed.place);
    }
    let mut text = format!("closed {} {} {}\n", read.kind, read.base, closed.count);
    for ((subj, pred, obj), ann) in table::rows(&lanes, closed.count) {
        text += &format!("{subj} {pred} {obj} {ann}\n");
    }
    text
}

fn refused(number: u32, place: u64) -> String {
    format!("refused {number} {place}\n")
}

/// The counter's program: a book, then questions to the end, each behind a length.
pub fn counter_program(input: &[u8]) -> String {
    counter_with_looks(input, u32::MAX)
}

/// The same with fewer looks allowed to each question: 24 tells what would take long.
pub fn counter_with_looks(input: &[u8], looks: u32) -> String {
    let Some((book, mut rest)) = behind_length(input) else {
        return refused(1, 0);
    };
    let mut lanes = Lanes::zero(ROOM);
    let read = book::read(book, &mut lanes);
    if read.number != 0 {
        return refused(read.number, read.place);
    }
    let mut count = read.count;
    let mut text = String::new();
    while !rest.is_empty() {
        // A cut question is seen before the closing that would have come before it.
        let Some((question, next)) = behind_length(rest) else {
            return text + &refused(1, 0);
        };
        let closed = closing::close(read.kind, read.rules, &mut lanes, count);
        if closed.number != 0 {
            return text + &refused(closed.number, closed.place);
        }
        count = closed.count;
        text += &ask(read.kind, &lanes, count, question, looks);
        rest = next;
    }
    text
}

/// The bytes behind a 2-byte length, and those after them; nothing if the input is cut.
fn behind_length(input: &[u8]) -> Option<(&[u8], &[u8])> {
    let [high, low, rest @ ..] = input else {
        return None;
    };
    let length = usize::from(*high) * 256 + usize::from(*low);
    Some((rest.get(..length)?, rest.get(length..)?))
}

/// One question: its `asked` line and its answers.
fn ask(kind: u8, lanes: &Lanes, count: usize, question: &[u8], looks: u32) -> String {
    let mut records = [Step::default(); MOST_STEPS];
    let compiled = question::compile(kind, question, &mut records);
    if compiled.number != 0 {
        return format!("asked {} {} 0 0\n", compiled.number, compiled.place);
    }
    let mut terms = [0; TERMS * MOST_ANSWERS];
    let mut anns = [0; ANNS * MOST_ANSWERS];
    let steps = compiled.steps;
    let ran = steps::run(kind, lanes, count, &records, steps, looks, &mut terms, &mut anns);
    let mut text = format!("asked {} {} {} {}\n", ran.number, ran.place, ran.answers, ran.looks);
    for (terms, anns) in terms.chunks(TERMS).zip(anns.chunks(ANNS)).take(ran.answers) {
        let mut numbers: Vec<String> = terms.iter().map(u16::to_string).collect();
        numbers.extend(anns.iter().map(u64::to_string));
        text += &numbers.join(" ");
        text.push('\n');
    }
    text
}
