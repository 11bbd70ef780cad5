//! The parser: fields judged as they are met, going in. A holder's own 16, 17, 20, then all
//! that is in its parts, then the bytes left over in it.

use super::part::{Part, Test, BOTH, MOST_PARTS, ONLY, TEST, TRIPLE};
use crate::pattern::{judge_ann, judge_term, AnnSlot, Pattern, Slot};
use crate::table::Verdict;

/// The tree of a question, or the first refusal among 16 to 20 and 8 to 10.
pub fn parse(kind: u8, question: &[u8]) -> Result<Part, Verdict> {
    let mut parser = Parser { kind, bytes: question, parts: 0 };
    let (part, at) = parser.part(0, question.len())?;
    // The question is the outermost holder, and its place is 0.
    nothing_left(at, question.len(), 0)?;
    Ok(part)
}

struct Parser<'a> {
    kind: u8,
    bytes: &'a [u8],
    parts: usize,
}

/// A field that fits its holder: its tag, and where its value begins and ends.
struct Field {
    tag: u8,
    place: usize,
    value: usize,
    end: usize,
}

fn nothing_left(at: usize, end: usize, holder: usize) -> Result<(), Verdict> {
    if at < end {
        return Err(Verdict::new(16, holder));
    }
    Ok(())
}

impl Parser<'_> {
    /// The field that should begin at `at`, in a holder that ends at `end`. Missing, begun but
    /// cut, and too long for the holder are all 16 at that byte.
    fn field(&self, at: usize, end: usize) -> Result<Field, Verdict> {
        let held = self.bytes.get(at..end).unwrap_or(&[]);
        if let [tag, high, low, rest @ ..] = held {
            let length = usize::from(*high) * 256 + usize::from(*low);
            if length <= rest.len() {
                return Ok(Field { tag: *tag, place: at, value: at + 3, end: at + 3 + length });
            }
        }
        Err(Verdict::new(16, at))
    }

    /// One part, and the byte after it: 16, 17, 20, then what it holds.
    fn part(&mut self, at: usize, end: usize) -> Result<(Part, usize), Verdict> {
        let field = self.field(at, end)?;
        if !(TRIPLE..=ONLY).contains(&field.tag) {
            return Err(Verdict::new(17, at));
        }
        self.parts += 1;
        if self.parts > MOST_PARTS {
            return Err(Verdict::new(20, at));
        }
        let part = match field.tag {
            TRIPLE => Part::Triple(self.pattern(&field)?),
            ONLY => self.only(&field)?,
            _ => self.pair(&field)?,
        };
        Ok((part, field.end))
    }

    /// BOTH or EITHER: exactly two parts. A third is left over and is not looked at.
    fn pair(&mut self, field: &Field) -> Result<Part, Verdict> {
        let (left, at) = self.part(field.value, field.end)?;
        let (right, at) = self.part(at, field.end)?;
        nothing_left(at, field.end, field.place)?;
        let (left, right) = (Box::new(left), Box::new(right));
        Ok(if field.tag == BOTH { Part::Both(left, right) } else { Part::Either(left, right) })
    }

    /// ONLY: one part, then one test.
    fn only(&mut self, field: &Field) -> Result<Part, Verdict> {
        let (part, at) = self.part(field.value, field.end)?;
        let test = self.field(at, field.end)?;
        if test.tag != TEST {
            return Err(Verdict::new(17, at));
        }
        let judged = self.test(&test)?;
        nothing_left(test.end, field.end, field.place)?;
        Ok(Part::Only { place: field.place, part: Box::new(part), test: judged })
    }

    fn pattern(&self, field: &Field) -> Result<Pattern, Verdict> {
        if field.end - field.value != 18 {
            return Err(Verdict::new(18, field.place));
        }
        let pattern = Pattern {
            subj: self.slot(field.value),
            pred: self.slot(field.value + 3),
            obj: self.slot(field.value + 6),
            ann: AnnSlot {
                mark: self.number(field.value + 9, 1) as u8,
                value: self.number(field.value + 10, 8),
            },
        };
        let numbers = [
            judge_term(pattern.subj, false),
            judge_term(pattern.pred, true),
            judge_term(pattern.obj, false),
            judge_ann(self.kind, pattern.ann),
        ];
        first_number(&numbers, field.place)?;
        Ok(pattern)
    }

    /// A test: 18 for its length and mark, then its slots in order.
    fn test(&self, field: &Field) -> Result<Test, Verdict> {
        let at = field.value;
        // A test of length 0 has no mark; 255 stands in for it and suits no length.
        let mark = if field.end > at { self.number(at, 1) } else { 255 };
        match (mark, field.end - at) {
            (0 | 1, 7) => {
                let (left, right) = (self.slot(at + 1), self.slot(at + 4));
                let numbers = [judge_term(left, false), judge_term(right, false)];
                first_number(&numbers, field.place)?;
                Ok(if mark == 0 { Test::Equal(left, right) } else { Test::Unequal(left, right) })
            }
            (2, 11) => {
                let (var, least) = (self.number(at + 1, 2), self.number(at + 3, 8));
                // The variable has no mark of its own, and is judged as a variable's slot.
                let numbers = [
                    judge_ann(self.kind, AnnSlot::variable(var)),
                    judge_ann(self.kind, AnnSlot::constant(least)),
                ];
                first_number(&numbers, field.place)?;
                Ok(Test::AtLeast(var as u16, least))
            }
            _ => Err(Verdict::new(18, field.place)),
        }
    }

    fn slot(&self, at: usize) -> Slot {
        Slot { mark: self.number(at, 1) as u8, value: self.number(at + 1, 2) as u16 }
    }

    /// The number in up to 8 bytes, high byte first.
    fn number(&self, at: usize, bytes: usize) -> u64 {
        let held = self.bytes.iter().skip(at).take(bytes);
        held.fold(0, |sum, byte| sum << 8 | u64::from(*byte))
    }
}

fn first_number(numbers: &[u32], place: usize) -> Result<(), Verdict> {
    match numbers.iter().find(|number| **number != 0) {
        Some(number) => Err(Verdict::new(*number, place)),
        None => Ok(()),
    }
}
