//! A question's words into the bytes of its parts.
//!
//! - group: an either, then `where` and tests with `and` between them
//! - either: boths with `or` between them
//! - both: triples, or groups in parentheses, with `and` between them
//! - test: TERM = TERM, TERM != TERM, ?VARIABLE covers YEARS, ?VARIABLE >= DEGREE

use crate::annotation::Kind;
use crate::fields::{Fields, LONGEST};
use crate::names::Names;
use crate::statement::{in_capitals, term, when, Cursor, Role, Slot, When, COMPARES, ORDER, ROLES};
use crate::words::{Placed, Word};
use crate::Fault;

const TRIPLE: u8 = 16;
const BOTH: u8 = 17;
const EITHER: u8 = 18;
const ONLY: u8 = 19;
const TEST: u8 = 20;

const CONSTANT: u8 = 0;
const VARIABLE: u8 = 1;

const EQUAL: u8 = 0;
const UNEQUAL: u8 = 1;
const AT_LEAST: u8 = 2;

/// Parentheses in one another; far more than 32 parts need.
const DEEPEST: usize = 64;

/// A question: its bytes, its variables by number, and the terms it names.
pub struct Question {
    pub fields: Fields,
    pub variables: Variables,
    pub constants: Vec<Constant>,
    pub first_line: usize,
    pub last_line: usize,
}

/// A term that a question names: as what, and in which line.
#[derive(Clone, Copy, Debug, PartialEq, Eq)]
pub struct Constant {
    pub term: u16,
    pub role: Role,
    pub line: usize,
}

/// Variables in order of appearance; those for terms and for annotations are numbered apart.
#[derive(Default)]
pub struct Variables {
    pub terms: Vec<String>,
    pub anns: Vec<String>,
}

impl Variables {
    fn term(&mut self, name: &str) -> Result<u16, String> {
        if self.anns.iter().any(|other| other == name) {
            let test = "(it is tested by `covers`)";
            return Err(format!("`?{name}` says when, and cannot stand for a name {test}"));
        }
        Ok(number_of(&mut self.terms, name))
    }

    fn ann(&mut self, name: &str) -> Result<u16, String> {
        if self.terms.iter().any(|other| other == name) {
            return Err(format!("`?{name}` stands for a name, and cannot say when"));
        }
        Ok(number_of(&mut self.anns, name))
    }
}

/// Too large a number is for the library to refuse; a question has no room for 65,536 of them.
fn number_of(names: &mut Vec<String>, name: &str) -> u16 {
    let at = names.iter().position(|other| other == name).unwrap_or(names.len());
    if at == names.len() {
        names.push(name.to_string());
    }
    at as u16
}

/// Reads the words of a question, `ask` the first.
pub fn question(words: &[Placed], names: &mut Names, kind: Kind) -> Result<Question, Fault> {
    let mut cursor = Cursor::new(words);
    let first_line = cursor.line();
    cursor.word();
    let variables = Variables::default();
    let mut asker = Asker { cursor, names, kind, variables, constants: vec![], open: vec![] };
    let fields = asker.group()?;
    asker.nothing_left()?;
    let last_line = asker.cursor.line();
    let Asker { variables, constants, .. } = asker;
    Ok(Question { fields, variables, constants, first_line, last_line })
}

struct Asker<'a> {
    cursor: Cursor<'a>,
    names: &'a mut Names,
    kind: Kind,
    variables: Variables,
    constants: Vec<Constant>,
    /// The lines of the parentheses that are open.
    open: Vec<usize>,
}

impl Asker<'_> {
    fn group(&mut self) -> Result<Fields, Fault> {
        let mut part = self.either()?;
        let mut before_test = self.cursor.take("where");
        while let Some(line) = before_test {
            let test = self.test()?;
            part = self.holder(ONLY, line, [part, test])?;
            before_test = self.another_test();
        }
        Ok(part)
    }

    /// Passes over a `where`, or over an `and` with a test behind it; its line.
    fn another_test(&mut self) -> Option<usize> {
        let and = if self.test_behind() { self.cursor.take("and") } else { None };
        and.or_else(|| self.cursor.take("where"))
    }

    /// Whether a test stands behind the next word.
    fn test_behind(&self) -> bool {
        self.cursor.peek(2).is_some_and(|word| COMPARES.iter().any(|one| word.is(one)))
    }

    fn either(&mut self) -> Result<Fields, Fault> {
        let mut left = self.both()?;
        while let Some(line) = self.cursor.take("or") {
            let right = self.both()?;
            left = self.holder(EITHER, line, [left, right])?;
        }
        Ok(left)
    }

    fn both(&mut self) -> Result<Fields, Fault> {
        let mut left = self.one()?;
        while let Some(line) = self.cursor.take("and") {
            let right = self.one()?;
            left = self.holder(BOTH, line, [left, right])?;
        }
        Ok(left)
    }

    fn holder(&self, tag: u8, line: usize, held: [Fields; 2]) -> Result<Fields, Fault> {
        let fields = Fields::holder(tag, line, &held);
        if fields.bytes.len() > LONGEST {
            return Err(Fault::new(line, "this question is too long for the counter"));
        }
        Ok(fields)
    }

    fn one(&mut self) -> Result<Fields, Fault> {
        if self.cursor.peek(0) != Some(&Word::Open) {
            return self.triple();
        }
        if self.open.len() == DEEPEST {
            return Err(self.cursor.fault("too many parentheses in one another"));
        }
        self.open.push(self.cursor.line());
        self.cursor.word();
        let part = self.group()?;
        self.closing()?;
        self.open.pop();
        Ok(part)
    }

    fn closing(&mut self) -> Result<(), Fault> {
        let opened = self.open.last().copied().unwrap_or(0);
        match self.cursor.peek(0) {
            Some(Word::Close) => {
                self.cursor.word();
                Ok(())
            }
            Some(word) => Err(self.not_expected(word)),
            None => Err(Fault::new(opened, "a `(` of this line is not closed")),
        }
    }

    fn triple(&mut self) -> Result<Fields, Fault> {
        let line = self.cursor.line();
        let mut value = Vec::new();
        for role in ROLES {
            value.extend(self.slot(role)?);
        }
        let (mark, number) = match when(&mut self.cursor, self.kind)? {
            None => return Err(self.not_said_when(line)),
            Some(When::Constant(value)) => (CONSTANT, value),
            Some(When::Variable(name)) => (VARIABLE, u64::from(self.ann(&name)?)),
        };
        value.push(mark);
        value.extend(number.to_be_bytes());
        Ok(Fields::one(TRIPLE, &value, line))
    }

    fn not_said_when(&self, line: usize) -> Fault {
        let when = format!("a variable such as ?when, {}, or `always`", self.kind.example());
        Fault::new(line, format!("say when ({when}): {ORDER}"))
    }

    /// A term slot: mark and number.
    fn slot(&mut self, role: Role) -> Result<Vec<u8>, Fault> {
        let line = self.cursor.line();
        let slot = term(&mut self.cursor, self.names, role)?;
        let (mark, number) = match slot {
            Slot::Constant(term) => {
                self.constants.push(Constant { term, role, line });
                (CONSTANT, term)
            }
            Slot::Variable(name) => {
                (VARIABLE, self.variables.term(&name).map_err(|words| Fault::new(line, words))?)
            }
        };
        Ok([&[mark][..], &number.to_be_bytes()].concat())
    }

    fn ann(&mut self, name: &str) -> Result<u16, Fault> {
        self.variables.ann(name).map_err(|words| self.cursor.fault(words))
    }

    fn test(&mut self) -> Result<Fields, Fault> {
        let line = self.cursor.line();
        let compare = self.cursor.peek(1);
        let is = |plain: &str| compare.is_some_and(|word| word.is(plain));
        if is(">=") && self.kind.is_set() {
            return Err(Fault::new(
                line,
                format!("`>=` is for degrees; write {}", self.kind.test()),
            ));
        }
        if is("covers") || is(">=") {
            return self.at_least(line);
        }
        let mark = if is("=") {
            EQUAL
        } else if is("!=") {
            UNEQUAL
        } else {
            return Err(self.no_test(line, compare));
        };
        let mut value = vec![mark];
        value.extend(self.slot(Role::Side)?);
        self.cursor.word();
        value.extend(self.slot(Role::Side)?);
        Ok(Fields::one(TEST, &value, line))
    }

    fn no_test(&self, line: usize, compare: Option<&Word>) -> Fault {
        let tests = format!("a test is ?x = ?y, ?x != NAME, or {}", self.kind.test());
        Fault::new(line, compare.and_then(in_capitals).unwrap_or(tests))
    }

    fn at_least(&mut self, line: usize) -> Result<Fields, Fault> {
        let Some(Word::Variable(name)) = self.cursor.word() else {
            return Err(Fault::new(line, "a ?variable stands before `covers`"));
        };
        let variable = self.ann(name)?;
        self.cursor.word();
        let Some(When::Constant(least)) = when(&mut self.cursor, self.kind)? else {
            let example = self.kind.example();
            return Err(Fault::new(line, format!("behind `covers` stand {example}")));
        };
        let value = [&[AT_LEAST][..], &variable.to_be_bytes(), &least.to_be_bytes()].concat();
        Ok(Fields::one(TEST, &value, line))
    }

    fn nothing_left(&self) -> Result<(), Fault> {
        match self.cursor.peek(0) {
            None => Ok(()),
            Some(Word::Close) => Err(self.cursor.fault("this `)` closes nothing")),
            Some(word) => Err(self.not_expected(word)),
        }
    }

    fn not_expected(&self, word: &Word) -> Fault {
        let found = word.shown();
        if word.is("or") && self.test_behind() {
            let only = "between tests stands `and`, never `or`: write a question for each";
            return self.cursor.fault(only);
        }
        if let Some(words) = in_capitals(word) {
            return self.cursor.fault(words);
        }
        if word.is("and") || word.is("or") {
            let why =
                "behind a test; put `( )` around the part that the test is for, `where` and all";
            return self.cursor.fault(format!("{found} stands {why}"));
        }
        let open = match self.open.last() {
            Some(line) => format!(" (a parenthesis is open since line {line})"),
            None => String::new(),
        };
        self.cursor.fault(format!("{found} where `and`, `or` or `where` could go on{open}"))
    }
}
