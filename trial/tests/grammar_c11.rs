//! The grammar once more, as the Recommendation has it: a rule gives every end that it may have,
//! and nothing is the longest match. A line must be N-Triples by these rules exactly when the model
//! says so, and in one way only.

use std::collections::BTreeSet;
use trial::ntriples::grammar::{self, Line};
use trial::random::lines;
use trial::random::Random;

enum Rule {
    /// One character of these ranges.
    In(&'static [(u32, u32)]),
    /// One character outside them.
    Out(&'static [(u32, u32)]),
    /// What a UCHAR stands for, if the rule takes that character.
    Escaped(Box<Rule>),
    Seq(Vec<Rule>),
    Or(Vec<Rule>),
    Star(Box<Rule>),
}
use Rule::{Escaped, In, Or, Out, Seq, Star};

type Ends = BTreeSet<usize>;

fn within(ranges: &[(u32, u32)], one: char) -> bool {
    ranges.iter().any(|(low, high)| (*low..=*high).contains(&u32::from(one)))
}

/// Every end of a rule that begins at a place.
fn ends(rule: &Rule, chars: &[char], at: usize) -> Ends {
    let next = chars.get(at);
    match rule {
        In(ranges) => {
            next.filter(|one| within(ranges, **one)).map(|_| at + 1).into_iter().collect()
        }
        Out(ranges) => {
            next.filter(|one| !within(ranges, **one)).map(|_| at + 1).into_iter().collect()
        }
        Escaped(of) => [('u', 4), ('U', 8)]
            .into_iter()
            .filter(|(letter, digits)| {
                let value = escape(chars, at, *letter, *digits);
                value.is_some_and(|one| ends(of, &[one], 0).contains(&1))
            })
            .map(|(_, digits)| at + 2 + digits)
            .collect(),
        Seq(rules) => rules.iter().fold(Ends::from([at]), |starts, rule| {
            starts.into_iter().flat_map(|start| ends(rule, chars, start)).collect()
        }),
        Or(rules) => rules.iter().flat_map(|rule| ends(rule, chars, at)).collect(),
        Star(rule) => {
            let (mut all, mut new) = (Ends::from([at]), Ends::from([at]));
            while !new.is_empty() {
                new = new.iter().flat_map(|start| ends(rule, chars, *start)).collect();
                new = new.difference(&all).copied().collect();
                all.extend(&new);
            }
            all
        }
    }
}

/// The character that an escape stands for: a backslash, the letter, so many digits.
fn escape(chars: &[char], at: usize, letter: char, digits: usize) -> Option<char> {
    let text: String = chars.get(at..at + 2 + digits)?.iter().collect();
    let hex = text.strip_prefix('\\')?.strip_prefix(letter)?;
    let all = hex.bytes().all(|digit| digit.is_ascii_hexdigit());
    char::from_u32(u32::from_str_radix(hex, 16).ok().filter(|_| all)?)
}

const ANY: &[(u32, u32)] = &[(0, 0x10FFFF)];
const LETTER: &[(u32, u32)] = &[(0x41, 0x5A), (0x61, 0x7A)];
const LETTER_DIGIT: &[(u32, u32)] = &[(0x30, 0x39), (0x41, 0x5A), (0x61, 0x7A)];
const COLON: &[(u32, u32)] = &[(0x3A, 0x3A)];

/// Letters, digits, '+', '-', '.'.
const SCHEME: &[(u32, u32)] =
    &[(0x30, 0x39), (0x41, 0x5A), (0x61, 0x7A), (0x2B, 0x2B), (0x2D, 0x2E)];

/// `#x00-#x20 < > " { } | ^ backquote backslash`
const NOT_IN_IRI: &[(u32, u32)] = &[
    (0, 0x20),
    (0x22, 0x22),
    (0x3C, 0x3C),
    (0x3E, 0x3E),
    (0x5C, 0x5C),
    (0x5E, 0x5E),
    (0x60, 0x60),
    (0x7B, 0x7D),
];

/// `PN_CHARS_U` with `[0-9]`.
const FIRST: &[(u32, u32)] = &[
    (0x30, 0x39),
    (0x41, 0x5A),
    (0x61, 0x7A),
    (0x5F, 0x5F),
    (0x3A, 0x3A),
    (0xC0, 0xD6),
    (0xD8, 0xF6),
    (0xF8, 0x2FF),
    (0x370, 0x37D),
    (0x37F, 0x1FFF),
    (0x200C, 0x200D),
    (0x2070, 0x218F),
    (0x2C00, 0x2FEF),
    (0x3001, 0xD7FF),
    (0xF900, 0xFDCF),
    (0xFDF0, 0xFFFD),
    (0x10000, 0xEFFFF),
];

/// What `PN_CHARS` has beside them.
const LATER: &[(u32, u32)] = &[(0x2D, 0x2D), (0xB7, 0xB7), (0x300, 0x36F), (0x203F, 0x2040)];

/// These characters, one after the other.
fn word(ranges: &[&'static [(u32, u32)]]) -> Rule {
    Seq(ranges.iter().map(|ranges| In(ranges)).collect())
}

fn star(rule: Rule) -> Rule {
    Star(Box::new(rule))
}

fn perhaps(rule: Rule) -> Rule {
    Or(vec![Seq(Vec::new()), rule])
}

/// A character raw or through a UCHAR.
fn spelled(ranges: &'static [(u32, u32)]) -> Rule {
    Or(vec![In(ranges), Escaped(Box::new(In(ranges)))])
}

fn white_space() -> Rule {
    star(In(&[(9, 9), (32, 32)]))
}

/// An absolute one: the scheme, then whatever an IRI holds.
fn iriref() -> Rule {
    let inner = Or(vec![Out(NOT_IN_IRI), Escaped(Box::new(Out(NOT_IN_IRI)))]);
    Seq(vec![
        In(&[(0x3C, 0x3C)]),
        spelled(LETTER),
        star(spelled(SCHEME)),
        spelled(COLON),
        star(inner),
        In(&[(0x3E, 0x3E)]),
    ])
}

fn label() -> Rule {
    let pn_chars = || Or(vec![In(FIRST), In(LATER)]);
    let dotted = Or(vec![pn_chars(), In(&[(0x2E, 0x2E)])]);
    let more = Seq(vec![star(dotted), pn_chars()]);
    Seq(vec![word(&[&[(0x5F, 0x5F)], COLON]), In(FIRST), perhaps(more)])
}

fn string() -> Rule {
    // t b n r f " ' and the backslash.
    let letters: &[(u32, u32)] = &[
        (0x74, 0x74),
        (0x62, 0x62),
        (0x6E, 0x6E),
        (0x72, 0x72),
        (0x66, 0x66),
        (0x22, 0x22),
        (0x27, 0x27),
        (0x5C, 0x5C),
    ];
    let echar = Seq(vec![In(&[(0x5C, 0x5C)]), In(letters)]);
    let raw = Out(&[(0x22, 0x22), (0x5C, 0x5C), (0xA, 0xA), (0xD, 0xD)]);
    let inner = Or(vec![raw, echar, Escaped(Box::new(In(ANY)))]);
    Seq(vec![In(&[(0x22, 0x22)]), star(inner), In(&[(0x22, 0x22)])])
}

fn literal() -> Rule {
    let several = |ranges| Seq(vec![In(ranges), star(In(ranges))]);
    let parts = star(Seq(vec![In(&[(0x2D, 0x2D)]), several(LETTER_DIGIT)]));
    let tag = Seq(vec![In(&[(0x40, 0x40)]), several(LETTER), parts]);
    let marks = word(&[&[(0x5E, 0x5E)], &[(0x5E, 0x5E)]]);
    let datatype = Seq(vec![marks, white_space(), iriref()]);
    let tail = Seq(vec![white_space(), Or(vec![datatype, tag])]);
    Seq(vec![string(), perhaps(tail)])
}

/// White space, perhaps a comment.
fn rest() -> Rule {
    let comment = Seq(vec![In(&[(0x23, 0x23)]), star(Out(&[(0xA, 0xA), (0xD, 0xD)]))]);
    Seq(vec![white_space(), perhaps(comment)])
}

struct Grammar {
    white_space: Rule,
    rest: Rule,
    subject: Rule,
    predicate: Rule,
    object: Rule,
    dot: Rule,
}

impl Grammar {
    fn new() -> Grammar {
        Grammar {
            white_space: white_space(),
            rest: rest(),
            subject: Or(vec![iriref(), label()]),
            predicate: iriref(),
            object: Or(vec![iriref(), label(), literal()]),
            dot: In(&[(0x2E, 0x2E)]),
        }
    }

    /// Every way to read a line as a triple: where its three terms and its dot begin and end.
    fn ways(&self, chars: &[char]) -> Vec<Vec<usize>> {
        let mut ways = vec![vec![0]];
        for rule in [&self.subject, &self.predicate, &self.object, &self.dot] {
            let mut next = Vec::new();
            for way in &ways {
                let from = way.last().copied().unwrap_or(0);
                for start in ends(&self.white_space, chars, from) {
                    for end in ends(rule, chars, start) {
                        next.push([&way[..], &[start, end]].concat());
                    }
                }
            }
            ways = next;
        }
        let whole = |way: &Vec<usize>| {
            let from = way.last().copied().unwrap_or(0);
            ends(&self.rest, chars, from).contains(&chars.len())
        };
        ways.retain(whole);
        ways
    }

    fn empty(&self, chars: &[char]) -> bool {
        ends(&self.rest, chars, 0).contains(&chars.len())
    }

    /// What the rules say of a line, and whether the model says the same.
    fn judge(&self, line: &[u8]) -> &'static str {
        let shown = String::from_utf8_lossy(line);
        let model = grammar::line(line);
        let Ok(text) = std::str::from_utf8(line) else {
            assert_eq!(model, Line::Wrong, "{shown}");
            return "no UTF-8";
        };
        let chars: Vec<char> = text.chars().collect();
        let ways = self.ways(&chars);
        assert!(ways.len() <= 1, "{shown} {ways:?}");
        let empty = self.empty(&chars);
        assert_eq!(empty, model == Line::Empty, "{shown}");
        assert_eq!(!ways.is_empty(), matches!(model, Line::Triple(_)), "{shown}");
        match (ways.is_empty(), empty) {
            (true, true) => "empty",
            (true, false) => "wrong",
            (false, _) => "triple",
        }
    }
}

#[test]
fn the_model_reads_the_grammars_lines_and_no_others() {
    let grammar = Grammar::new();
    let mut random = Random::new(81);
    let mut met = std::collections::BTreeMap::new();
    for _ in 0..12_000 {
        let valid = lines::triple(&mut random).bytes;
        assert_eq!(grammar.judge(&valid), "triple");
        assert_eq!(grammar.judge(&lines::empty(&mut random).bytes), "empty");
        let mut spoiled = lines::spoiled(&mut random);
        for _ in 0..random.below(2) {
            spoiled = lines::mutated(&mut random, &spoiled);
        }
        // A mutation may part the line.
        for (_, line) in grammar::lines(&spoiled) {
            *met.entry(grammar.judge(line)).or_insert(0) += 1;
        }
    }
    let often = |word: &str| met.get(word).copied().unwrap_or(0);
    assert!(often("triple") > 600 && often("wrong") > 3000 && often("no UTF-8") > 1500, "{met:?}");
    for line in lines::WRONG {
        assert_eq!(grammar.judge(line.as_bytes()), "wrong");
    }
}

/// Every string of few tokens: terms in any order, with dots and white space anywhere.
#[test]
fn short_lines_of_every_shape() {
    let grammar = Grammar::new();
    let tokens = ["<m:a>", "_:b", "\"x\"", "@en", "^^", ".", " ", "#", "-", ":"];
    let mut triples = 0;
    for number in 0..100_000 {
        let mut left = number;
        let mut line = String::new();
        for _ in 0..5 {
            line += tokens[left % 10];
            left /= 10;
        }
        triples += usize::from(grammar.judge(line.as_bytes()) == "triple");
        let behind = format!("<m:a><m:p>{line}");
        triples += usize::from(grammar.judge(behind.as_bytes()) == "triple");
    }
    assert!(triples > 600, "{triples}");
}

/// Every character for itself in every place: as white space, in an IRI, a label, a string, a tag.
#[test]
fn every_character_in_every_place() {
    let grammar = Grammar::new();
    let edges = (0..0x3100).chain(0xD7F0..0xD800).chain(0xE000..0xE010).chain(0xF8F0..0xF910);
    let edges = edges.chain(0xFDC0..0xFE00).chain(0xFFF0..0x10010).chain(0xEFFF0..0xF0010);
    for one in edges.chain(0x10FFF0..0x110000).filter_map(char::from_u32) {
        if matches!(one, '\r' | '\n') {
            continue;
        }
        for line in [
            format!("{one}<m:a><m:p>_:b."),
            format!("<m:{one}><m:p>_:b."),
            format!("<{one}m:><m:p>_:b."),
            format!("<m{one}:><m:p>_:b."),
            format!("<m:a>{one}<m:p>_:b."),
            format!("<m:a><m:p>_:{one}."),
            format!("<m:a><m:p>_:b{one}."),
            format!("<m:a><m:p>_:b{one}c."),
            format!("<m:a><m:p>\"{one}\"."),
            format!("<m:a><m:p>\"\\{one}\"."),
            format!("<m:a><m:p>\"\"@{one}."),
            format!("<m:a><m:p>\"\"@a{one}."),
            format!("<m:a><m:p>\"\"@a-{one}."),
            format!("<m:a><m:p>\"\\u000{one}\"."),
            format!("<m:a><m:p><m:\\u004{one}>."),
            format!("<m:a><m:p><m:\\u{:04X}>.", u32::from(one) & 0xFFFF),
            format!("<m:a><m:p><m:\\U{:08x}>.", u32::from(one)),
            format!("<m:a><m:p>\"\\U{:08x}\".", u32::from(one)),
            format!("<m:a><m:p>_:b.{one}"),
            format!("#{one}"),
        ] {
            grammar.judge(line.as_bytes());
        }
    }
}
