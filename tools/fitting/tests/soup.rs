//! Texts of words thrown together: no text makes the reader fail, and whatever it accepts is in the
//! document's shape, so that the library refuses it only by a number that a text can provoke.

mod common;
use common::command;
use std::collections::BTreeMap;
use trial::programs::{close_book_program, counter_program};

struct Dice(u64);

impl Dice {
    fn below(&mut self, most: usize) -> usize {
        self.0 =
            self.0.wrapping_mul(6_364_136_223_846_793_005).wrapping_add(1_442_695_040_888_963_407);
        (self.0 >> 33) as usize % most
    }

    fn one<'a>(&mut self, words: &[&'a str]) -> &'a str {
        words[self.below(words.len())]
    }
}

const TERMS: [&str; 8] = ["lamp", "led", "van", "is", "within", "implies", "_b", "\"12 volt\""];
const VARIABLES: [&str; 3] = ["?x", "?y", "?z"];
const NOISE: [&str; 12] =
    ["(", ")", ",", "and", "or", "where", "\n", "always", "?w", "2005", "kind", "\"open"];

fn term(dice: &mut Dice, asks: bool) -> &'static str {
    if asks && dice.below(2) == 0 {
        dice.one(&VARIABLES)
    } else {
        dice.one(&TERMS)
    }
}

fn when(dice: &mut Dice, kind: &str) -> &'static str {
    match kind {
        "years from 2000" => dice.one(&["2000-2002, 2005-2007", "2063", "always", "2003"]),
        "sheets maker, importer" => {
            dice.one(&["maker", "maker + importer", "maker, importer", "always"])
        }
        _ => dice.one(&["1", "700", "1000", "always", "0", "1001"]),
    }
}

fn triple(dice: &mut Dice, kind: &str, asks: bool) -> String {
    let relation = if dice.below(9) == 0 { term(dice, asks) } else { dice.one(&TERMS[..6]) };
    let when = if asks && dice.below(3) > 0 { dice.one(&["?w", "?v"]) } else { when(dice, kind) };
    format!("{} {relation} {} {when}", term(dice, asks), term(dice, asks))
}

fn group(dice: &mut Dice, kind: &str, depth: usize) -> String {
    if depth == 0 {
        return triple(dice, kind, true);
    }
    let (left, right) = (group(dice, kind, depth - 1), group(dice, kind, depth - 1));
    match dice.below(5) {
        0 => left,
        1 => format!("( {left} or {right} )"),
        2 => format!("{left} and {right}"),
        3 => format!(
            "( {left} where {} {} {} )",
            term(dice, true),
            dice.one(&["=", "!="]),
            term(dice, true)
        ),
        _ => format!("( {left} where {} covers {} )", dice.one(&["?w", "?v"]), when(dice, kind)),
    }
}

/// Lines and questions, with a word lost or put in now and then.
fn soup(dice: &mut Dice) -> String {
    let kind = dice.one(&["years from 2000", "sheets maker, importer", "degree", "strict"]);
    let rules = dice.one(&["", " rules 2", " rules 2", " rules 1", " rules 3", " rules"]);
    let mut lines = vec![format!("kind {kind}{rules}")];
    for _ in 0..dice.below(6) {
        lines.push(triple(dice, kind, false));
    }
    for _ in 0..1 + dice.below(3) {
        let depth = dice.below(6);
        lines.push(format!("ask {}", group(dice, kind, depth)));
    }
    let mut text = lines.join(" \n ");
    for _ in 0..dice.below(3).saturating_sub(1) {
        let mut words: Vec<&str> = text.split(' ').collect();
        let at = dice.below(words.len());
        match dice.below(2) {
            0 => words[at] = dice.one(&NOISE),
            _ => words.insert(at, dice.one(&NOISE)),
        }
        text = words.join(" ");
    }
    text
}

fn bytes(words: &str, text: &str) -> Option<Vec<u8>> {
    let printed = command(words, &[text.as_bytes()]);
    Some(printed.out).filter(|_| printed.code == 0)
}

#[test]
fn what_is_accepted_is_in_the_documents_shape() {
    let mut dice = Dice(8);
    let mut numbers: BTreeMap<u32, usize> = BTreeMap::new();
    for _ in 0..4_000 {
        let text = soup(&mut dice);
        let (Some(book), Some(questions)) = (bytes("book t", &text), bytes("questions t", &text))
        else {
            continue;
        };
        let printed = close_book_program(&book) + &counter_program(&questions);
        for line in printed.lines() {
            let mut words = line.split(' ');
            if let Some("asked" | "refused") = words.next() {
                *numbers.entry(words.next().unwrap().parse().unwrap()).or_default() += 1;
            }
        }
    }
    let from_text = [0, 2, 5, 9, 10, 12, 13, 19, 20, 21, 22, 36];
    assert!(numbers.keys().all(|number| from_text.contains(number)), "{numbers:?}");
    let dealt = |number: u32| numbers.get(&number).copied().unwrap_or(0);
    assert!(dealt(0) > 1_000 && dealt(21) > 100 && dealt(22) > 10, "{numbers:?}");
    assert!(dealt(36) > 100, "{numbers:?}");
}

/// Every command ends with one of the exit codes, and says something where it refuses.
#[test]
fn no_text_makes_a_command_fail() {
    let mut dice = Dice(23);
    for _ in 0..300 {
        let text = soup(&mut dice);
        for words in [
            "check t",
            "close t",
            "ask t --looks 2000",
            "page t --looks 2000",
            "names t",
            "export t --to csv --closed",
        ] {
            let printed = command(words, &[text.as_bytes()]);
            assert!(
                printed.code == 0 || printed.code == 1 && printed.err.len() + printed.out.len() > 0,
                "{text}"
            );
        }
    }
}

/// Bytes thrown together, as every sort of file.
#[test]
fn no_bytes_make_a_command_fail() {
    let mut dice = Dice(42);
    let pieces: [&[u8]; 16] = [
        b"kind degree\n",
        b"lamp ",
        b"is ",
        b"\"",
        b"<m:a> ",
        b"\\u",
        b"3\n",
        b"\x01\0\x04\x01\x01\x07\xD0",
        b"\xFF",
        b"\xEF\xBB\xBF",
        b"_:b ",
        b".\n",
        b",",
        b"subject,relation,object,degree\n",
        b"\r",
        b"5 ",
    ];
    for _ in 0..2_000 {
        let bytes: Vec<u8> =
            (0..dice.below(12)).flat_map(|_| pieces[dice.below(pieces.len())].to_vec()).collect();
        for words in [
            "check t",
            "text t",
            "import t --from csv",
            "import t --from nt --kind degree --when 3",
        ] {
            let printed = command(words, &[&bytes]);
            assert!(printed.code == 0 || !printed.err.is_empty(), "{words}: {bytes:?}");
        }
        command("text t --names names", &[b"\x01\0\x04\x01\x01\x07\xD0", &bytes]);
    }
}
