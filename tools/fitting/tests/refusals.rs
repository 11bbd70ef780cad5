//! Every number that a text can provoke: the advice first, the line it is about, and the document's
//! number and words behind.

mod common;
use common::*;
use fitting::calls::Refusal;
use fitting::refusal::{advice, words, Refused};

/// The book is refused, in closing and in asking, and the message is this.
fn book(text: &str, lines: &[&str]) {
    for found in [close(text), ask(&format!("{text}ask ?a is led ?w\n"))] {
        assert_eq!((found.0.lines().collect::<Vec<&str>>(), found.1), (lines.to_vec(), false));
    }
}

/// The question under a book of one row is refused, and its lines are these.
fn question(kind: &str, question: &str, lines: &[&str]) {
    let text = format!("kind {kind}\nlamp is led always\n{question}\nask ?a is led ?w\n");
    let (asked, done) = ask(&text);
    let own = question.lines().count();
    let found: Vec<&str> = asked.lines().skip(own).take(lines.len()).map(str::trim_start).collect();
    assert_eq!(found, lines, "{asked}");
    assert!(!done && asked.contains("?a = lamp"), "the next question is asked: {asked}");
    let checked = command("check t", &[text.as_bytes()]);
    assert_eq!((checked.code, checked.out.len()), (1, 0));
    assert!(checked.err.contains(lines[0]), "{}", checked.err);
}

/// The bytes of a book are refused as that, and this is said of them.
fn bytes(book: &[u8], number: u32, place: usize, says: &str) {
    let printed = command("text t", &[book]);
    let words = words(number);
    let said = format!("t.fit: {says}\n    (refused {number}, field at byte {place}: {words})\n");
    assert_eq!((printed.err, printed.out.len(), printed.code), (said, 0, 1), "{book:?}");
}

#[test]
fn number_2() {
    let says = "a text has one line that says the kind, and it comes first: kind years from 2000";
    let words = "no head first (empty book included), length neither 4 nor 5 or not the edition's, second head";
    let nothing = format!("t.fit: {says}\n    (refused 2, field at byte 0: {words})\n");
    assert_eq!(close("# nothing\n"), (nothing, false));
    let second = "kind years from 2000\nlamp is led 2000\n\nkind degree\nlamp is led 3\n";
    book(
        second,
        &[
            &format!("t.fit:4: {says}"),
            "    kind degree",
            &format!("    (refused 2, field at byte 24: {words})"),
        ],
    );
}

#[test]
fn number_5() {
    for year in ["1899", "2101"] {
        let line = format!("kind years from {year}");
        let advice = "t.fit:1: the first year of a book is from 1900 to 2100";
        book(
            &format!("{line}\n"),
            &[advice, &format!("    {line}"), "    (refused 5, field at byte 0: base year)"],
        );
    }
}

#[test]
fn number_36() {
    let line = "kind degree rules 3";
    let advice = "t.fit:1: there are two rule sets, 1 and 2: write rules 2 behind the kind, or leave it out for rule set 1";
    book(
        &format!("{line}\nlamp is led 700\n"),
        &[advice, &format!("    {line}"), "    (refused 36, field at byte 0: rule set unknown)"],
    );
}

#[test]
fn numbers_9_and_10() {
    let name = "the relation is a name, not a quoted text or a blank";
    let nine = [
        &format!("t.fit:3: {name}"),
        "    lamp \"is\" led 2000",
        "    (refused 9, field at byte 24: predicate not a name)",
    ];
    book(&years("lamp is led 2000\nlamp \"is\" led 2000\n"), &nine);
    book(
        &years("lamp _is led 2000\n"),
        &[
            &format!("t.fit:2: {name}"),
            "    lamp _is led 2000",
            "    (refused 9, field at byte 7: predicate not a name)",
        ],
    );
    for (kind, degree) in [("degree", "1001"), ("strict", "0")] {
        let line = format!("lamp is led {degree}");
        let ten = [
            "t.fit:2: degrees are from 1 to 1000",
            &format!("    {line}"),
            "    (refused 10, field at byte 7: annotation illegal)",
        ];
        book(&format!("kind {kind}\n{line}\n"), &ten);
    }
    let nine = [
        &format!("t.fit:4: {name}"),
        "and ?x \"is\" led ?w",
        "(refused 9, field at byte 24: predicate not a name)",
    ];
    question("degree", "ask ?x is led ?w\nand ?x \"is\" led ?w", &nine);
    let ten = [
        "t.fit:3: degrees are from 1 to 1000",
        "ask ?x is led 0",
        "(refused 10, field at byte 0: annotation illegal)",
    ];
    question("degree", "ask ?x is led 0", &ten);
}

/// Reading's, at the row that finds no room; closing's, for the whole book. Both name the 1,024
/// rows.
#[test]
fn number_12_of_a_book() {
    let rows: String = (0..1025).map(|number| format!("n{number} near led 2000\n")).collect();
    let line = "t.fit:1026: there is room for 1,024 rows, and this line would be one more";
    book(
        &years(&rows),
        &[line, "    n1024 near led 2000", "    (refused 12, field at byte 17415: no room)"],
    );
    let fits: String = (0..1024).map(|number| format!("n{number} near led 2000\n")).collect();
    assert!(close(&years(&fits)).1);
    let chain: String =
        (0..60).map(|number| format!("n{number} within n{} 2000\n", number + 1)).collect();
    let closing = "t.fit: there is room for 1,024 rows, and more than that follow from this book: \
                   write a book for each maker, or fewer classes";
    book(&years(&chain), &[closing, "    (refused 12: no room)"]);
}

#[test]
fn number_12_of_a_question() {
    let rows: String = (0..257).map(|number| format!("n{number} is led 2000\n")).collect();
    let (asked, done) = ask(&years(&format!("{rows}ask ?x is led ?w\n")));
    assert_eq!(asked.lines().filter(|line| line.contains("?x = ")).count(), 256);
    let last = "    t.fit:259: there are more than 256 answers; these are the first 256\n        (refused 12: no room)\n";
    assert!(!done && asked.ends_with(&format!("{last}    256 answers, 257 looks\n")), "{asked}");
}

#[test]
fn number_13() {
    let room = "t.fit: a book has room for 3,854 lines; the same line written twice counts twice";
    book(
        &years(&"lamp is led 2000\n".repeat(3855)),
        &[room, "    (refused 13: book over 65,535 bytes)"],
    );
    assert!(close(&years(&"lamp is led 2000\n".repeat(3854))).1);
}

#[test]
fn number_19() {
    let advice = "a question has at most 16 variables for names and 8 that say when";
    let terms = (0..9).map(|number| format!("?x{number} near ?y{number} ?w")).collect::<Vec<_>>();
    question("degree", &format!("ask {}", terms.join(" and ")), &[&format!("t.fit:3: {advice}")]);
    let anns = (0..9).map(|number| format!("?x is led ?w{number}")).collect::<Vec<_>>();
    let nineteen = "(refused 19, field at byte 192: variable number too large)";
    question(
        "degree",
        &format!("ask {}", anns.join("\nand ")),
        &[&format!("t.fit:11: {advice}"), "and ?x is led ?w8", nineteen],
    );
}

#[test]
fn number_20() {
    let parts = |triples: usize| format!("ask {}", vec!["?x is led ?w"; triples].join("\nand "));
    let counted = advice(Refused::Question, Refusal { number: 20, place: 384 }).unwrap();
    assert!(counted.contains("each `and` or `or` between them, and each test"), "{counted}");
    let twenty = "(refused 20, field at byte 384: a 33rd part)";
    question("degree", &parts(17), &[&format!("t.fit:19: {counted}"), "and ?x is led ?w", twenty]);
    let (_, done) = ask(&format!("kind degree\nlamp is led 1\n{} where ?x = lamp\n", parts(16)));
    assert!(done, "32 parts");
}

#[test]
fn numbers_21_and_22() {
    let bound = advice(Refused::Question, Refusal { number: 21, place: 0 }).unwrap();
    let place = format!("t.fit:4: {bound}");
    let number = "(refused 21, ONLY field at byte 0: test names a variable not surely bound by its own part)";
    question("degree", "ask ?x is led ?w\nwhere ?y = lamp", &[&place, "where ?y = lamp", number]);
    question("degree", "ask ?x is led ?w or ?y is led ?w\nwhere ?v covers 3", &[&place]);
    let instead = advice(Refused::Question, Refusal { number: 22, place: 24 }).unwrap();
    assert!(instead.ends_with("or use another variable there"), "{instead}");
    let outside = "ask ?x is led ?w and\n(?x is led ?w where ?w covers 3)";
    let words = "test's annotation variable also stands in a TRIPLE outside that part";
    let number = format!("(refused 22, ONLY field at byte 24: {words})");
    question(
        "degree",
        outside,
        &[&format!("t.fit:4: {instead}"), "(?x is led ?w where ?w covers 3)", &number],
    );
    let at_the_end = "ask ?x is led ?w and\n?x is led ?w where ?w covers 3\n";
    assert!(ask(&format!("kind degree\nlamp is led always\n{at_the_end}")).1);
}

/// The head of a book of degrees, and a row of it, as bytes.
const DEGREE: [u8; 7] = [1, 0, 4, 1, 3, 0, 0];
const ROW: [u8; 17] = [3, 0, 14, 0, 10, 0, 0, 0, 11, 0, 0, 0, 0, 0, 0, 0, 1];

/// Bytes have no lines to write otherwise: what is said of them is true of bytes.
#[test]
fn numbers_of_a_head_that_is_bytes() {
    let head =
        "a book begins with its head (tag 1), which is 4 long in edition 1 and 5 long in edition 2";
    for wrong in [
        &[][..],
        &ROW,
        &[1, 0, 3, 1, 3, 0],
        &[1, 0, 6, 2, 3, 0, 0, 1, 0],
        &[1, 0, 5, 1, 3, 0, 0, 1],
        &[1, 0, 4, 2, 3, 0, 0],
    ] {
        bytes(wrong, 2, 0, head);
    }
    bytes(&[DEGREE, DEGREE].concat(), 2, 7, "a book has one head, and this is a second");
    let edition = "there are two editions of books, 1 and 2, and the head says another";
    bytes(&[1, 0, 5, 3, 3, 0, 0, 1], 3, 0, edition);
    let rules = "there are two rule sets, 1 and 2, and the head says another";
    bytes(&[1, 0, 5, 2, 3, 0, 0, 3], 36, 0, rules);
    let year = "the first year of a book is from 1900 to 2100, and 0 in a kind without years";
    bytes(&[1, 0, 4, 1, 3, 7, 208], 5, 0, year);
    bytes(&[1, 0, 4, 1, 1, 0, 0], 5, 0, year);
    bytes(&[1, 0, 4, 1, 2, 0, 0], 4, 0, "these are not the bytes of a book");
}

#[test]
fn numbers_of_rows_that_are_bytes() {
    bytes(&[&DEGREE[..], &ROW[..16]].concat(), 1, 7, "the bytes of the book are cut short");
    let none = [&ROW[..16], &[0]].concat();
    let holds =
        "a row holds to a degree from 1 to 1000, or in at least one year or combination of sheets";
    for head in [DEGREE, [1, 0, 4, 1, 1, 7, 208], [1, 0, 4, 1, 5, 0, 0]] {
        bytes(&[&head[..], &none].concat(), 10, 7, holds);
    }
    let rows: Vec<u8> = (5..1030_u16)
        .flat_map(|name| [&ROW[..3], &name.to_be_bytes(), &ROW[5..]].concat())
        .collect();
    let room = "there is room for 1,024 rows, and this row would be one more";
    bytes(&[&DEGREE[..], &rows].concat(), 12, 7 + 17 * 1024, room);
    let long = command("text t", &[&[0; 65_536]]);
    let said =
        "t.fit: a book is at most 65,535 bytes long\n    (refused 13: book over 65,535 bytes)\n";
    assert_eq!((long.err.as_str(), long.code), (said, 1));
}

/// Every number of the document has its words.
#[test]
fn numbers_have_words() {
    for number in (0..=24).chain([26, 27, 28, 36, 39]) {
        assert!(!words(number).starts_with("a number that"), "{number}");
    }
    assert!(words(99).starts_with("a number that"));
}
