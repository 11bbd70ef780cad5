//! Questions: how they are read, and how their answers are shown.

mod common;
use common::*;

const BOOK: &str = "kind years from 2000\n\
                    lamp-1 is led 2000-2004\n\
                    lamp-1 is rear 2003-2007\n\
                    lamp-2 is led 2006\n\
                    lamp-2 near lamp-1 always\n";

/// The lines under the question's own, without their indent.
fn answers(question: &str) -> Vec<String> {
    let (printed, done) = ask(&format!("{BOOK}{question}\n"));
    assert!(done, "{printed}");
    let own = question.lines().count();
    printed.lines().skip(own).map(|line| line.trim_start().to_string()).collect()
}

#[test]
fn the_words_of_a_question() {
    let when = ["?x = lamp-1  ?w = 2003-2004", "1 answer, 12 looks"];
    assert_eq!(answers("ask ?x is led ?w and ?x is rear ?w"), when);
    assert_eq!(answers("ask ?x is led during ?w\n\nand ?x is rear during ?w  # both"), when);
    assert_eq!(answers("ask\n(?x is led ?w and\n ?x is rear ?w\n)"), when);
}

#[test]
fn and_binds_before_or_and_where_last() {
    let both_first = "ask ?x is led ?w or ?x is rear ?w and ?x near ?y ?w";
    assert_eq!(answers(both_first).len(), 3, "led twice, and no rear lamp is near another");
    let either_first = "ask (?x is led ?w or ?x is rear ?w) and ?x near ?y ?w";
    assert_eq!(
        answers(either_first),
        ["?x = lamp-2  ?y = lamp-1  ?w = 2006", "1 answer, 20 looks"]
    );
    let tested = "ask ?x is led ?w or ?x is rear ?w where ?x != lamp-1";
    assert_eq!(answers(tested), ["?x = lamp-2  ?w = 2006", "1 answer, 8 looks"]);
}

#[test]
fn tests_go_on_with_and() {
    let question = "ask ?x is ?c ?w where ?w covers 2003-2004 and ?c = led where ?x != lamp-2";
    assert_eq!(answers(question), ["?x = lamp-1  ?c = led  ?w = 2000-2004", "1 answer, 4 looks"]);
}

#[test]
fn constants_unbound_variables_and_no_answer() {
    assert_eq!(answers("ask lamp-1 is led during 2001-2002"), ["yes", "1 answer, 4 looks"]);
    assert_eq!(answers("ask lamp-1 is led during 2004-2005"), ["no answer, 4 looks"]);
    assert_eq!(answers("ask lamp-2 near lamp-1 always"), ["yes", "1 answer, 4 looks"]);
    let sides = "ask ?x is rear ?v or ?y near ?x ?w";
    let first = "?x = lamp-1  ?y = -       ?v = 2003-2007  ?w = -";
    assert_eq!(answers(sides)[0], first);
}

/// Most often a slip of the pen.
#[test]
fn a_name_that_the_book_does_not_have_is_noted() {
    let note = "Note: lde stands nowhere in the book; is led meant?";
    assert_eq!(answers("ask ?x is lde ?w"), [note, "no answer, 4 looks"]);
}

#[test]
fn several_questions_and_lines_of_the_book_between_them() {
    let text = format!("{BOOK}ask ?x is led 2006\nlamp-3 is led 2006\nask ?x is led 2006\n");
    let answers = "    ?x = lamp-2\n    ?x = lamp-3\n    2 answers, 5 looks\n";
    let printed = format!("ask ?x is led 2006\n{answers}\nask ?x is led 2006\n{answers}");
    assert_eq!(ask(&text), (printed, true));
}

#[test]
fn a_text_without_questions_has_nothing_to_ask() {
    let (printed, done) = ask(BOOK);
    assert!(!done && printed.starts_with("t.fit: there is no question here"), "{printed}");
}
