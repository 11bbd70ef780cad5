//! What holds by one book and not by the other, by years.

mod common;
use common::*;

fn diff(left: &str, right: &str) -> Printed {
    command("diff t t --quiet", &[left.as_bytes(), right.as_bytes()])
}

#[test]
fn years_that_only_one_book_has() {
    let left = years("lamp is led 2000-2005\nled within light always\n");
    let right = years("lamp is led 2003-2007\nled within light always\nbulb is light 2001\n");
    let shown = "- holds by t.fit alone, + by u.fit alone\n\
                 +  bulb  is  light  2001\n\
                 -  lamp  is  led    2000-2002\n\
                 +  lamp  is  led    2006-2007\n\
                 -  lamp  is  light  2000-2002\n\
                 +  lamp  is  light  2006-2007\n";
    assert_eq!(diff(&left, &right), Printed { out: shown.into(), err: String::new(), code: 0 });
}

#[test]
fn the_same_lines_in_another_order_are_the_same_book() {
    let left = years("lamp is led 2000\nled within light always\n");
    let right = years("led within light always\nlamp is light 2000\nlamp is led 2000\n");
    assert_eq!(diff(&left, &right).text(), "the same holds by t.fit and u.fit\n");
}

/// 1995 to 2058 against 2000 to 2063: compared by the years themselves.
#[test]
fn books_that_begin_with_other_years() {
    let left = "kind years from 1995\nlamp is led 1998-2003\ndoor is part always\n";
    let right = years("lamp is led 2000-2003\ndoor is part always\n");
    let shown = "- holds by t.fit alone, + by u.fit alone\n\
                 -  door  is  part  1995-1999\n\
                 +  door  is  part  2059-2063\n\
                 -  lamp  is  led   1998-1999\n";
    assert_eq!(diff(left, &right).text(), shown);
}

#[test]
fn degrees_and_kinds() {
    let (left, right) = (
        "kind degree\nlamp is led 700\nvan is big 5\n",
        "kind degree\nlamp is led 500\nvan is big 5\n",
    );
    let shown =
        "- holds by t.fit alone, + by u.fit alone\n-  lamp  is  led  700\n+  lamp  is  led  500\n";
    assert_eq!(diff(left, right).text(), shown);
    let refused = diff(left, "kind strict\nlamp is led 500\n");
    let words = "t.fit says `kind degree`, u.fit says `kind strict`: books of two kinds cannot be compared\n";
    assert_eq!((refused.err.as_str(), refused.code), (words, 1));
}

/// Combinations that are enough by one book alone; books that name other sheets are not compared.
#[test]
fn sheets_are_compared_by_their_combinations() {
    let head = "kind sheets maker, importer\n";
    let (left, right) =
        (format!("{head}a is b maker\n"), format!("{head}a is b maker + importer\n"));
    let shown = "- holds by t.fit alone, + by u.fit alone\n-  a  is  b  maker\n";
    assert_eq!(diff(&left, &right).text(), shown);
    let other = diff(&left, "kind sheets importer, maker\na is b maker\n");
    assert!(other.err.contains("books of two kinds cannot be compared"), "{}", other.err);
}

#[test]
fn a_fault_says_which_book_it_is_in() {
    let printed = diff(&years("lamp is led 2000\n"), &years("lamp is led 1999\n"));
    assert!(
        printed.err.starts_with("u.fit:2: year 1999 is outside") && printed.code == 1,
        "{}",
        printed.err
    );
}
