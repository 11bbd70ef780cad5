//! The examples of the repository, from text to bytes, through the library, and back to text.

mod common;
use common::*;

#[test]
fn lamps_give_their_listing_and_answers() {
    let text = example("lamps.fit");
    assert_eq!(close(&text), (example("lamps.close.txt"), true));
    assert_eq!(ask(&text), (example("lamps.ask.txt"), true));
    assert_eq!(notes(&text), Vec::<String>::new());
}

#[test]
fn degrees_give_their_listing_and_answers() {
    let text = example("degrees.fit");
    assert_eq!(close(&text), (example("degrees.close.txt"), true));
    assert_eq!(ask(&text), (example("degrees.ask.txt"), true));
    assert_eq!(notes(&text), Vec::<String>::new());
}

/// A class from one sheet and a subclass line from another prove a line together.
#[test]
fn sheets_give_their_listing_and_answers() {
    let text = example("sheets.fit");
    assert_eq!(close(&text), (example("sheets.close.txt"), true));
    assert_eq!(ask(&text), (example("sheets.ask.txt"), true));
    assert_eq!(notes(&text), Vec::<String>::new());
}

/// By the second rule set classes lie within themselves, and relations imply themselves.
#[test]
fn the_importers_book_gives_its_listing_and_answers() {
    let text = example("rules2.fit");
    assert_eq!(close(&text), (example("rules2.close.txt"), true));
    assert_eq!(ask(&text), (example("rules2.ask.txt"), true));
    assert_eq!(notes(&text), Vec::<String>::new());
}

/// Known for 2000 to 2002 and 2005 to 2007: no row and no answer has the years between.
#[test]
fn the_two_runs_of_the_example_stay_two() {
    let (listing, _) = close(&example("lamps.fit"));
    let of_class = |line: &&str| line.starts_with("lamp-7") && line.contains(" is ");
    let classes = listing.lines().filter(of_class).filter(|line| line.contains("lamp  "));
    let classes: Vec<&str> = classes.collect();
    assert_eq!(classes.len(), 3, "{listing}");
    assert!(classes.iter().all(|line| line.contains("2000-2002, 2005-2007")), "{listing}");
}

/// A listing is a text of its own: closed again it is the same, with nothing that follows.
#[test]
fn a_listing_reads_back_as_a_closed_book() {
    for name in ["lamps.fit", "degrees.fit", "sheets.fit", "rules2.fit"] {
        let (listing, _) = close(&example(name));
        let without: Vec<&str> =
            listing.lines().map(|line| line.split("  #").next().unwrap().trim_end()).collect();
        let (again, done) = close(&listing);
        assert!(done);
        assert_eq!(again.lines().collect::<Vec<&str>>(), without);
    }
}

/// The same lines in any order give the same listing and the same answers.
#[test]
fn the_order_of_the_lines_does_not_matter() {
    let text = example("lamps.fit");
    let is_row = |line: &&str| {
        !line.is_empty() && !line.starts_with(['#', 'k', 'a', 'w']) && !line.starts_with("ask")
    };
    let mut rows: Vec<&str> = text.lines().filter(is_row).collect();
    let questions =
        text.lines().skip_while(|line| !line.starts_with("ask")).collect::<Vec<&str>>().join("\n");
    let (listing, answers) = (close(&text), ask(&text));
    for turn in 1..rows.len() {
        rows.rotate_left(turn);
        rows.reverse();
        let turned = years(&format!("{}\n{questions}\n", rows.join("\n")));
        assert_eq!(close(&turned), listing);
        assert_eq!(ask(&turned), answers);
    }
}

/// A row that holds for more years than the book's own lines say is marked too.
#[test]
fn a_row_in_the_book_for_less_is_marked() {
    let text =
        years("lamp is led 2000\nlamp is led 2002\nlamp is tail 2005\ntail within led always\n");
    let row = "lamp  is      led   2000, 2002, 2005  # in the book for less\n";
    assert!(close(&text).0.contains(row), "{}", close(&text).0);
}

/// The bytes of a small text, field by field.
#[test]
fn bytes_are_those_of_the_document() {
    let text = "kind years from 2000\nlamp is _x 2003-2006\n\"a\" within lamp always\n\
                ask ?x is lamp ?w where ?w covers 2000\n";
    let book = "01 0004 01 01 07d0 \
                03 000e 0005 0002 4000 0000000000000078 \
                03 000e 8000 0001 0005 ffffffffffffffff";
    let question = "13 0023 \
                    10 0012 01 0000 00 0002 00 0005 01 0000000000000000 \
                    14 000b 02 0000 0000000000000001";
    assert_eq!(command("book t", &[text.as_bytes()]).out, hex(book));
    let counter = format!("0029 {book} 0026 {question}");
    assert_eq!(command("questions t", &[text.as_bytes()]).out, hex(&counter));
}

fn hex(text: &str) -> Vec<u8> {
    let digits: String = text.split_whitespace().collect();
    let pairs = (0..digits.len()).step_by(2).map(|at| &digits[at..at + 2]);
    pairs.map(|pair| u8::from_str_radix(pair, 16).unwrap()).collect()
}

/// P1, P2, P11 of the document.
#[test]
fn bench_examples_as_text() {
    let p1 = years("lamp is led 2003-2006\nled within light 2005-2010\n");
    let both = "ask ?x is led ?w and ?x is light ?w\n";
    let listing = "kind years from 2000\n\
                   lamp  is      led    2003-2006\n\
                   lamp  is      light  2005-2006  # follows\n\
                   led   within  light  2005-2010\n";
    assert_eq!(close(&p1), (listing.to_string(), true));
    let answer = format!("{both}    ?x = lamp  ?w = 2005-2006\n    1 answer, 6 looks\n");
    assert_eq!(ask(&format!("{p1}{both}")), (answer, true));
    let p2 = years("lamp is led 2000-2002\nlamp is led 2005-2007\n");
    let listing = "kind years from 2000\nlamp  is  led  2000-2002, 2005-2007\n";
    assert_eq!(close(&p2), (listing.to_string(), true));
}

/// A name longer than any column; the other lines stay narrow.
#[test]
fn a_very_long_name_is_listed() {
    let long = "l".repeat(70_000);
    let text = years(&format!("{long} is led 2000\nlamp is led 2001\n"));
    let listing = format!("kind years from 2000\nlamp  is  led  2001\n{long}  is  led  2000\n");
    assert_eq!(close(&text), (listing, true));
    let (answers, done) = ask(&format!("{text}ask ?x is led 2000\n"));
    assert!(done && answers.contains(&format!("    ?x = {long}\n    1 answer, 2 looks\n")));
}
