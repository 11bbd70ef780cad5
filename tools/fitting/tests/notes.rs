//! What looks like a slip of the pen is noted with its line, and stops nothing.

mod common;
use common::*;

#[test]
fn the_slips_of_one_book() {
    let text = years(
        "lamp-7 is led 2000\nlamp-7 iz led 2001\nlamp7 is led 2002\nLamp-7 is led 2003\n\
         Rücklicht is led 2001\nRu\u{308}cklicht is led 2004\n",
    );
    assert_eq!(
        notes(&text),
        [
            "t.fit:3: note: `iz` is a relation in this line only; is `is` meant?",
            "t.fit:4: note: `lamp7` differs by a hyphen from `lamp-7` (line 2)",
            "t.fit:5: note: `Lamp-7` differs by capitals from `lamp-7` (line 2)",
            "t.fit:7: note: `Ru\u{308}cklicht` looks like `Rücklicht` (line 6), its letters are put together in another way",
        ]
    );
}

#[test]
fn notes_stop_nothing() {
    let text = years("lamp-7 iz led 2001\nask ?x iz led ?w\n");
    for words in
        ["close t", "ask t", "book t", "questions t", "names t", "page t", "export t --to csv"]
    {
        let printed = command(words, &[text.replace("ask ?x iz", "ask ?x is").as_bytes()]);
        assert_eq!(printed.code, 0, "{words}");
        assert!(printed.err.starts_with("t.fit:2: note: `iz`"), "{words}: {}", printed.err);
        let quiet = command(&format!("{words} --quiet"), &[text.as_bytes()]);
        assert_eq!((quiet.code, quiet.err.as_str()), (0, ""), "{words}");
    }
}

/// Once by itself is noted; twice, in a question too, or as what other lines speak of is not.
#[test]
fn relations_that_stand_once() {
    let lone = "t.fit:2: note: `near` is a relation in this line only (the five are is, within, implies, from, to)";
    assert_eq!(notes(&years("a1 near b1 always\n")), [lone]);
    for more in [
        "a2 near b1 2001",
        "ask ?x near ?y ?w",
        "near implies beside 2001",
        "beside implies near 2001",
        "near from part always",
        "near to van always",
    ] {
        let found = notes(&years(&format!("a1 near b1 always\n{more}\n")));
        assert_eq!(found, Vec::<String>::new(), "{more}");
    }
    let twice = notes(&years("a1 near b1 always\na2 near b2 always\na3 naer b3 always\n"));
    assert!(
        twice[0].contains("`naer` is a relation in this line only; is `near` meant?"),
        "{twice:?}"
    );
}

#[test]
fn numbered_things_are_no_slips() {
    let rows: String =
        (0..300).map(|number| format!("lamp-{number} is class-{} 2000\n", number % 7)).collect();
    assert_eq!(notes(&years(&rows)), Vec::<String>::new());
    assert_eq!(
        notes(&years("van-a is van-class 2000\nvan-b is van-class 2000\n")),
        Vec::<String>::new()
    );
}

#[test]
fn a_name_in_quotes_is_another_thing() {
    let found = notes(&years("lamp is led 2000\nlamp is \"led\" 2001\n"));
    assert_eq!(found, ["t.fit:3: note: \"led\" in quotes is another thing than `led` (line 2)"]);
}

/// A text full of slips is not answered with a text full of notes.
#[test]
fn twenty_notes_are_enough() {
    let rows: String = (0..100)
        .map(|number| format!("lamp-{number} is led 2000\nLamp-{number} is led 2000\n"))
        .collect();
    let found = notes(&years(&rows));
    assert_eq!(found.len(), 21);
    assert_eq!(found[20], "t.fit: and 80 more notes");
}
