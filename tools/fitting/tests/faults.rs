//! What is wrong with a text is said with its line, in plain words.

mod common;
use fitting::text::read;

/// The faults of a text as `LINE: WORDS`.
fn faults(text: &[u8]) -> Vec<String> {
    match read(text) {
        Ok(_) => Vec::new(),
        Err(faults) => {
            faults.kept().iter().map(|fault| format!("{}: {}", fault.line, fault.words)).collect()
        }
    }
}

/// The one fault of a book's second line begins like this.
fn second_line(line: &str, begins: &str) {
    let found = faults(common::years(&format!("{line}\n")).as_bytes());
    assert_eq!(found.len(), 1, "{line}: {found:?}");
    assert!(found[0].starts_with(&format!("2: {begins}")), "{line}: {}", found[0]);
}

#[test]
fn wrong_years() {
    second_line("lamp is led 2007-2005", "the run 2007-2005 is backwards: write 2005-2007");
    second_line("lamp is led 1999", "year 1999 is outside this book's years, 2000 to 2063");
    second_line("lamp is led 2064", "year 2064 is outside");
    second_line("lamp is led 2060-2064", "year 2064 of 2060-2064 is outside");
    second_line("lamp is led 20O5", "`20O5` is not a year");
    second_line("lamp is led 2000,", "something is missing behind the `,`");
    second_line(
        "lamp is led 2000 and 2002",
        "`and` belongs in questions; between years stands a comma",
    );
    second_line("lamp is led always 2005", "`2005` is too much in this line");
    second_line("lamp is led 2005, always", "`always` stands alone");
    second_line("lamp is led Always", "`Always` is written in small letters: `always`");
    second_line("lamp is led During 2005", "`During` is written in small letters: `during`");
    second_line("lamp is led during during 2005", "`during` stands once, before all");
    second_line("lamp is led", "say when: years such as 2000-2002, 2005, or `always`");
    second_line("lamp is led during", "behind `during` stand years");
}

/// What people write for years, and what to write instead.
#[test]
fn years_in_other_words() {
    second_line("lamp is led 2001 to 2005", "2001 to 2005: write 2001-2005");
    second_line("lamp is led 2000 - 2002", "2000 - 2002: write 2000-2002");
    second_line(
        "lamp is led since 2001",
        "since 2001: write 2001-2063; this book's years end with 2063",
    );
    second_line(
        "lamp is led until 2005",
        "until 2005: write 2000-2005; this book's years begin with 2000",
    );
    second_line("lamp is led 2001-", "2001-: write 2001-2063");
    second_line("lamp is led 2000-02", "2000-02: write 2000-2002");
    second_line("ask ?x is led since 2001", "since 2001: write 2001-2063");
    second_line("lamp is led 2001; 2003", "2001;: no semicolon is wanted");
    second_line(
        "lamp;is;led;2001",
        "lamp;is;led;2001: no semicolon is wanted: words stand apart by spaces",
    );
    second_line("lamp, is, led, 2001", "no comma is wanted here: words stand apart by spaces");
    second_line("lamp is led, 2001", "no comma is wanted here");
    second_line("ask ?x, is led ?w", "no comma is wanted here");
}

#[test]
fn wrong_terms() {
    second_line("lamp", "the relation is missing");
    second_line("lamp is", "the object is missing");
    second_line("lamp is 2000-2002", "`2000-2002` stands where the object should be");
    second_line("lamp is rear light 2000", "`light` is not a year");
    second_line("lamp Is led 2000", "`Is` is written in small letters: `is`");
    second_line("lamp type led 2000", "`type` is written `is` here");
    second_line("lamp is ?x 2000", "`?x` is a variable; only a question has them");
    second_line("lamp is led ?w", "`?w` is a variable; only a question has them");
    second_line("lamp is led (2000)", "`(` is too much in this line");
    second_line("lamp is \"led 2000", "a quote is opened and not closed");
    second_line(r#"lamp is "l\ed" 2000"#, "in quotes, \\ stands only before");
    second_line("lamp is <led 2000", "an IRI in < > has no space in it");
    second_line("lamp is <led>x 2000", "behind `>` stands a space");
    second_line("lamp is “led” 2000", "“led”: use plain quotes");
    second_line("lamp is 5\" 2000", "5\": a quote stands at the beginning of a word only");
    second_line("lamp is _ 2000", "a blank needs a name");
    second_line(r#"lamp is "van"2000"#, "behind a closing quote stands a space");
    second_line(r#"lamp is "5"" pipe" 2000"#, "behind a closing quote stands a space");
    second_line("lamp is l\u{7}d 2000", "there is a character here that cannot be seen: U+0007");
    second_line("and lamp is led 2000", "this line goes on with a question, but none is right");
}

#[test]
fn wrong_questions() {
    second_line("ask", "the subject is missing");
    second_line("ask ?x is led", "say when");
    second_line("ask (?x is led ?w", "a `(` of this line is not closed");
    second_line("ask ?x is led ?w)", "this `)` closes nothing");
    second_line("ask ?x is led ?w and", "the subject is missing");
    second_line("ask ?x is led ?w ?x is rear ?w", "`?x` where `and`, `or` or `where` could go on");
    second_line(
        "ask (?x is led ?w lamp)",
        "`lamp` where `and`, `or` or `where` could go on (a parenthesis is open since line 2)",
    );
    second_line("ask ?x is led ?w where ?x", "a test is");
    second_line("ask ?x is led ?w where ?x = ", "there is nothing to compare with");
    second_line(
        "ask ?x is led ?w where ?w = 2005",
        "`?w` says when, and cannot stand for a name (it is tested by `covers`)",
    );
    second_line(
        "ask ?x is led ?w where ?x covers 2005",
        "`?x` stands for a name, and cannot say when",
    );
    second_line("ask ?x is led ?w where ?w covers ?v", "behind `covers` stand years");
    second_line("ask ?x is led ?w where led covers 2005", "a ?variable stands before `covers`");
    second_line("ask ?x is led ?w where ?x=?y", "?x=?y: a variable's name has");
    second_line("ask ?x is ?w ?w", "`?w` stands for a name, and cannot say when");
    second_line("ask ?x is led ?w where ?x = a or ?x is b ?w", "`or` stands behind a test");
    second_line(
        "ask ?x is led ?w and ?x != lamp",
        "`!=` belongs in the tests of a question, behind `where`",
    );
    second_line("ask ?x is led ?w where ?x = lamp where", "a test is");
    second_line("ask ?x is led ?w where ?x Covers 2005", "`Covers` is written in small letters");
    second_line("ask ?x is led ?w AND ?x is rear ?w", "`AND` is written in small letters: `and`");
    second_line(
        "ask ?x is led ?w where ?w covers 2005 or ?w covers 2006",
        "between tests stands `and`, never `or`",
    );
    second_line("ask ? is led ?w", "a variable needs a name");
    second_line(&format!("ask {}", "(".repeat(1_000)), "too many parentheses in one another");
    second_line(
        &format!("ask {}", "(".repeat(100_000)),
        "this is too long: a line has a handful of words",
    );
    let long = vec!["?x is led ?w"; 4_000].join("\nand ");
    second_line(
        &format!("ask {long}"),
        "this is too long: a line has a handful of words, and a question at most 32 parts",
    );
}

/// "From 2005 on" is not what a test of years says.
#[test]
fn at_least_is_for_degrees() {
    second_line(
        "ask ?x is led ?w where ?w >= 2005",
        "`>=` is for degrees; write ?when covers 2005-2006",
    );
    let sheets = faults(b"kind sheets maker\nask ?x is led ?w where ?w >= 5\n");
    assert_eq!(sheets, ["2: `>=` is for degrees; write ?when covers maker + importer"]);
    let degree = faults(b"kind degree\nask ?x is led ?d where ?d > 5\n");
    assert_eq!(degree, ["2: a test is ?x = ?y, ?x != NAME, or ?degree >= 700"]);
}

#[test]
fn wrong_kinds() {
    let one = |text: &str, begins: &str| {
        let found = faults(text.as_bytes());
        assert!(found.len() == 1 && found[0].starts_with(begins), "{text}: {found:?}");
    };
    one("lamp is led 2000\nvan is led 2000\n", "1: the first line says the kind");
    one("\n# lamps\nkind colours\nlamp is led 2000\n", "3: no kind is `colours`; the kinds are");
    one("Kind sheets\nlamp is led 3\n", "1: `Kind` is written in small letters: `kind`");
    one("kind\n", "1: the kind is missing");
    one("kind years\n", "1: the first year is missing");
    one("kind years from soon\n", "1: the first year is missing or no year");
    one("kind years from +2000\n", "1: the first year is missing or no year");
    one("kind years from 70000\n", "1: the first year is missing or no year");
    one("kind sheets\n", "1: name the sheets, at most six: kind sheets maker, importer");
    one("kind sheets a1, b1, a1\n", "1: the sheet `a1` is named twice");
    one(
        "kind sheets a, b, c, d, e, f, g\n",
        "1: `g` is one sheet too many: a book has at most six",
    );
    one("kind sheets maker\nlamp is led 3\n", "2: `3` is no sheet of this book, which has: maker");
    one(
        "kind sheets maker, importer\nlamp is led maker importer\n",
        "2: between maker and importer stands `+` if both are needed, a comma if either will do",
    );
    one("kind sheets maker\nlamp is led maker +\n", "2: on both sides of `+` stands a sheet");
    one(
        "kind degree\nlamp is led 0.7\n",
        "2: `0.7` is not a degree: degrees are whole numbers from 1 to 1000",
    );
    one("kind strict\nlamp is led 700, 800\n", "2: one degree is wanted here");
}

/// A fault in the middle of a question over several lines has its own line.
#[test]
fn each_fault_has_its_own_line() {
    let text =
        common::years("lamp is\n\nask ?x is led ?w\n  and ?x is rear 1999\nvan is led 1998\n");
    let lines: Vec<String> =
        faults(text.as_bytes()).iter().map(|fault| fault[..2].to_string()).collect();
    assert_eq!(lines, ["2:", "5:", "6:"]);
}

#[test]
fn files_that_are_no_text() {
    let latin = "2: this file is not UTF-8: byte FC is `ü` in Latin-1 (\"ANSI\", Windows-1252); save it as UTF-8";
    assert_eq!(faults(b"kind sheets\nR\xFCcklicht is led\n"), [latin]);
    let wide = "1: this file is UTF-16 (\"Unicode\" in some editors): save it as UTF-8";
    assert_eq!(faults(b"\xFF\xFEk\0"), [wide]);
    assert!(faults(b"kind sheets\rlamp is led 3\r")[0]
        .starts_with("1: the lines of this file end as on old Macs"));
}

/// What cannot be seen would make two names of one, or hide a line behind a comment.
#[test]
fn characters_that_cannot_be_seen() {
    let unseen = |line: &str, code: &str| {
        second_line(
            line,
            &format!("there is a character here that cannot be seen: {code}; take it out"),
        );
    };
    unseen("\u{FEFF}lamp is led 2000", "U+FEFF");
    for letter in [
        "200B", "200C", "200D", "FE0F", "3164", "180E", "34F", "E0041", "AD", "2800", "115F",
        "FFA0",
    ] {
        let code = u32::from_str_radix(letter, 16).unwrap();
        let hidden = char::from_u32(code).unwrap();
        for line in [
            format!("lamp is l{hidden}ed 2000"),
            format!("lamp is \"a{hidden}b\" 2000"),
            format!("# {hidden}"),
        ] {
            unseen(&line, &format!("U+{code:04X}"));
        }
    }
    unseen("lamp is \"a\u{202E}b\" 2000", "U+202E");
    unseen("# rear lamps\u{2028}lamp is led 2000", "U+2028");
    second_line(
        "# rear lamps\rlamp is led 2000",
        "a line end of an old Mac (CR) stands within this line",
    );
    second_line(
        "lamp is \"12\u{A0}volt\" 2000",
        "in quotes a blank is a plain space, and another is written \\u00A0",
    );
}

/// By an escape it can be named, and is seen.
#[test]
fn escapes_stand_for_what_cannot_be_seen() {
    let text = common::years("lamp says \"a\\u200Cb\\t\" 2000\nlamp is <m:\\u200C> 2000\n");
    let listing = "kind years from 2000\nlamp  is    <m:\\u200C>    2000\nlamp  says  \"a\\u200Cb\\t\"  2000\n";
    assert_eq!(common::close(&text), (listing.to_string(), true));
}

/// A mark at the file's beginning, tabs, line ends of another system, no line end at the end.
#[test]
fn other_peoples_editors() {
    let text = "\u{FEFF}kind years from 2000\r\n\tlamp\tis\tled\u{A0}2000–2002\r\n\r\nRücklicht is led 2001";
    let listing = "kind years from 2000\nlamp       is  led  2000-2002\nRücklicht  is  led  2001\n";
    assert_eq!(common::close(text), (listing.to_string(), true));
}

/// The names that a text can have, and one more.
#[test]
fn names_run_out() {
    let names = |count: usize| -> String {
        let rows = (0..count).map(|number| format!("n{number} is led always\n"));
        common::years(&rows.collect::<String>())
    };
    assert_eq!(faults(names(16_378).as_bytes()).len(), 0);
    let found = faults(names(16_379).as_bytes());
    assert_eq!(found, ["16380: n16378 is one name too many: a text has at most 16379"]);
    let quoted = (0..=16_384).map(|number| format!("\"n {number}\" is led always\n"));
    let found = faults(common::years(&quoted.collect::<String>()).as_bytes());
    let one = "16386: \"n 16384\" is one quoted text too many: a text has at most 16384";
    assert_eq!(found, [one]);
}

#[test]
fn questions_run_out() {
    let asked = |count: usize| common::years(&"ask ?x is led ?w\n".repeat(count));
    assert_eq!(faults(asked(10_000).as_bytes()).len(), 0);
    let found = faults(asked(10_001).as_bytes());
    assert_eq!(found, ["10002: this is one question too many: a text has at most 10,000"]);
}
