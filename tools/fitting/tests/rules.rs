//! Rule sets (C-23): what a book's first line says of them, and what is printed of reflexive lines.

mod common;
use common::*;
use fitting::text::read;

/// The importer's lines, without the first.
const LINES: &str = "lamp-7 is led 2003-2006\nled within lamp 2005-2010\n";

fn reflexive() -> String {
    format!("kind years from 2000 rules 2\n{LINES}")
}

/// P1 by rule set 2, eight rows.
const CLOSED: &str = "kind years from 2000 rules 2
implies  implies  implies  2003-2010  # follows
within   implies  within   2003-2010  # follows
is       implies  is       2003-2006  # follows
lamp     within   lamp     2005-2010  # follows
lamp-7   is       lamp     2005-2006  # follows
lamp-7   is       led      2003-2006
led      within   lamp     2005-2010
led      within   led      2003-2010  # follows
";

const WITHOUT: &str = "kind years from 2000 rules 2
lamp-7  is      lamp  2005-2006  # follows
lamp-7  is      led   2003-2006
led     within  lamp  2005-2010
# 5 reflexive lines are left out
";

fn fault(line: &str) -> String {
    let faults = read(format!("{line}\n").as_bytes()).err().unwrap_or_default();
    assert_eq!(faults.kept().len(), 1, "{line}: {faults:?}");
    assert_eq!(faults.kept()[0].line, 1);
    faults.kept()[0].words.clone()
}

#[test]
fn reflexive_lines_follow_by_rule_set_2() {
    assert_eq!(close(&reflexive()), (CLOSED.to_string(), true));
    let plain = "kind years from 2000\nlamp-7  is      lamp  2005-2006  # follows\n\
                 lamp-7  is      led   2003-2006\nled     within  lamp  2005-2010\n";
    for head in ["kind years from 2000", "kind years from 2000 rules 1"] {
        assert_eq!(close(&format!("{head}\n{LINES}")), (plain.to_string(), true));
    }
}

#[test]
fn a_listing_of_rule_set_2_is_a_closed_book() {
    let (again, done) = close(CLOSED);
    assert!(done);
    let without: String = CLOSED.replace("  # follows", "");
    let trimmed: Vec<&str> = without.lines().map(str::trim_end).collect();
    assert_eq!(again.lines().collect::<Vec<&str>>(), trimmed);
}

/// The first line becomes a head of edition 1, or of edition 2 where it says another rule set.
#[test]
fn the_bytes_of_the_first_line() {
    for (line, head) in [
        ("kind years from 2000", &[1, 0, 4, 1, 1, 7, 208][..]),
        ("kind years from 2000 rules 1", &[1, 0, 4, 1, 1, 7, 208]),
        ("kind years from 2000 rules 2", &[1, 0, 5, 2, 1, 7, 208, 2]),
        ("kind degree rules 2", &[1, 0, 5, 2, 3, 0, 0, 2]),
        ("kind strict rules 2", &[1, 0, 5, 2, 4, 0, 0, 2]),
        ("kind sheets maker, importer rules 2", &[1, 0, 5, 2, 5, 0, 0, 2]),
        ("kind sheets maker, rules", &[1, 0, 4, 1, 5, 0, 0]),
        ("kind sheets rules, maker rules 2", &[1, 0, 5, 2, 5, 0, 0, 2]),
    ] {
        let printed = command("book t", &[format!("{line}\n").as_bytes()]);
        assert_eq!((&printed.out[..], printed.code), (head, 0), "{line}");
        let (listing, done) = close(&format!("{line}\n"));
        let again = listing.trim_end();
        assert!(done && (again == line || line == format!("{again} rules 1")), "{listing}");
    }
}

#[test]
fn what_is_wrong_with_a_rule_set() {
    let missing = "behind `rules` stands the number of a rule set, 1 or 2";
    assert_eq!(fault("kind years from 2000 rules"), missing);
    assert_eq!(fault("kind sheets maker rules"), missing);
    assert_eq!(fault("kind degree rules ?x"), missing);
    for number in ["two", "256", "-1", "2.0"] {
        let words = format!("`{number}` is no rule set: there are rules 1 and rules 2");
        assert_eq!(fault(&format!("kind years from 2000 rules {number}")), words);
    }
    for word in ["Rules", "rule", "rulse"] {
        let words = format!("`{word}` is too much in this line; is `rules 2` meant?");
        assert_eq!(fault(&format!("kind degree {word} 2")), words);
    }
    assert_eq!(fault("kind strict rules 2 2"), "`2` is too much in this line");
    assert!(fault("kind strict, rules 2").starts_with("no comma is wanted here"));
    for line in ["kind sheets maker, rules 2", "kind sheets rules 2"] {
        assert!(fault(line).starts_with("the sheets come first, and no comma before `rules`"));
    }
    assert!(fault("kind rules 2").starts_with("no kind is `rules`"));
}

/// Whether there is such a rule set is for the library to say.
#[test]
fn a_rule_set_that_there_is_not() {
    for number in [0, 3, 255] {
        let text = format!("# lamps\nkind years from 2000 rules {number}\n{LINES}");
        for words in ["check t", "close t", "page t"] {
            let printed = command(words, &[text.as_bytes()]);
            let said = format!(
                "t.fit:2: there are two rule sets, 1 and 2: write rules 2 behind the kind, or leave it out for rule set 1\n    \
                 kind years from 2000 rules {number}\n    (refused 36, field at byte 0: rule set unknown)\n"
            );
            assert_eq!((printed.err, printed.code), (said, 1), "{words}");
        }
    }
    // The first year is judged before it.
    let text = "kind years from 1800 rules 3\n";
    assert!(command("check t", &[text.as_bytes()]).err.contains("(refused 5, field at byte 0"));
}

#[test]
fn reflexive_lines_are_left_out() {
    let text = reflexive();
    let printed = command("close t --no-reflexive", &[text.as_bytes()]);
    assert_eq!((printed.text(), printed.code), (WITHOUT, 0));
    // What the book itself says stays, for less too.
    let own = format!("{text}lamp within lamp 2006\nvan implies van always\n");
    let printed = command("close t --no-reflexive --quiet", &[own.as_bytes()]);
    assert!(printed.text().contains("2005-2010  # in the book for less\n"), "{}", printed.text());
    assert!(printed.text().contains("\nvan     implies  van   always\n"), "{}", printed.text());
    // Other lines about a thing and itself stay.
    let other = format!("{text}lamp-7 is lamp-7 2004\nlamp-7 beside lamp-7 2004\n");
    let printed = command("close t --no-reflexive --quiet", &[other.as_bytes()]);
    assert!(printed.text().contains("lamp-7  is      lamp-7  2004\n"), "{}", printed.text());
    assert!(printed.text().contains("lamp-7  beside  lamp-7  2004\n"), "{}", printed.text());
    // A ring gives some in rule set 1, too.
    let ring = years("led within lamp 2000\nlamp within led 2000\n");
    let printed = command("close t --no-reflexive --quiet", &[ring.as_bytes()]);
    assert!(printed.text().ends_with("# 2 reflexive lines are left out\n"), "{}", printed.text());
    let one = years("led within lamp 2000\nlamp within led 2000\nled within led 2000\n");
    let printed = command("close t --no-reflexive --quiet", &[one.as_bytes()]);
    assert!(printed.text().ends_with("# 1 reflexive line is left out\n"), "{}", printed.text());
    // Where there is none, nothing is said of them.
    let none = command("close t --no-reflexive", &[years(LINES).as_bytes()]);
    assert_eq!(none.text(), command("close t", &[years(LINES).as_bytes()]).text());
}

/// The listing without them closes to what the whole one does.
#[test]
fn a_listing_without_reflexive_lines_says_as_much() {
    let whole: Vec<String> =
        CLOSED.lines().map(|line| line.replace("  # follows", "").trim_end().to_string()).collect();
    let (again, _) = close(WITHOUT);
    let without: Vec<String> =
        again.lines().map(|line| line.replace("  # follows", "").trim_end().to_string()).collect();
    assert_eq!(without, whole);
}

#[test]
fn the_page_says_the_rule_set_and_what_is_not_shown() {
    let text = format!("{}ask ?class within ?class during ?when\n", reflexive());
    let whole = command("page t", &[text.as_bytes()]);
    let page = whole.text();
    assert!(page.contains("Rule set 2. 2 lines are in the book, 6 lines follow from it.</p>"));
    assert!(page.contains("<h2><bdi>implies</bdi></h2>"), "{page}");
    let shown = command("page t --no-reflexive", &[text.as_bytes()]);
    let page = shown.text();
    let words = "6 lines follow from it. Of these 5 reflexive ones are not shown.</p>";
    assert!(page.contains(words), "{page}");
    assert!(
        !page.contains("<h2><bdi>implies</bdi></h2>") && !page.contains("<h2><bdi>lamp</bdi></h2>"),
        "{page}"
    );
    // The question is asked of the whole book.
    assert!(page.contains("2 answers, 8 looks"), "{page}");
    let plain = command("page t", &[years(LINES).as_bytes()]);
    assert!(!plain.text().contains("Rule set") && !plain.text().contains("reflexive"));
}

#[test]
fn books_of_two_rule_sets_are_compared() {
    let (one, two) = (years(LINES), reflexive());
    let files = [one.as_bytes(), two.as_bytes()];
    let shown = command("diff t t", &files);
    assert_eq!(shown.text().lines().count(), 6, "{}", shown.text());
    assert!(shown.text().lines().skip(1).all(|line| line.starts_with("+  ")), "{}", shown.text());
    let same = command("diff t t --no-reflexive", &files);
    assert_eq!(same.text(), "the same holds by t.fit and u.fit\n");
    // What one of them says itself is shown.
    let own = format!("{one}lamp within lamp 2005-2010\nled within led 2001\n");
    let shown = command("diff t t --no-reflexive", &[own.as_bytes(), two.as_bytes()]);
    let lines = "- holds by t.fit alone, + by u.fit alone\n\
                 -  led  within  led  2001\n+  led  within  led  2003-2010\n";
    assert_eq!(shown.text(), lines);
    let kinds = command("diff t t", &[two.as_bytes(), b"kind degree rules 2\n"]);
    let words = "t.fit says `kind years from 2000 rules 2`, u.fit says `kind degree rules 2`: \
                 books of two kinds cannot be compared\n";
    assert_eq!((kinds.err.as_str(), kinds.code), (words, 1));
}

#[test]
fn a_table_keeps_the_rule_set() {
    let text = reflexive();
    let table = command("export t --to csv", &[text.as_bytes()]);
    let cells = "subject,relation,object,years from 2000 rules 2\r\n";
    assert!(table.text().replace('\n', "\r\n").replace("\r\r", "\r").starts_with(cells));
    let back = command("import table.csv", &[&table.out]);
    let listing = "kind years from 2000 rules 2\nlamp-7  is      led   2003-2006\n\
                   led     within  lamp  2005-2010\n";
    assert_eq!((back.text(), back.code), (listing, 0));
    // Said again, or otherwise.
    let said = command("import table.csv --kind years~from~2000~rules~2", &[&table.out]);
    assert_eq!(said.text(), listing);
    let other = command("import table.csv --kind years~from~2000", &[&table.out]);
    let words = "table.csv:1: the table says `years from 2000 rules 2`, and --kind another\n";
    assert_eq!((other.err.as_str(), other.code), (words, 1));
    let table = "subject,relation,object,years from 2000 rules two\nlamp,is,led,2001\n";
    let wrong = command("import table.csv", &[table.as_bytes()]);
    let words = "table.csv:1: `two` is no rule set: there are rules 1 and rules 2\n";
    assert_eq!((wrong.err.as_str(), wrong.code), (words, 1));
    // What follows, with and without the reflexive lines.
    let closed = command("export t --to csv --closed", &[text.as_bytes()]);
    assert_eq!(closed.text().lines().count(), 9, "{}", closed.text());
    assert_eq!(closed.text().matches(",follows").count(), 6);
    let shown = command("export t --to csv --closed --no-reflexive", &[text.as_bytes()]);
    assert_eq!(shown.text().lines().count(), 4, "{}", shown.text());
}

/// Nothing would be left out: the call says so, rather than pass without effect.
#[test]
fn no_reflexive_lines_to_leave_out_of_an_export() {
    let words = "--no-reflexive leaves out lines that follow, and without --closed none is printed: say --closed too";
    for form in ["--to csv", "--to nt --when any"] {
        for text in [reflexive(), years(LINES)] {
            let printed = command(&format!("export t {form} --no-reflexive"), &[text.as_bytes()]);
            assert_eq!((printed.err.as_str(), printed.out.len(), printed.code), (words, 0, 2));
            let closed =
                command(&format!("export t {form} --closed --no-reflexive"), &[text.as_bytes()]);
            assert_eq!((closed.err.as_str(), closed.code), ("", 0));
        }
    }
}

#[test]
fn a_makers_list_of_another_rule_set() {
    let file = b"<m:a> <m:p> <m:b> .\n";
    let words = "import list.nt --kind years~from~2000~rules~2 --when 2001";
    let text = "kind years from 2000 rules 2\n<m:a>  <m:p>  <m:b>  2001\n";
    assert_eq!(command(words, &[file]).text(), text);
    let listed = command("export t --to nt --when any --closed", &[text.as_bytes()]);
    assert_eq!(listed.text().lines().count(), 3, "{}", listed.text());
    let shown = command("export t --to nt --when any --closed --no-reflexive", &[text.as_bytes()]);
    assert_eq!(shown.text(), "<m:a> <m:p> <m:b> .\n");
}

#[test]
fn bytes_become_a_text_with_the_rule_set() {
    let text = reflexive();
    let book = command("book t", &[text.as_bytes()]).out;
    let names = command("names t", &[text.as_bytes()]).out;
    let back = command("text t --names n", &[&book, &names]);
    let listing = "kind years from 2000 rules 2\nlamp-7  is      led   2003-2006\n\
                   led     within  lamp  2005-2010\n";
    assert_eq!((back.text(), back.code), (listing, 0));
    // Edition 2 with rule set 1 is a book like any other.
    let plain = [&[1, 0, 5, 2, 1, 7, 208, 1][..], &book[8..]].concat();
    let back = command("text t --names n", &[&plain, &names]);
    assert_eq!(back.text(), listing.replace(" rules 2", ""));
    let unknown = [&[1, 0, 5, 2, 1, 7, 208, 3][..], &book[8..]].concat();
    let refused = command("text t", &[&unknown]);
    assert!(refused.err.contains("(refused 36, field at byte 0: rule set unknown)"));
    assert!(refused
        .err
        .starts_with("t.fit: there are two rule sets, 1 and 2, and the head says another\n"));
    // As a text they are told as what they are.
    let printed = command("close t", &[&book]);
    assert!(printed.err.contains("these are the bytes of a book, not a text"), "{}", printed.err);
}

/// The counter's input has the same head.
#[test]
fn the_counter_closes_by_the_rule_set() {
    let text = format!("{}ask ?class within ?class during ?when\n", reflexive());
    let input = command("questions t", &[text.as_bytes()]).out;
    let printed = trial::programs::counter_program(&input);
    assert!(printed.starts_with("asked 0 0 2 8\n"), "{printed}");
}

/// More follows by rule set 2, and so fewer lines fit.
#[test]
fn a_book_that_fits_by_one_rule_set_only() {
    let uses: String = (0..1023).map(|at| format!("lamp-{at} beside van always\n")).collect();
    assert!(close(&years(&uses)).1);
    let printed =
        command("check t --quiet", &[format!("kind years from 2000 rules 2\n{uses}").as_bytes()]);
    assert!(printed.err.contains("(refused 12: no room)"), "{}", printed.err);
}

/// That reflexive lines take room is said where they follow, and nowhere else.
#[test]
fn no_room_by_reflexive_lines() {
    let two = "kind years from 2000 rules 2\n";
    let uses: String = (0..1023).map(|at| format!("lamp-{at} beside van always\n")).collect();
    let closing = "t.fit: there is room for 1,024 rows, and more than that follow from this book: \
                   write a book for each maker, or fewer classes";
    let rows = "; with `rules 2` reflexive lines (A within A, A implies A) take rows too";
    let said = format!("{closing}{rows}\n    (refused 12: no room)\n");
    let text = format!("{two}{uses}ask ?x beside van ?w\n");
    for words in ["check t --quiet", "close t --quiet", "ask t --quiet", "page t --quiet"] {
        let printed = command(words, &[text.as_bytes()]);
        assert_eq!((printed.err.as_str(), printed.code), (said.as_str(), 1), "{words}");
    }
    // In reading nothing follows yet.
    let more = format!("{two}{uses}van beside van 2000\nvan beside lamp-0 2000\n");
    let printed = command("close t --quiet", &[more.as_bytes()]);
    let line = "t.fit:1026: there is room for 1,024 rows, and this line would be one more\n";
    assert!(printed.err.starts_with(line), "{}", printed.err);
    // Of answers.
    let classes: String = (0..150).map(|at| format!("lamp-{at} within led 2000\n")).collect();
    let question = "ask ?a within ?b during ?w\n";
    let answers = "; with `rules 2` reflexive lines (A within A, A implies A) can answer too";
    let (asked, done) = ask(&format!("{two}{classes}{question}"));
    let last = format!("there are more than 256 answers; these are the first 256{answers}\n");
    assert!(!done && asked.contains(&last), "{asked}");
    assert!(ask(&years(&format!("{classes}{question}"))).1);
}
