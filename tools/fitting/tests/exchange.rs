//! In and out: N-Triples, tables of spreadsheets, and bytes with a names list.

mod common;
use common::*;

const LIST: &str = "import list.nt --kind years~from~2000 --when 2001-2003";

fn import(words: &str, file: &str) -> Printed {
    command(words, &[file.as_bytes()])
}

#[test]
fn a_makers_list_becomes_a_text() {
    let text = "kind years from 2000\n\
                <m:l7>    is        <m:tail>          2001-2003\n\
                <m:l7>    <m:says>  \"x\"               2001-2003\n\
                <m:tail>  within    <m:lamp>          2001-2003\n\
                _b        <m:says>  \"A\\t\\\"lamp\\\"\"@en  2001-2003\n";
    let imported = import(LIST, &example("lamps.nt"));
    assert_eq!((imported.text(), imported.code), (text, 0));
    let (closed, done) = close(imported.text());
    assert!(
        done && closed.contains("<m:l7>    is        <m:lamp>          2001-2003  # follows\n"),
        "{closed}"
    );
}

/// Names that begin with the base become plain ones, unless the rest is no name.
#[test]
fn a_base_makes_names_short() {
    let file = "<http://m/lamp-7> <http://m/fits> <http://m/van%2031> .\n<http://m/kind> <http://m/fits> <http://m/2005> .\n";
    let text = "kind years from 2000\n\
                <http://m/kind>  fits  <http://m/2005>      2001-2003\n\
                lamp-7           fits  <http://m/van%2031>  2001-2003\n";
    assert_eq!(import(&format!("{LIST} --base http://m/"), file).text(), text);
}

#[test]
fn what_is_wrong_in_a_makers_list() {
    let wrong = import(LIST, "<m:a> <m:p> <m:b> .\r\n# right so far\r\n  <m:a> <m:p> \"open .\n");
    let words = "list.nt:3: this line is not N-Triples\n    <m:a> <m:p> \"open .\n    (refused 26, line at byte 37: line not N-Triples)\n";
    assert_eq!((wrong.err.as_str(), wrong.code), (words, 1));
    let far: String = (0..400).map(|number| format!("<m:{number}> <m:p> <m:o> .\n")).collect();
    let wrong = import(LIST, &format!("{far}<m:a> .\n"));
    assert!(
        wrong.err.starts_with("list.nt:401: this line is not N-Triples\n    <m:a> .\n"),
        "{}",
        wrong.err
    );
    let when = import("import list.nt --kind years~from~2000", "");
    assert!(when.err.starts_with("a makers' list has no years") && when.code == 2, "{}", when.err);
    let kind = import("import list.nt --kind colours --when 3", "");
    assert!(kind.err.starts_with("--kind: no kind is `colours`") && kind.code == 2, "{}", kind.err);
    let outside = import("import list.nt --kind years~from~2000 --when 1999", "");
    assert!(
        outside.err.starts_with("--when: year 1999 is outside") && outside.code == 2,
        "{}",
        outside.err
    );
    let unsaid = import("import list.txt --kind degree --when 3", "");
    assert!(
        unsaid.err.starts_with("say the form of the file") && unsaid.code == 2,
        "{}",
        unsaid.err
    );
}

/// More lines, names and bytes than one call takes.
#[test]
fn a_long_list_is_read_in_pieces() {
    let line = |number: usize| {
        format!("<http://maker.example/lists/2011/lamps/{number:060}> <m:p> _:b{number} .\n")
    };
    let file: String = (0..1500).map(line).collect();
    let imported = import("import - --from nt --kind degree --when 3", &file);
    assert_eq!((imported.code, imported.text().lines().count()), (0, 1501));
    let exported = command(
        "export t --to nt --when any --quiet",
        &[imported.text().lines().take(1001).collect::<Vec<_>>().join("\n").as_bytes()],
    );
    let mut lines: Vec<&str> = file.lines().take(1000).collect();
    let mut back: Vec<&str> = exported.text().lines().collect();
    lines.sort_unstable();
    back.sort_unstable();
    assert_eq!(back, lines);
}

/// Labels and texts that a text cannot show as they are.
#[test]
fn what_cannot_be_seen_is_written_by_escapes() {
    let file =
        "_:a\u{200D}b <m:\u{3164}> \"a\u{200B}\\n\\u0007\" .\n_:b1 <m:p> \"\\U000E0041\"@en .\n";
    let imported = import(LIST, file);
    let text = "kind years from 2000\n\
                _b1  <m:p>       \"\\U000E0041\"@en    2001-2003\n\
                _b2  <m:\\u3164>  \"a\\u200B\\n\\u0007\"  2001-2003\n";
    assert_eq!((imported.text(), imported.code), (text, 0));
    let back = command("export t --to nt --when any --quiet", &[imported.out.as_slice()]);
    let lines = "_:b1 <m:p> \"\u{E0041}\"@en .\n_:b2 <m:\u{3164}> \"a\u{200B}\\n\u{7}\" .\n";
    assert_eq!(back.text(), lines);
}

/// N-Triples have no years: which lines are meant is said.
#[test]
fn a_book_becomes_a_makers_list() {
    let text = example("lamps.fit");
    let export = |words: &str| command(&format!("export t --to nt {words}"), &[text.as_bytes()]);
    let unsaid = export("");
    assert!(
        unsaid.err.starts_with("N-Triples have no years: say which lines") && unsaid.code == 2,
        "{}",
        unsaid.err
    );
    let lamp = |printed: &Printed| {
        printed.text().lines().filter(|line| line.starts_with("<urn:fitting:lamp-7> ")).count()
    };
    assert_eq!(
        [lamp(&export("--when 2001")), lamp(&export("--when 2003")), lamp(&export("--when any"))],
        [2, 1, 2]
    );
    assert_eq!(lamp(&export("--when 2001 --closed")), 6);
    let all = export("--when any --closed");
    let unsaid = [
        "bulb-lamp limit 500 mA",
        "led-lamp limit 40 mA",
        "led-lamp limit 60 mA",
        "\"van 31\" is van",
    ];
    let left_out: String =
        unsaid.map(|row| format!("left out, N-Triples cannot say it: {row}\n")).concat();
    assert_eq!(
        (all.err.as_str(), all.code, all.text().lines().count()),
        (left_out.as_str(), 1, 24)
    );
}

#[test]
fn a_makers_list_comes_back_as_it_went() {
    let text = years("lamp-7 is Rücklicht 2001\n50% near a|b 2001\n_x says \"van \\\"31\\\"\" 2001\n<m:a> is <m:b> 2001\n_a/b near _x 2001\n");
    let exported = command("export t --to nt --when any --quiet", &[text.as_bytes()]);
    let imported = import(&LIST.replace("2001-2003", "2001"), exported.text());
    let same = close(&text).0.replace("_a/b", "_b1 ");
    assert_eq!(imported.text(), same);
    let based = command("export t --to nt --when any --quiet --base http://m/", &[text.as_bytes()]);
    assert!(
        based.text().contains("<http://m/50%25> <http://m/near> <http://m/a%7Cb> .\n"),
        "{}",
        based.text()
    );
    let twice = years("lamp is <urn:fitting:lamp> 2001\n");
    let refused = command("export t --to nt --when any --quiet", &[twice.as_bytes()]);
    assert!(
        refused.err.starts_with("`lamp` would be written as another name is, <urn:fitting:lamp>"),
        "{}",
        refused.err
    );
}

#[test]
fn tables_of_spreadsheets() {
    let text = example("lamps.fit");
    let exported = command("export t --to csv", &[text.as_bytes()]);
    assert!(exported.text().starts_with(
        "subject,relation,object,years from 2000\r\nbulb-lamp,within,lamp,always\r\n"
    ));
    assert!(exported.text().contains("lamp-7,is,led-tail-lamp,\"2000-2002, 2005-2007\"\r\n"));
    assert!(exported.text().contains("lamp-12,rear-fitted-to,\"\"\"van 31\"\"\",2002\r\n"));
    let imported = import("import table.csv", exported.text());
    assert_eq!(imported.code, 0);
    assert_eq!(close(imported.text()), close(&text));
    let closed = command("export t --to csv --closed", &[text.as_bytes()]);
    assert!(closed.text().starts_with("subject,relation,object,years from 2000,note\r\n"));
    assert!(closed.text().contains("\"\"\"van 31\"\"\",is,van,2002,follows\r\n"));
    assert_eq!(close(import("import table.csv", closed.text()).text()).0.matches('#').count(), 0);
    let some = command("export t --to csv --when 2011", &[text.as_bytes()]);
    assert!(some.text().contains("lamp-9,is,") && !some.text().contains("lamp-7,is,"));
}

#[test]
fn tables_of_other_spreadsheets() {
    let text = "kind years from 2000\nlamp  is  led   2000, 2002\nvan   is  part  always\n";
    let semicolons = "\u{FEFF}Subject;Relation;Object;Years from 2000\r\nlamp;is;led;2000, 2002\r\n\r\nvan;is;part;always\r\n";
    assert_eq!(import("import table.csv", semicolons).text(), text);
    let tabs =
        "subject\trelation\tobject\twhen\nlamp\tis\tled\t2000; 2002\nvan\tis\tpart\talways\n";
    assert_eq!(import("import - --from csv --kind years~from~2000", tabs).text(), text);
    let degrees = import("import table.csv", "subject,relation,object,degree\nlamp,is,led,700\n");
    assert_eq!(degrees.text(), "kind degree\nlamp  is  led  700\n");
}

#[test]
fn what_is_wrong_in_a_table() {
    let head = "subject,relation,object,years from 2000\n";
    let wrong = |table: &str, words: &str| {
        let printed = import("import table.csv", table);
        assert!(printed.err.starts_with(words) && printed.code == 1, "{}", printed.err);
    };
    wrong(
        "lamp,is,led,2000\n",
        "table.csv:1: the first line of the table is: subject,relation,object,years from 2000",
    );
    wrong("", "table.csv:1: the first line of the table is");
    wrong(
        "subject,relation,object,when\n",
        "table.csv:1: `when` does not say the kind: write `years from 2000` there, or say --kind",
    );
    wrong(&format!("{head}led lamp,is,led,2000\n"), "table.csv:2: a cell has one word, and this one is `led lamp`: write led-lamp, or the quotes too");
    wrong(&format!("{head}\nlamp,,led,2000\n"), "table.csv:3: the relation is missing");
    wrong(&format!("{head}lamp,is,led\n"), "table.csv:2: say when");
    wrong(&format!("{head}lamp,is,led,since 2001\n"), "table.csv:2: since 2001: write 2001-2063");
    wrong(&format!("{head}lamp,is,?x,2001\n"), "table.csv:2: `?x` is a variable");
    wrong(
        &format!("{head}lamp,is,\"led,2001\n"),
        "table.csv:2: a cell's quote is opened and not closed",
    );
    wrong(&format!("{head}lamp,is,\",\",2001\n"), "table.csv:2: no comma is wanted here");
    let other = import("import table.csv --kind degree", &format!("{head}lamp,is,led,3\n"));
    assert!(
        other.err.starts_with("table.csv:1: the table says `years from 2000`, and --kind another"),
        "{}",
        other.err
    );
}

/// A name that a spreadsheet would work out is noted.
#[test]
fn formulas_are_noted() {
    let printed = command("export t --to csv --quiet", &[years("=1+1 is led 2000\n").as_bytes()]);
    assert_eq!(
        (printed.err.as_str(), printed.code),
        ("note: a spreadsheet may take =1+1 for a formula\n", 0)
    );
}

#[test]
fn bytes_come_back_as_text() {
    let text = example("lamps.fit");
    let bytes = command("book t", &[text.as_bytes()]).out;
    let names = command("names t", &[text.as_bytes()]).out;
    let back = command("text t --names names", &[&bytes, &names]);
    assert_eq!(back.code, 0, "{}", back.err);
    assert_eq!(close(back.text()), close(&text));
    let p1 = std::fs::read(root().join("examples/p1.book")).unwrap();
    let numbers = "kind years from 2000\nname-10  is      name-11  2003-2006\nname-11  within  name-12  2005-2010\n";
    assert_eq!(command("text t", &[&p1]).text(), numbers);
    let cut = command("text t", &[&p1[..40]]);
    let words = "t.fit: the bytes of the book are cut short\n    (refused 1, field at byte 24: book ends inside a field)\n";
    assert_eq!((cut.err.as_str(), cut.code), (words, 1));
    let wrong = command("text t --names names", &[&p1, b"10 lamp\n11 _b\n"]);
    assert!(wrong.err.starts_with("names:2: 11 is not the number of _b"), "{}", wrong.err);
}
