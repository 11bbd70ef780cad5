//! The page: everything of the book is on it, and nothing of the book is markup.

mod common;
use common::*;

fn page(text: &str) -> String {
    let printed = command("page t --quiet", &[text.as_bytes()]);
    assert_eq!(printed.code, 0, "{}", printed.err);
    printed.text().to_string()
}

/// The names of the tags, one behind another.
fn tags(page: &str) -> Vec<&str> {
    let opened = page.split('<').skip(1);
    opened.map(|tag| tag.split([' ', '>', '\n']).next().unwrap()).collect()
}

#[test]
fn the_stored_page_of_the_example() {
    let printed = command("page lamps.fit", &[example("lamps.fit").as_bytes()]);
    assert_eq!(printed.text(), example("lamps.page.html"));
    let printed = command("page sheets.fit", &[example("sheets.fit").as_bytes()]);
    assert_eq!(printed.text(), example("sheets.page.html"));
    let printed = command("page degrees.fit", &[example("degrees.fit").as_bytes()]);
    assert_eq!(printed.text(), example("degrees.page.html"));
    let printed = command("page rules2.fit", &[example("rules2.fit").as_bytes()]);
    assert_eq!(printed.text(), example("rules2.page.html"));
}

/// Names, texts, variables and questions made of markup give the same tags as harmless ones.
#[test]
fn markup_in_a_name_does_nothing() {
    let book = |markup: [&str; 4]| {
        let [name, text, iri, other] = markup;
        years(&format!("{name} {other} \"{text}\" 2001\n{iri} is {name} always\nask ?x {other} \"{text}\" ?w # {text}\nask {name} is {iri} 2001\n"))
    };
    let harmless = page(&book(["lamp", "van 31", "<m:a>", "fits"]));
    let evil = page(&book([
        "a</h2><script>alert'1'</script>",
        "</pre><img src=x onerror=alert(1)>",
        "<javascript:alert(1)//'onmouseover='x>",
        "a&b'onclick='x",
    ]));
    assert_eq!(tags(&evil), tags(&harmless));
    for open in ["<script", "<img", "onerror=alert(1)>", "<javascript", "'onclick"] {
        assert!(!evil.contains(open), "{open}");
    }
    assert!(evil.contains("a&lt;/h2&gt;&lt;script&gt;alert&#39;1&#39;&lt;/script&gt;"));
}

/// Nothing is run, and nothing is fetched.
#[test]
fn the_page_is_one_file() {
    for name in ["lamps.fit", "degrees.fit"] {
        let page = page(&example(name));
        assert!(page.starts_with("<!DOCTYPE html>\n") && page.ends_with("</html>\n"));
        for outside in [
            "<script", "<link", "<img", "<iframe", "src=", "href=", "@import", "http://",
            "https://",
        ] {
            assert!(!page.contains(outside), "{name}: {outside}");
        }
        assert!(page.contains("default-src 'none'"));
    }
}

/// Each element that is opened is closed, in the right order.
#[test]
fn the_page_is_well_formed() {
    for text in [
        example("lamps.fit"),
        example("degrees.fit"),
        "kind sheets maker\n".to_string(),
        years("a is b 2000\nask ?x is c 2000\n"),
    ] {
        let page = page(&text);
        let body = &page[page.find("<body>").unwrap()..];
        let mut open: Vec<&str> = Vec::new();
        for tag in body.split('<').skip(1) {
            let whole = tag.split('>').next().unwrap();
            let name = whole.split([' ', '\n', '/']).find(|word| !word.is_empty()).unwrap();
            if whole.starts_with('/') {
                let opened = open.pop();
                assert!(
                    name == "html" && opened.is_none() || opened == Some(name),
                    "</{name}> closes {opened:?}"
                );
            } else if !whole.ends_with('/') {
                open.push(name);
            }
        }
        assert!(open.is_empty(), "{open:?}");
    }
}

/// The gap of lamp-7 is not drawn over, and what follows is not drawn as if it were in the book.
#[test]
fn gaps_and_what_follows_are_seen() {
    let page = page(&years(
        "lamp-7 is tail 2000-2002, 2005-2007\ntail within led always\nlamp-7 is led 2000\n",
    ));
    let part = page.split("<h2>").find(|part| part.starts_with("<bdi>lamp-7")).unwrap();
    let row = part.split("<tr>").find(|row| row.contains("<bdi>led</bdi>")).unwrap();
    assert_eq!(row.matches("<rect class=\"stated\"").count(), 1);
    assert_eq!(row.matches("<rect class=\"follows\"").count(), 2);
    assert!(
        row.contains("<title>2001-2002</title>") && row.contains("<title>2005-2007</title>"),
        "{row}"
    );
    assert!(!row.contains("2003") && !row.contains("2004"));
    assert!(row.contains("in the book: 2000</span>"));
}

/// A question that was refused or cut short says so on the page, and in the exit code.
#[test]
fn questions_that_were_not_done() {
    let text = years("a is b 2000\nask ?x is b ?w where ?y = a\nask ?x is b ?w\n");
    let printed = command("page t --quiet", &[text.as_bytes()]);
    assert_eq!(printed.code, 1);
    assert!(printed.text().contains("(refused 21, ONLY field at byte 0"));
    let printed =
        command("page t --quiet --looks 0", &[years("a is b 2000\nask ?x is b ?w\n").as_bytes()]);
    assert!(printed.code == 1 && printed.text().contains("the looks allowed are used up"));
}
