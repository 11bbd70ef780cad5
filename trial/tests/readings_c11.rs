//! The settled readings of C-11, paragraph by paragraph.

mod common;
use common::*;
use trial::ntriples::grammar::{self, Line};
use trial::ntriples::text::{Sort, Text, FIVE, XSD_STRING};
use trial::ntriples::{read_triples, write_triples, Names, WriteOut};
use trial::table::{Lanes, Row};

/// rdf:type's IRI and rdfs:subClassOf's.
const T: &str = "http://www.w3.org/1999/02/22-rdf-syntax-ns#type";
const SUB: &str = "http://www.w3.org/2000/01/rdf-schema#subClassOf";

const GOOD: &str = "<m:s> <m:p> <m:o> .";

/// The line's three texts as strings, or nothing where it is not N-Triples.
fn texts(line: impl AsRef<[u8]>) -> Option<[String; 3]> {
    match grammar::line(line.as_ref()) {
        Line::Triple(texts) => Some(texts.map(|text| String::from_utf8(text.bytes).unwrap())),
        _ => None,
    }
}

/// The text of an object, spelled so in a line.
fn object(spelled: impl AsRef<[u8]>) -> Option<String> {
    let line = [b"<m:s> <m:p> ", spelled.as_ref(), b" ."].concat();
    texts(line).map(|[_, _, object]| object)
}

/// Not N-Triples, wherever the line stands.
fn wrong(line: impl AsRef<[u8]>) {
    let line = line.as_ref();
    let shown = String::from_utf8_lossy(line);
    assert_eq!(grammar::line(line), Line::Wrong, "{shown}");
    assert_eq!(read_all(line).verdict(), (26, 0), "{shown}");
    let third = [GOOD.as_bytes(), b"\n# \r\n", line, b"\n", GOOD.as_bytes()].concat();
    assert_eq!(read_all(&third).verdict(), (26, 24), "{shown}");
}

fn wrong_object(spelled: impl AsRef<[u8]>) {
    wrong([b"<m:s> <m:p> ", spelled.as_ref(), b" ."].concat());
}

/// The numbers of the rows of a file.
fn triples(file: impl AsRef<[u8]>) -> Vec<(u16, u16, u16)> {
    let read = read_all(file.as_ref());
    assert_eq!(read.verdict(), (0, 0), "{}", String::from_utf8_lossy(file.as_ref()));
    read.triples()
}

fn entries(file: impl AsRef<[u8]>) -> Vec<(u16, String)> {
    read_all(file.as_ref()).entries()
}

/// Entries as they are said in the tests.
fn said(entries: &[(u16, &str)]) -> Vec<(u16, String)> {
    entries.iter().map(|(number, text)| (*number, text.to_string())).collect()
}

/// Writes in kind 1 into an output of old bytes, and sees that none past the length changed.
fn written(rows: &[Row], names: &Names, listed: usize, room: usize) -> (WriteOut, Vec<u8>) {
    let mut out = vec![b'?'; room];
    let lanes = lanes(rows, rows.len());
    let done = write_triples(1, &lanes, rows.len(), names, listed, &mut out);
    assert!(out[done.length..].iter().all(|byte| *byte == b'?'));
    assert!(done.number == 0 || done.length == 0);
    out.truncate(done.length);
    (done, out)
}

/// What is written with room enough; or the number and the place.
fn lines_of(rows: &[Row], names: &Names, listed: usize) -> Result<String, (u32, u64)> {
    match written(rows, names, listed, 70_000) {
        (WriteOut { number: 0, place: 0, .. }, out) => Ok(String::from_utf8(out).unwrap()),
        (WriteOut { number, place, .. }, _) => Err((number, place)),
    }
}

// X. Worked examples.

#[test]
fn x1_names_and_the_five() {
    let file = format!("<m:l7> <{T}> <m:tail> . # lamp 7\r\n<m:tail> <{SUB}> <m:lamp> .\n");
    let read = read_with(file.as_bytes(), 2, 3, 16);
    assert_eq!((read.out.number, read.out.count, read.out.names), (0, 2, 3));
    assert_eq!(read.lanes, lanes(&[row(5, 2, 6, 7), row(6, 1, 7, 7)], 2));
    assert_eq!(read.names, names_of(&[(5, "m:l7"), (6, "m:tail"), (7, "m:lamp")]));
    assert_eq!(read.names.ends, [4, 10, 16]);
}

#[test]
fn x2_all_sorts_and_the_way_back() {
    let file = format!("<m:a> <m:p> <m:z> .\n<m:a> <{T}> _:b .\n_:b <m:p> \"x\\u0041\\t\"@EN .\n");
    let read = read_with(file.as_bytes(), 3, 5, 18);
    assert_eq!(read.triples(), [(5, 2, 16_384), (5, 6, 7), (16_384, 6, 32_768)]);
    let list = [(5, "m:a"), (6, "m:p"), (7, "m:z"), (16_384, "b"), (32_768, "\"xA\t\"@EN")];
    assert_eq!(read.names, names_of(&list));
    assert_eq!(read.names.ends, [3, 6, 9, 10, 18]);
    let mut out = [b'?'; 105];
    let done = write_triples(1, &read.lanes, 3, &read.names, 5, &mut out);
    assert_eq!((done.number, done.place, done.length), (0, 0, 103));
    let text = format!("<m:a> <{T}> _:b .\n<m:a> <m:p> <m:z> .\n_:b <m:p> \"xA\t\"@EN .\n??");
    assert_eq!(std::str::from_utf8(&out), Ok(&text[..]));
    let back = read_with(&out[..103], 3, 5, 18);
    let list = [(5, "m:a"), (16_384, "b"), (6, "m:p"), (7, "m:z"), (32_768, "\"xA\t\"@EN")];
    assert_eq!(back.names, names_of(&list));
    assert_eq!(back.triples(), [(5, 2, 16_384), (5, 6, 7), (16_384, 6, 32_768)]);
}

#[test]
fn x3_two_spellings_are_one_text() {
    let file = format!("<m:a> <m:p> \"x\" .\n<m:\\u0061> <m:p> \"x\"^^<{XSD_STRING}> .");
    let read = read_with(file.as_bytes(), 1, 3, 9);
    assert_eq!(read.triples(), [(5, 6, 32_768)]);
    assert_eq!(read.names, names_of(&[(5, "m:a"), (6, "m:p"), (32_768, "\"x\"")]));
}

#[test]
fn x4_no_room_at_the_second_line() {
    let file = b"<m:a> <m:p> <m:b> .\n<m:a> <m:p> <m:c> .";
    assert_eq!(read_with(file, 2, 3, 99).verdict(), (27, 20));
    assert_eq!(read_with(file, 1, 4, 99).verdict(), (12, 20));
    assert_eq!(read_with(file, 1, 3, 99).verdict(), (27, 20));
    assert_eq!(read_with(file, 2, 4, 12).verdict(), (0, 0));
    assert_eq!(read_with(file, 2, 4, 11).verdict(), (27, 20));
}

#[test]
fn x5_an_escape_for_what_no_iri_holds() {
    let file = b"<m:a> <m:p> <m:b> .\n  <m:a> <m:p> <m:\\u0020> .";
    for (rows, entries, bytes) in [(9, 9, 99), (1, 9, 99), (9, 3, 99), (1, 3, 9)] {
        assert_eq!(read_with(file, rows, entries, bytes).verdict(), (26, 20));
    }
}

// N. What a line of N-Triples is.

#[test]
fn n1_lines_and_their_first_bytes() {
    assert_eq!(triples(""), []);
    assert_eq!(triples("\n\r\r\n\n"), []);
    for eol in ["\n", "\r", "\r\n", "\n\r", "\r\r\n\n"] {
        let file = format!("{GOOD}{eol}<m:s> <m:p> _:b .");
        assert_eq!(triples(&file), [(5, 6, 7), (5, 6, 16_384)]);
        assert_eq!(triples(format!("{eol}{file}{eol}")), [(5, 6, 7), (5, 6, 16_384)]);
        // The place of a line is its first byte, white space included.
        for bad in ["x", "  x", "\t<m:s>", " <m:s> <m:p> <m:o> , # ."] {
            let file = format!("{eol}{GOOD}{eol}{bad}{eol}y");
            let place = (2 * eol.len() + GOOD.len()) as u64;
            assert_eq!(read_all(file.as_bytes()).verdict(), (26, place));
        }
    }
    assert_eq!(grammar::lines(b"\r\nab\n\nc\r"), [(2, &b"ab"[..]), (6, b"c")]);
}

#[test]
fn n2_empty_lines_and_triples() {
    for line in ["", " ", "\t \t", "#", "# x", "  # <m:s> <m:p> <m:o> .", "#\u{0}\u{FEFF}\""] {
        assert_eq!(grammar::line(line.as_bytes()), Line::Empty, "{line}");
        assert_eq!(triples(format!("{line}\n{line}\r\n{GOOD}\n{line}\n\n{line}")), [(5, 6, 7)]);
        assert_eq!(triples(line), []);
    }
    let good = Some(["m:s", "m:p", "m:o"].map(String::from));
    for line in [
        GOOD,
        "<m:s><m:p><m:o>.",
        " \t <m:s> \t<m:p>\t \t<m:o>  .\t\t",
        "<m:s> <m:p> <m:o> .#",
        "<m:s> <m:p> <m:o>. # . <m:x>",
        "\t<m:s><m:p><m:o>.#<m:x",
    ] {
        assert_eq!(texts(line), good, "{line}");
    }
    assert_eq!(texts("_:a<m:p>_:b."), Some(["a", "m:p", "b"].map(String::from)));
    assert_eq!(texts("_:a<m:p>\"x\"."), Some(["a", "m:p", "\"x\""].map(String::from)));
    for line in [
        ".",
        "x",
        "<m:s>",
        "<m:s> <m:p>",
        "<m:s> <m:p> <m:o>",
        "<m:s> <m:p> .",
        "<m:s> <m:p> <m:o> . .",
        "<m:s> <m:p> <m:o> <m:g> .",
        "<m:s>\u{A0}<m:p> <m:o> .",
        "<m:s>\u{B}<m:p> <m:o> .",
        "<m:s> <m:p> <m:o> .\u{C}",
        "<m:s> <m:p> <m:o> .\u{0}",
        "\u{3000}",
    ] {
        wrong(line);
    }
}

#[test]
fn n3_one_triple_a_line() {
    wrong(format!("{GOOD} {GOOD}"));
    wrong(format!("{GOOD}{GOOD}"));
    for eol in ["\n", "\r\n", " # more\n"] {
        for file in [
            format!("<m:s>{eol}<m:p> <m:o> ."),
            format!("<m:s> <m:p>{eol}<m:o> ."),
            format!("<m:s> <m:p> <m:o>{eol}."),
            format!("<m:s> <m:p> \"x\"{eol}@en ."),
        ] {
            assert_eq!(read_all(file.as_bytes()).verdict(), (26, 0), "{file}");
        }
    }
    assert_eq!(read_all(format!("{GOOD}\n.").as_bytes()).verdict(), (26, 20));
}

#[test]
fn n4_longest_matches_and_labels_with_dots() {
    let blank = |line| texts(line).map(|[_, _, object]| object);
    assert_eq!(blank("<m:s> <m:p> _:a."), Some("a".into()));
    assert_eq!(blank("<m:s> <m:p> _:a.b."), Some("a.b".into()));
    assert_eq!(blank("<m:s> <m:p> _:a..b."), Some("a..b".into()));
    assert_eq!(blank("<m:s> <m:p> _:a ."), Some("a".into()));
    assert_eq!(blank("<m:s> <m:p> \"x\"@en-a1."), Some("\"x\"@en-a1".into()));
    for line in [
        "<m:s> <m:p> _:a..",
        "<m:s> <m:p> _:a. .",
        "<m:s> <m:p> _:a.b",
        "<m:s> <m:p> _:a.b.c",
        "_:a. <m:p> <m:o> .",
        "<m:s> <m:p> _:.a .",
        "<m:s> <m:p> \"x\"@en-.",
        "<m:s> <m:p> \"x\"@en..",
    ] {
        wrong(line);
    }
    assert_eq!(texts("_:a.b<m:p>_:c."), Some(["a.b", "m:p", "c"].map(String::from)));
}

#[test]
fn n5_white_space_inside_a_literal() {
    for spelled in ["\"x\"@en", "\"x\" @en", "\"x\"\t \t@en"] {
        assert_eq!(object(spelled), Some("\"x\"@en".into()));
    }
    for spelled in ["\"x\"^^<a:b>", "\"x\" ^^<a:b>", "\"x\"^^ <a:b>", "\"x\" \t^^\t \t<a:b>"] {
        assert_eq!(object(spelled), Some("\"x\"^^<a:b>".into()));
    }
    for spelled in ["_ :a", "_: a", "\"x\"@ en", "\"x\"@en -a", "\"x\"^ ^<a:b>", "< a:b>", "<a:b >"]
    {
        wrong_object(spelled);
    }
    for spelled in ["\"x\"^^", "\"x\"^<a:b>", "\"x\"^^\"y\"", "\"x\"^^_:a", "\"x\"@en^^<a:b>"] {
        wrong_object(spelled);
    }
    for spelled in
        ["\"x\"^^<a:b>@en", "\"x\"@en@en", "\"x\"<a:b>", "\"x\"^^^<a:b>", "\"x\"^^^^<a:b>"]
    {
        wrong_object(spelled);
    }
}

#[test]
fn n6_comments() {
    for comment in
        ["", "#", "\u{0}\u{1}\u{7F}", "\"<\\u", "\u{FFFE}\u{FFFF}\u{10FFFF}\u{85}\u{2028}"]
    {
        assert_eq!(triples(format!("{GOOD}#{comment}\n{GOOD}")), [(5, 6, 7)]);
        assert_eq!(triples(format!("#{comment}")), []);
        wrong(format!("<m:s> #{comment}"));
        wrong(format!("<m:s> <m:p> <m:o> #{comment} ."));
        wrong(format!("<m:s> <m:p> \"x\"#{comment}@en ."));
    }
    // No comment inside an IRI or a string.
    assert_eq!(object("<m:#x>"), Some("m:#x".into()));
    assert_eq!(object("\"#x\""), Some("\"#x\"".into()));
    wrong("<m:s> <m:p> _:a#x .");
    assert_eq!(texts("_:s <m:p> _:a.#x ."), Some(["s", "m:p", "a"].map(String::from)));
}

#[test]
fn n7_places_of_terms_and_other_languages() {
    for line in [
        "\"x\" <m:p> <m:o> .",
        "\"x\"@en <m:p> <m:o> .",
        "<m:s> _:p <m:o> .",
        "<m:s> \"p\" <m:o> .",
        "<m:s> a <m:o> .",
        "@prefix m: <m:> .",
        "@base <m:> .",
        "BASE <m:>",
        "m:s <m:p> <m:o> .",
        "<m:s> <m:p> <m:o>, <m:q> .",
        "<m:s> <m:p> <m:o>; <m:p> <m:q> .",
        "<m:s> <m:p> [] .",
        "<m:s> <m:p> () .",
        "<m:s> <m:p> 1 .",
        "<m:s> <m:p> true .",
        "<m:s> <m:p> 'x' .",
        "<m:s> <m:p> \"\"\"x\"\"\" .",
        "<m:s> <m:p> <m:o> <m:g> .",
        "<m:s> <m:p> <m:o> _:g .",
        "<< <m:s> <m:p> <m:o> >> <m:p> <m:o> .",
        "<m:s> <m:p> <<( <m:s> <m:p> <m:o> )>> .",
        "<m:s> <m:p> \"x\"@en--ltr .",
        "VERSION \"1.2\"",
    ] {
        wrong(line);
    }
}

/// Bytes that are no UTF-8 wherever whole characters stand around them.
const NO_UTF8: [&[u8]; 26] = [
    b"\x80",
    b"\xBF",
    b"\xC3",
    b"\xC3\xC3",
    b"\xC3\xA9\xA9",
    b"\xC0\x80",
    b"\xC1\xBF",
    b"\xE2\x82",
    b"\xE2",
    b"\xE0\x80\x80",
    b"\xE0\x9F\xBF",
    b"\xED\xA0\x80",
    b"\xED\xBF\xBF",
    b"\xED\xA0\xBD\xED\xB8\x80",
    b"\xF0\x9F\x98",
    b"\xF0\x9F",
    b"\xF0",
    b"\xF0\x80\x80\x80",
    b"\xF0\x8F\xBF\xBF",
    b"\xF4\x90\x80\x80",
    b"\xF5\x80\x80\x80",
    b"\xF8\x88\x80\x80\x80",
    b"\xFC\x84\x80\x80\x80\x80",
    b"\xFE",
    b"\xFF",
    b"\xE2\x82\xAC\x80",
];

#[test]
fn n8_utf8_everywhere() {
    let line = "\t<m:\u{E9}> <m:p> \"a\u{20AC}\"^^<m:\u{1F600}> . # \u{E9}x".as_bytes();
    assert!(texts(line).is_some());
    for bad in NO_UTF8 {
        for at in 0..=line.len() {
            wrong([&line[..at], bad, &line[at..]].concat());
        }
        wrong([b"#", bad].concat());
        wrong(bad);
    }
    // A sequence cut by an EOL is cut, in a comment too.
    for eol in [b"\n", b"\r"] {
        let file = [b"#x\xE2\x82", &eol[..], b"\xAC"].concat();
        assert_eq!(read_all(&file).verdict(), (26, 0));
        let file = [b"#", &eol[..], b"\x82\xAC"].concat();
        assert_eq!(read_all(&file).verdict(), (26, 2));
    }
}

/// RFC 3629's own table, tried on every pair and on every first triple that it tells apart.
#[test]
fn n8_by_the_table_of_rfc_3629() {
    let tail = |byte: u8| (0x80..=0xBF).contains(&byte);
    let second = |first: u8, byte: u8| match first {
        0xE0 => (0xA0..=0xBF).contains(&byte),
        0xED => (0x80..=0x9F).contains(&byte),
        0xF0 => (0x90..=0xBF).contains(&byte),
        0xF4 => (0x80..=0x8F).contains(&byte),
        _ => tail(byte),
    };
    let legal = |bytes: &[u8]| match bytes {
        [a] => *a < 0x80,
        [a, b] => (*a < 0x80 && *b < 0x80) || ((0xC2..=0xDF).contains(a) && tail(*b)),
        [a, b, c] => (0xE0..=0xEF).contains(a) && second(*a, *b) && tail(*c),
        [a, b, c, d] => (0xF0..=0xF4).contains(a) && second(*a, *b) && tail(*c) && tail(*d),
        _ => false,
    };
    let edges = [0x00, 0x7F, 0x80, 0x8F, 0x90, 0x9F, 0xA0, 0xBF, 0xC0, 0xC2, 0xFF];
    let empty = |bytes: &[u8]| grammar::line(&[b"#", bytes].concat()) == Line::Empty;
    for first in 0..=255 {
        if !matches!(first, b'\r' | b'\n') {
            assert_eq!(empty(&[first]), legal(&[first]));
        }
        for second in edges {
            if !matches!(first, b'\r' | b'\n') {
                assert_eq!(empty(&[first, second]), legal(&[first, second]));
            }
            for third in edges.iter().filter(|_| first >= 0xE0) {
                let bytes = [first, second, *third];
                assert_eq!(empty(&bytes), legal(&bytes), "{bytes:X?}");
                for fourth in edges.iter().filter(|_| first >= 0xF0) {
                    let bytes = [first, second, *third, *fourth];
                    assert_eq!(empty(&bytes), legal(&bytes), "{bytes:X?}");
                }
            }
        }
    }
}

#[test]
fn n9_escapes_give_scalar_values() {
    for (spelled, text) in [
        ("\\u0041", "A"),
        ("\\U00000041", "A"),
        ("\\u00e9\\u00E9\\U000000Ee", "\u{E9}\u{E9}\u{EE}"),
        ("\\uD7FF\\uE000", "\u{D7FF}\u{E000}"),
        ("\\uFFFF\\U0010ffFF", "\u{FFFF}\u{10FFFF}"),
        ("\\uabCD1", "\u{ABCD}1"),
    ] {
        assert_eq!(object(format!("\"{spelled}\"")), Some(format!("\"{text}\"")));
        assert_eq!(object(format!("<m:{spelled}>")), Some(format!("m:{text}")));
    }
    for spelled in [
        "\\uD800",
        "\\udfff",
        "\\uD83D\\uDE00",
        "\\U0000D800",
        "\\U00110000",
        "\\UFFFFFFFF",
        "\\U80000041",
        "\\u004",
        "\\u004g",
        "\\u",
        "\\U0000004",
        "\\U000000041g\\",
        "\\u+041",
        "\\u{41}",
        "\\x41",
        "\\u00 41",
        "\\u004\u{661}",
    ] {
        wrong_object(format!("\"{spelled}\""));
        wrong_object(format!("<m:{spelled}>"));
        wrong_object(format!("\"x\"^^<m:{spelled}>"));
    }
}

#[test]
fn n10_what_an_iri_holds() {
    let forbidden = (0..=0x20).chain("<>\"{}|^`\\".bytes().map(u32::from));
    for one in forbidden.filter_map(char::from_u32) {
        // CR and LF part the line, which is then wrong as well.
        for spelled in [
            format!("m:a{one}b"),
            format!("m:a\\u{:04X}b", one as u32),
            format!("m:a\\U{:08x}b", one as u32),
        ] {
            assert_eq!(grammar::line(format!("<m:s> <m:p> <{spelled}> .").as_bytes()), Line::Wrong);
            let file = format!("<m:s> <m:p> \"x\"^^<{spelled}> .");
            assert_eq!(read_all(file.as_bytes()).verdict(), (26, 0), "{spelled}");
        }
    }
    let others =
        "!#$%&'()*+,-./09:;=?@AZ[]_az~\u{7F}\u{80}\u{A0}\u{D7FF}\u{E000}\u{FEFF}\u{FFFE}\u{FFFF}";
    for one in others.chars().chain(['\u{10000}', '\u{F0000}', '\u{10FFFF}']) {
        let text = format!("m:a{one}b");
        assert_eq!(object(format!("<{text}>")), Some(text.clone()));
        assert_eq!(object(format!("<m:a\\U{:08X}b>", one as u32)), Some(text.clone()));
        assert_eq!(object(format!("\"x\"^^<{text}>")), Some(format!("\"x\"^^<{text}>")));
    }
    for echar in ["\\t", "\\n", "\\\"", "\\'", "\\\\"] {
        wrong_object(format!("<m:{echar}>"));
    }
}

#[test]
fn n11_absolute_iris() {
    for iri in ["a:", "m:s", "Z9+-.:x", "a:%zz[", "http://", "a::", "a:/b"] {
        assert_eq!(object(format!("<{iri}>")), Some(iri.to_string()));
        assert_eq!(object(format!("\"x\"^^<{iri}>")), Some(format!("\"x\"^^<{iri}>")));
    }
    // The scheme is judged after unescaping.
    assert_eq!(object("<\\u0061\\u003A>"), Some("a:".into()));
    for iri in [
        "",
        "a",
        ":",
        ":a",
        "9a:b",
        "+a:b",
        "-:x",
        "a_b:c",
        "a/b:c",
        "\u{E9}:b",
        "a\u{E9}:b",
        "#a:b",
    ] {
        wrong_object(format!("<{iri}>"));
        wrong_object(format!("\"x\"^^<{iri}>"));
        wrong(format!("<{iri}> <m:p> <m:o> ."));
        wrong(format!("<m:s> <{iri}> <m:o> ."));
    }
    wrong_object("<\\u0039a:b>");
}

#[test]
fn n12_what_a_string_holds() {
    let spelled = "\"\\t\\b\\n\\r\\f\\\"\\'\\\\\"";
    assert_eq!(object(spelled), Some("\"\t\u{8}\\n\\r\u{C}\\\"'\\\\\"".into()));
    for letter in (0..=127).map(char::from).filter(|one| !"tbnrf\"'\\uU".contains(*one)) {
        let file = format!("<m:s> <m:p> \"\\{letter}\" .");
        assert_eq!(read_all(file.as_bytes()).verdict(), (26, 0), "{letter:?}");
    }
    for one in (0..=0x20).chain([0x27, 0x7F, 0x85, 0x2028, 0xFEFF, 0xFFFE, 0xFFFF, 0x1F600]) {
        let one = char::from_u32(one).unwrap();
        let text = match one {
            '\n' => "\"\\n\"".to_string(),
            '\r' => "\"\\r\"".to_string(),
            _ => format!("\"{one}\""),
        };
        if one <= '\u{FFFF}' {
            assert_eq!(object(format!("\"\\u{:04x}\"", one as u32)), Some(text.clone()));
        }
        assert_eq!(object(format!("\"\\U{:08x}\"", one as u32)), Some(text.clone()));
        if !matches!(one, '\n' | '\r') {
            assert_eq!(object(format!("\"{one}\"")), Some(text));
        }
    }
    for bad in ["\"", "\"x", "\"\\", "\"\\\"", "\"x\"y\"", "x\""] {
        wrong_object(bad);
    }
    // U+0085 and U+2028 part no lines.
    assert_eq!(triples(format!("# \u{85} x \u{2028} y\n{GOOD}")), [(5, 6, 7)]);
}

#[test]
fn n13_labels() {
    for label in [
        "a",
        "0",
        "9a",
        "_",
        ":",
        "::",
        "a:b",
        "a-",
        "a-.-b",
        "a.b",
        "A\u{B7}\u{300}\u{203F}",
        "\u{FEFF}",
        "\u{C0}\u{10000}\u{EFFFF}",
    ] {
        assert_eq!(object(format!("_:{label}")), Some(label.to_string()), "{label}");
    }
    for label in [
        "",
        "-a",
        ".",
        ".a",
        "\u{B7}a",
        "\u{300}",
        "\u{203F}",
        "a\\u0041",
        "\\u0061",
        "a\u{D7}",
        "a\u{37E}",
        "\u{F0000}",
        "a/b",
        "a\u{FFFE}",
        "a~",
    ] {
        wrong_object(format!("_:{label}"));
        wrong(format!("_:{label} <m:p> <m:o> ."));
    }
    // Every range's ends, and their neighbours outside it.
    let ranges = [
        (0xC0, 0xD6),
        (0xD8, 0xF6),
        (0xF8, 0x2FF),
        (0x370, 0x37D),
        (0x37F, 0x1FFF),
        (0x200C, 0x200D),
        (0x2070, 0x218F),
        (0x2C00, 0x2FEF),
        (0x3001, 0xD7FF),
        (0xF900, 0xFDCF),
        (0xFDF0, 0xFFFD),
        (0x10000, 0xEFFFF),
    ];
    let later = [(0xB7, 0xB7), (0x300, 0x36F), (0x203F, 0x2040)];
    for number in
        ranges.iter().chain(&later).flat_map(|(low, high)| [low - 1, *low, *high, high + 1])
    {
        let Some(one) = char::from_u32(number) else { continue };
        let first = ranges.iter().any(|(low, high)| (*low..=*high).contains(&number));
        let inner = first || later.iter().any(|(low, high)| (*low..=*high).contains(&number));
        assert_eq!(object(format!("_:{one}")).is_some(), first, "{number:X}");
        assert_eq!(object(format!("_:a{one}")).is_some(), inner, "{number:X}");
    }
}

#[test]
fn n14_byte_order_marks() {
    assert_eq!(read_all(format!("\u{FEFF}{GOOD}").as_bytes()).verdict(), (26, 0));
    assert_eq!(read_all("\u{FEFF}".as_bytes()).verdict(), (26, 0));
    assert_eq!(read_all("\u{FEFF}# x".as_bytes()).verdict(), (26, 0));
    assert_eq!(read_all("\u{FEFF}\n".as_bytes()).verdict(), (26, 0));
    let file = "<m:\u{FEFF}> <m:p> _:\u{FEFF} . # \u{FEFF}\n_:a <m:p> \"\u{FEFF}\" .";
    assert_eq!(triples(file), [(5, 6, 16_384), (16_385, 6, 32_768)]);
}

#[test]
fn n15_tags_keep_their_case() {
    let file = "<m:s> <m:p> \"x\"@en .\n<m:s> <m:p> \"x\"@EN .\n<m:s> <m:p> \"x\"@En-gB-1a .";
    let list = [
        (5, "m:s"),
        (6, "m:p"),
        (32_768, "\"x\"@en"),
        (32_769, "\"x\"@EN"),
        (32_770, "\"x\"@En-gB-1a"),
    ];
    assert_eq!(entries(file), said(&list));
    for tag in
        ["", "1", "-", "e1", "en-", "en--a", "-en", "en_GB", "\u{E9}", "en-\u{E9}", "\\u0065"]
    {
        wrong_object(format!("\"x\"@{tag}"));
    }
}

#[test]
fn n16_only_xsd_string_is_read() {
    assert_eq!(object(format!("\"x\"^^<{XSD_STRING}>")), Some("\"x\"".into()));
    let spelled = XSD_STRING.replace('s', "\\u0073");
    assert_eq!(object(format!("\"x\" ^^ <{spelled}>")), Some("\"x\"".into()));
    for iri in [
        "http://www.w3.org/2001/XMLSchema#integer",
        "http://www.w3.org/2001/XMLSchema#String",
        "http://www.w3.org/2001/XMLSchema#strin",
        "http://www.w3.org/2001/XMLSchema#string1",
        "http://www.w3.org/1999/02/22-rdf-syntax-ns#langString",
        FIVE[2],
    ] {
        for string in ["1", "01", ""] {
            let text = format!("\"{string}\"^^<{iri}>");
            assert_eq!(object(&text), Some(text.clone()));
        }
    }
}

#[test]
fn n17_bytes_are_compared() {
    let iris = [
        "m:a",
        "M:a",
        "m:A",
        "m:%61",
        "m:%c3%a9",
        "m:%C3%A9",
        "m:\u{E9}",
        "m:e\u{301}",
        "m:/./a",
        "m:/a",
    ];
    let file: String = iris.iter().map(|iri| format!("<{iri}> <m:p> <m:o> .\n")).collect();
    assert_eq!(triples(&file).len(), iris.len());
    assert_eq!(read_all(file.as_bytes()).out.names, iris.len() + 2);
}

// L. Texts and the names list.

fn text(sort: Sort, bytes: &[u8]) -> Text {
    Text { sort, bytes: bytes.to_vec() }
}

#[test]
fn l1_texts_of_terms() {
    let file = "<m:\\u00E9> <m:p> _:a.b .\n_:c:d <m:p> \"\\\"\\\\\\n\\r\\t\\'\\u0041\\u0022\\u005C\\u000a\\U0000000D\" @en-US .\n\
        _:c:d <m:p> \"\"^^ <m:\\u0064> .";
    let list = [
        (5, "m:\u{E9}"),
        (6, "m:p"),
        (16_384, "a.b"),
        (16_385, "c:d"),
        (32_768, "\"\\\"\\\\\\n\\r\t'A\\\"\\\\\\n\\r\"@en-US"),
        (32_769, "\"\"^^<m:d>"),
    ];
    // The datatype takes no entry.
    assert_eq!(entries(file), said(&list));
    // One literal's three looks are three texts.
    let file =
        "_:a <m:p> \"x\" .\n_:a <m:p> \"x\"@x .\n_:a <m:p> \"x\"^^<x:x> .\n_:a <m:p> \"x@x\" .";
    assert_eq!(triples(file).len(), 4);
}

#[test]
fn l2_legal_texts() {
    for sort in Sort::ALL {
        assert!(!text(sort, b"").legal());
        for bad in NO_UTF8 {
            assert!(!text(sort, &[b"a:", bad].concat()).legal());
            assert!(!text(sort, &[b"\"a", bad, b"\""].concat()).legal());
        }
    }
    for (legal, bytes) in [
        (true, "a:"),
        (true, "m:\u{E9}"),
        (true, FIVE[0]),
        (true, XSD_STRING),
        (false, "a"),
        (false, "<a:>"),
        (false, "a: "),
        (false, "a:>"),
        (false, "a:\\u0041"),
        (false, "a:\n"),
        (false, "9:"),
    ] {
        assert_eq!(text(Sort::Name, bytes.as_bytes()).legal(), legal, "{bytes}");
    }
    for (legal, bytes) in [
        (true, "a"),
        (true, "0.:-"),
        (true, ":"),
        (false, "_:a."),
        (false, "a."),
        (false, "-a"),
        (false, "a b"),
        (false, "a\n"),
        (false, "a\\u0041"),
    ] {
        assert_eq!(text(Sort::Blank, bytes.as_bytes()).legal(), legal, "{bytes}");
    }
    assert!(text(Sort::Blank, b"_:a").legal());
    for (legal, bytes) in [
        (true, "\"\""),
        (true, "\"\u{0}\t\u{8}\u{C}\u{7F}'\""),
        (true, "\"\\\"\\\\\\n\\r\""),
        (true, "\"x\"@en-GB"),
        (true, "\"x\"^^<a:>"),
        (false, "x"),
        (false, "\""),
        (false, "\"x"),
        (false, "\"\\t\""),
        (false, "\"\\'\""),
        (false, "\"\\u0041\""),
        (false, "\"\n\""),
        (false, "\"\r\""),
        (false, "\"x\" "),
        (false, " \"x\""),
        (false, "\"x\" @en"),
        (false, "\"x\"@en "),
        (false, "\"x\"@"),
        (false, "\"x\"@e1"),
        (false, "\"x\"^^ <a:>"),
        (false, "\"x\" ^^<a:>"),
        (false, "\"x\"^^<a>"),
        (false, "\"x\"^^<\\u0061:>"),
        (false, "\"x\"^^<http://www.w3.org/2001/XMLSchema#string>"),
        (false, "\"x\"."),
        (false, "\"x\"\"y\""),
    ] {
        assert_eq!(text(Sort::Literal, bytes.as_bytes()).legal(), legal, "{bytes}");
    }
}

#[test]
fn l3_entries_lie_end_to_end() {
    let names = names_of(&[(5, "m:a"), (16_384, "b"), (32_768, "\"c\"")]);
    assert_eq!((&names.terms[..], &names.ends[..]), (&[5, 16_384, 32_768][..], &[3, 4, 7][..]));
    assert_eq!(names.entry(0), Some(&b"m:a"[..]));
    assert_eq!(names.entry(1), Some(&b"b"[..]));
    assert_eq!(names.entry(2), Some(&b"\"c\""[..]));
    assert_eq!(names.entry(3), None);
    assert_eq!(names.text_of(3, 16_384), Some(text(Sort::Blank, b"b")));
    assert_eq!(names.text_of(1, 16_384), None);
}

#[test]
fn l4_unfit_lanes() {
    let file = GOOD.as_bytes();
    let fit = [(0, 0, 0), (3, 0, 0), (0, 3, 9), (1024, 512, 32_768), (3, 3, 9), (3, 2, 32_768)];
    for (rows, entries, bytes) in fit {
        let number = match (rows, entries < 3 || bytes < 9) {
            (_, true) => 27,
            (0, false) => 12,
            _ => 0,
        };
        assert_eq!(read_with(file, rows, entries, bytes).verdict(), (number, 0));
        assert_eq!(read_with(b"", rows, entries, bytes).verdict(), (0, 0));
    }
    for (rows, entries, bytes) in
        [(1025, 9, 99), (9, 513, 99), (9, 9, 32_769), (2000, 2000, 70_000)]
    {
        assert_eq!(read_with(file, rows, entries, bytes).verdict(), (11, 0));
    }
    let (table, names) = (old_lanes(9), old_names(9, 99));
    let unequal = |by: &dyn Fn(&mut Lanes, &mut Names)| {
        let (mut table, mut names) = (table.clone(), names.clone());
        by(&mut table, &mut names);
        let before = (table.clone(), names.clone());
        let out = read_triples(1, 7, file, &mut table, &mut names);
        assert_eq!((out.number, out.place, out.count, out.names), (11, 0, 0, 0));
        assert_eq!((table, names), before);
    };
    unequal(&|table, _| table.subj.truncate(8));
    unequal(&|table, _| table.pred.push(1));
    unequal(&|table, _| table.obj.clear());
    unequal(&|table, _| table.ann.push(1));
    unequal(&|_, names| names.terms.truncate(8));
    unequal(&|_, names| names.ends.truncate(8));
    unequal(&|_, names| names.ends.push(1));
}

#[test]
fn l5_what_counts_as_a_name_and_as_a_byte() {
    // 512 entries of all sorts; the five take none.
    let mut file = format!("<m:s> <{T}> <m:p> .\n<{T}> <{T}> <{SUB}> .\n");
    for at in 0..255 {
        file += &format!("_:b{at} <m:p> \"l{at}\" .\n");
    }
    let read = read_all(file.as_bytes());
    assert_eq!((read.out.number, read.out.count, read.out.names), (0, 257, 512));
    let place = file.len() as u64;
    assert_eq!(
        read_all((file.clone() + "<m:new> <m:p> <m:p> .").as_bytes()).verdict(),
        (27, place)
    );
    assert_eq!(
        read_all((file.clone() + &format!("<m:p> <{T}> <m:p> .")).as_bytes()).out.count,
        258
    );
    // 32,768 bytes, the marks of literals among them.
    let file = |letters| format!("_:b <{T}> \"{}\"@en .", "x".repeat(letters));
    let read = read_all(file(32_762).as_bytes());
    assert_eq!((read.out.number, &read.names.ends[..3]), (0, &[1, 32_768, 0][..]));
    assert_eq!(read_all(file(32_763).as_bytes()).verdict(), (27, 0));
    assert_eq!(read_with(file(0).as_bytes(), 1, 2, 6).verdict(), (0, 0));
    assert_eq!(read_with(file(0).as_bytes(), 1, 2, 5).verdict(), (27, 0));
    assert_eq!(
        read_with(format!("<{T}> <{T}> <{T}> .").as_bytes(), 1, 0, 0).triples(),
        [(2, 2, 2)]
    );
}

#[test]
fn l6_the_five_in_any_place() {
    for (number, iri) in (0..5).zip(FIVE) {
        let spelled: String = iri.chars().map(|one| format!("\\u{:04x}", one as u32)).collect();
        for iri in [iri, &spelled, &iri.replace('r', "\\U00000072")] {
            assert_eq!(triples(format!("<{iri}> <{iri}> <{iri}> .")), [(number, number, number)]);
            assert_eq!(triples(format!("_:b <m:p> <{iri}> .")), [(16_384, 5, number)]);
        }
        for near in [
            format!("{iri}x"),
            iri.replace("http", "Http"),
            iri.replace('#', "%23"),
            iri[..iri.len() - 1].into(),
        ] {
            assert_eq!(triples(format!("<{near}> <{near}> <{near}> .")), [(5, 5, 5)]);
        }
        // A literal with these bytes inside is another text.
        assert_eq!(triples(format!("_:b <{iri}> \"{iri}\" .")), [(16_384, number, 32_768)]);
    }
    assert_eq!(FIVE.map(str::len), [50, 47, 47, 43, 42]);
}

// R. Reading.

#[test]
fn r1_order_of_refusals() {
    let long = vec![b'x'; 65_536];
    let cases: [(u8, u64, &[u8], usize, u32); 12] = [
        (0, 0, &long, 1025, 4),
        (2, 7, &long, 1025, 4),
        (5, 2, &long, 9, 13),
        (5, 2, b"x", 9, 28),
        (1, 0, &long, 1025, 11),
        (1, 0, &long, 9, 13),
        (1, 0, b"x", 9, 10),
        (3, 1001, b"x", 9, 10),
        (4, 0, b"", 9, 10),
        (3, 1000, b"x", 9, 26),
        (5, 1 << 63, b"x", 0, 26),
        (4, 1, b"", 0, 0),
    ];
    for (kind, ann, file, room, number) in cases {
        let (mut table, mut names) = (old_lanes(room), old_names(9, 99));
        let out = read_triples(kind, ann, file, &mut table, &mut names);
        assert_eq!((out.number, out.place), (number, 0), "{kind} {ann} {room}");
    }
    // 65,535 bytes are read.
    let mut file = format!("{GOOD}\n#").into_bytes();
    file.resize(65_535, b'x');
    assert_eq!(read_all(&file).triples(), [(5, 6, 7)]);
    file.push(b'x');
    assert_eq!(read_all(&file).verdict(), (13, 0));
    // Line by line: a later line's fault is not seen.
    let file = format!("{GOOD}\n<m:s> <m:p> <m:new> .\nx");
    assert_eq!(read_with(file.as_bytes(), 1, 9, 99).verdict(), (12, 20));
    assert_eq!(read_with(file.as_bytes(), 9, 3, 99).verdict(), (27, 20));
    assert_eq!(read_with(file.as_bytes(), 2, 4, 99).verdict(), (26, 42));
}

#[test]
fn r2_the_list_and_the_table_are_new() {
    let (mut table, mut names) = (Lanes::zero(4), Names::zero(8, 40));
    read_triples(1, 7, b"<m:a> <m:b> <m:c> .", &mut table, &mut names);
    let out = read_triples(3, 9, b"<m:b> <m:b> _:a .", &mut table, &mut names);
    assert_eq!((out.number, out.place, out.count, out.names), (0, 0, 1, 2));
    assert_eq!(table, lanes(&[row(5, 5, 16_384, 9)], 4));
    assert_eq!((&names.terms[..3], &names.ends[..3]), (&[5, 16_384, 0][..], &[3, 4, 0][..]));
    assert_eq!(&names.text[..5], b"m:ba\0");
}

#[test]
fn r3_the_place_is_the_lines_first_byte() {
    for (file, place) in [
        (&b"x"[..], 0),
        (b"\n\n  x", 2),
        (b"#\r\n\t<m:s> <m:p> <m:o> , .", 3),
        (b"#\n#\xFF", 2),
        (b" \n\xEF\xBB\xBF", 2),
    ] {
        assert_eq!(read_all(file).verdict(), (26, place));
    }
}

#[test]
fn r4_numbers_as_first_met() {
    let file = "<m:x> <m:x> <m:y> .\n_:x <m:y> \"x\" .\n_:m:x <m:z> \"x\"@x .\n<x:x> <m:x> _:x .";
    let list = [
        (5, "m:x"),
        (6, "m:y"),
        (16_384, "x"),
        (32_768, "\"x\""),
        (16_385, "m:x"),
        (7, "m:z"),
        (32_769, "\"x\"@x"),
        (8, "x:x"),
    ];
    assert_eq!(entries(file), said(&list));
    assert_eq!(
        triples(file),
        [(5, 5, 6), (8, 5, 16_384), (16_384, 6, 32_768), (16_385, 7, 32_769)]
    );
}

#[test]
fn r5_no_room_for_an_entry_or_its_bytes() {
    let file = b"_:a <m:p> <m:q> .\n  <m:p> <m:q> \"xyz\" .";
    for (entries, bytes, verdict) in [
        (4, 12, (0, 0)),
        (4, 11, (27, 18)),
        (3, 12, (27, 18)),
        (3, 7, (27, 18)),
        (3, 6, (27, 0)),
        (2, 12, (27, 0)),
        (0, 12, (27, 0)),
        (4, 0, (27, 0)),
    ] {
        assert_eq!(read_with(file, 2, entries, bytes).verdict(), verdict);
        // Before 12 of the same line.
        assert_eq!(read_with(file, 0, entries, bytes).verdict().1, 0);
        let expected = if verdict == (0, 0) { (12, 18) } else { verdict };
        assert_eq!(read_with(file, 1, entries, bytes).verdict(), expected);
    }
    assert_eq!(read_with(file, 0, 3, 7).verdict(), (12, 0));
    assert_eq!(read_with(file, 0, 2, 7).verdict(), (27, 0));
    // Behind 26 of the same line.
    assert_eq!(read_with(b"_:a <m:p> <m:q> . x", 0, 0, 0).verdict(), (26, 0));
}

#[test]
fn r6_equal_triples_need_no_row() {
    let file = format!("{GOOD}\n <m:\\u0073> <m:p><m:o>.\n{GOOD}");
    assert_eq!(read_with(file.as_bytes(), 1, 3, 9).triples(), [(5, 6, 7)]);
    let file = format!("{file}\n\t<m:s> <m:s> <m:s> .\nx");
    assert_eq!(read_with(file.as_bytes(), 1, 3, 9).verdict(), (12, file.len() as u64 - 22));
    assert_eq!(read_with(GOOD.as_bytes(), 0, 3, 9).verdict(), (12, 0));
    assert_eq!(read_with(b"# only\n\n", 0, 0, 0).verdict(), (0, 0));
}

#[test]
fn r7_what_a_done_reading_leaves() {
    let (mut table, mut names) = (old_lanes(4), old_names(6, 15));
    let file = b"_:z <m:b> <m:b> .\n<m:b> <m:a> _:z .\n";
    let out = read_triples(4, 1000, file, &mut table, &mut names);
    assert_eq!((out.number, out.place, out.count, out.names), (0, 0, 2, 3));
    assert_eq!(table, lanes(&[row(5, 6, 16_384, 1000), row(16_384, 5, 5, 1000)], 4));
    assert_eq!(names.terms, [16_384, 5, 6, 0, 0, 0]);
    assert_eq!(names.ends, [1, 4, 7, 0, 0, 0]);
    assert_eq!(names.text, b"zm:bm:a\0\0\0\0\0\0\0\0");
    assert_eq!(out.packed(), (3 << 16) + 2);
}

#[test]
fn r8_what_a_refusal_leaves() {
    let unequal = || {
        let table = Lanes { subj: vec![7; 3], pred: vec![7; 2000], obj: Vec::new(), ann: vec![7] };
        (table, Names { terms: vec![7; 700], ends: vec![7; 2], text: vec![7; 40_000] })
    };
    // With 4 the lanes may be of any lengths.
    let (mut table, mut names) = unequal();
    let out = read_triples(0, 7, GOOD.as_bytes(), &mut table, &mut names);
    assert_eq!((out.number, out.place, out.count, out.names), (4, 0, 0, 0));
    assert_eq!(table.subj, [0; 3]);
    assert_eq!((table.pred, table.ann, table.obj), (vec![0; 2000], vec![0], Vec::new()));
    assert_eq!((names.terms, names.ends, names.text), (vec![0; 700], vec![0; 2], vec![0; 40_000]));
    // 11 changes nothing.
    let (mut table, mut names) = unequal();
    assert_eq!(read_triples(1, 0, &[b'x'; 70_000], &mut table, &mut names).number, 11);
    assert_eq!((table, names), unequal());
    // 10 zeros all; 13, 26, 27 and 12 are seen to by `read_with`.
    let (mut table, mut names) = (old_lanes(4), old_names(6, 15));
    assert_eq!(read_triples(1, 0, GOOD.as_bytes(), &mut table, &mut names).number, 10);
    assert_eq!((table, names), (Lanes::zero(4), Names::zero(6, 15)));
    assert_eq!(read_with(&[b'x'; 65_536], 4, 6, 15).verdict(), (13, 0));
    assert_eq!(read_with(b"x", 4, 6, 15).verdict(), (26, 0));
    assert_eq!(read_with(GOOD.as_bytes(), 4, 2, 15).verdict(), (27, 0));
    assert_eq!(read_with(GOOD.as_bytes(), 0, 6, 15).verdict(), (12, 0));
    assert_eq!(read_with(b"\nx", 4, 6, 15).out.packed(), (26 << 32) + 1);
}

// W. Writing.

/// A list for the rows of these tests.
fn list() -> Names {
    names_of(&[(5, "m:a"), (6, "m:p"), (16_384, "b"), (32_768, "\"x\"@en")])
}

#[test]
fn w1_order_of_refusals() {
    let two = [row(5, 6, 5, 1), row(5, 6, 16_384, 1)];
    let sound = lanes(&two, 2);
    let unequal = Lanes { ann: vec![1; 3], ..sound.clone() };
    let (fit, unfit) = (list(), Names { ends: vec![1; 3], ..list() });
    let long = Names { text: vec![0; 32_769], ..list() };
    let many = old_names(513, 9);
    let bad = |at: usize, row: Row| {
        let mut rows = two;
        rows[at] = row;
        lanes(&rows, 2)
    };
    let cases: [(u8, &Lanes, usize, &Names, usize, (u32, u64)); 18] = [
        (0, &unequal, 9, &unfit, 9, (4, 0)),
        (1, &unequal, 9, &unfit, 9, (11, 0)),
        (1, &sound, 3, &unfit, 9, (14, 0)),
        (1, &bad(1, row(5, 16_384, 65_535, 0)), 2, &unfit, 9, (8, 1)),
        (1, &bad(1, row(5, 16_384, 5, 0)), 2, &unfit, 9, (9, 1)),
        (1, &bad(1, row(5, 5, 5, 0)), 2, &unfit, 9, (10, 1)),
        (3, &bad(0, row(5, 5, 5, 1001)), 2, &unfit, 9, (10, 0)),
        (1, &bad(1, row(5, 6, 5, 1)), 2, &unfit, 9, (15, 1)),
        (1, &sound, 2, &unfit, 9, (11, 0)),
        (1, &sound, 2, &long, 9, (11, 0)),
        (1, &sound, 2, &many, 999, (11, 0)),
        (1, &sound, 2, &fit, 5, (14, 0)),
        (1, &sound, 2, &fit, usize::MAX, (14, 0)),
        (1, &sound, 2, &fit, 2, (39, 1)),
        (1, &sound, 2, &fit, 4, (12, 0)),
        (1, &sound, 0, &unfit, 0, (11, 0)),
        (1, &sound, 0, &fit, 5, (14, 0)),
        (1, &sound, 0, &fit, 4, (0, 0)),
    ];
    for (at, (kind, table, count, names, listed, verdict)) in cases.into_iter().enumerate() {
        let out = write_triples(kind, table, count, names, listed, &mut []);
        assert_eq!((out.number, out.place, out.length), (verdict.0, verdict.1, 0), "{at}");
    }
}

#[test]
fn w2_the_lowest_row_without_its_texts() {
    let good = row(0, 6, 5, 1);
    for bad in [
        row(7, 6, 5, 1),
        row(5, 7, 5, 1),
        row(5, 6, 7, 1),
        row(5, 6, 16_385, 1),
        row(32_768, 6, 5, 1),
    ] {
        assert_eq!(lines_of(&[good, bad], &list(), 4), Err((39, 1)));
        assert_eq!(lines_of(&[bad, row(40_000, 6, 5, 1)], &list(), 4), Err((39, 0)));
        // Before 12.
        assert_eq!(written(&[good, bad], &list(), 4, 0).0.number, 39);
    }
    // The literal of the subject has a text, and still.
    assert_eq!(lines_of(&[row(32_768, 2, 5, 1)], &list(), 4), Err((39, 0)));
    assert_eq!(
        lines_of(&[row(16_384, 2, 32_768, 1)], &list(), 4),
        Ok(format!("_:b <{T}> \"x\"@en .\n"))
    );
}

#[test]
fn w3_too_short_an_output() {
    let rows = [row(5, 6, 5, 1), row(16_384, 6, 32_768, 1)];
    let all = "<m:a> <m:p> <m:a> .\n_:b <m:p> \"x\"@en .\n";
    for room in 0..all.len() {
        let (out, _) = written(&rows, &list(), 4, room);
        assert_eq!((out.number, out.place, out.length), (12, 0, 0));
    }
    for room in [all.len(), all.len() + 1] {
        let (out, bytes) = written(&rows, &list(), 4, room);
        assert_eq!((out.number, out.place, out.length), (0, 0, all.len()));
        assert_eq!(bytes, all.as_bytes());
    }
    assert_eq!(written(&rows, &list(), 4, 0).0.packed(), 12 << 32);
    assert_eq!(written(&rows, &list(), 4, 99).0.packed(), all.len() as u64);
}

#[test]
fn w4_which_text_a_term_has() {
    let names = |entries: &[(u16, &str)]| names_of(&[&[(5, "m:a"), (6, "m:p")], entries].concat());
    let object = |names: &Names, obj| lines_of(&[row(5, 6, obj, 1)], names, names.room());
    let line = |object: &str| Ok(format!("<m:a> <m:p> {object} .\n"));
    // The five, whatever the list says of them.
    assert_eq!(object(&names(&[(2, "m:no")]), 2), line(&format!("<{T}>")));
    assert_eq!(
        lines_of(&[row(0, 1, 4, 1)], &Names::default(), 0),
        Ok(format!("<{}> <{}> <{}> .\n", FIVE[0], FIVE[1], FIVE[4]))
    );
    // The first entry of the number decides, even if a later one would do.
    assert_eq!(object(&names(&[(7, "m:x"), (7, "m:y")]), 7), line("<m:x>"));
    assert_eq!(object(&names(&[(7, "bad"), (7, "m:y")]), 7), Err((39, 0)));
    assert_eq!(object(&names(&[(7, ""), (7, "m:y")]), 7), Err((39, 0)));
    // Legal for the term's own sort.
    for (number, legal, bytes) in [
        (7, false, "b"),
        (7, false, "\"x\""),
        (7, true, "m:a"),
        (7, true, T),
        (16_384, true, "m:a"),
        (16_384, false, "\"x\""),
        (16_384, false, "b."),
        (32_768, false, "m:a"),
        (32_768, false, "\"\\t\""),
        (32_768, false, "\"x\" @en"),
        (32_768, true, "\"x\"@en"),
    ] {
        let written = object(&names(&[(number, bytes)]), number);
        assert_eq!(written.is_ok(), legal, "{number} {bytes}");
        assert!(legal || written == Err((39, 0)));
    }
    // Ends that fall or run past the text; entries not used are not judged.
    let ends = |ends: [u16; 3]| Names { ends: ends.to_vec(), ..names(&[(7, "m:xyz")]) };
    assert_eq!(object(&ends([3, 6, 11]), 7), line("<m:xyz>"));
    assert_eq!(object(&ends([3, 6, 12]), 7), Err((39, 0)));
    assert_eq!(object(&ends([3, 6, 65_535]), 7), Err((39, 0)));
    assert_eq!(object(&ends([3, 6, 5]), 7), Err((39, 0)));
    assert_eq!(object(&ends([3, 6, 65_535]), 5), line("<m:a>"));
    let used = Names {
        ends: vec![3, 60, 6, 11],
        ..names_of(&[(5, "m:a"), (9, ""), (6, "m:p"), (7, "m:xyz")])
    };
    // An end past the text spoils its entry, and the next one, which falls.
    assert_eq!(used.text_of(4, 9), None);
    assert_eq!(used.text_of(4, 6), None);
    assert_eq!(used.text_of(4, 7), Some(text(Sort::Name, b"m:xyz")));
    assert_eq!(object(&names(&[(65_535, "x"), (8, "rubbish"), (5, "m:z")]), 5), line("<m:a>"));
    // Two numbers may have one text.
    let two = names(&[(7, "m:a")]);
    let both = lines_of(&[row(5, 6, 5, 1), row(7, 6, 7, 1)], &two, 3);
    assert_eq!(both, Ok("<m:a> <m:p> <m:a> .\n".repeat(2)));
    // Only entries below the count.
    assert_eq!(lines_of(&[row(5, 6, 7, 1)], &two, 2), Err((39, 0)));
}

#[test]
fn w5_canonical_lines() {
    let string =
        "\"\u{0}\t\u{8}\u{C}\u{1F}\u{7F}\\\"\\\\\\n\\r'\u{E9}\u{85}\u{2028}\u{FFFF}\u{10FFFF}\"";
    let names = names_of(&[
        (5, "m:\u{E9}\u{7F}"),
        (16_384, "a.:\u{B7}"),
        (32_768, string),
        (32_769, "\"\"^^<a:>"),
    ]);
    let rows = [row(5, 5, 32_768, 1), row(16_384, 0, 16_384, 1), row(16_384, 5, 32_769, 9)];
    let expected = format!(
        "<m:\u{E9}\u{7F}> <m:\u{E9}\u{7F}> {string} .\n_:a.:\u{B7} <{}> _:a.:\u{B7} .\n_:a.:\u{B7} <m:\u{E9}\u{7F}> \"\"^^<a:> .\n",
        FIVE[0]
    );
    assert_eq!(lines_of(&rows, &names, 4), Ok(expected));
    assert_eq!(
        written(&[], &names, 4, 0),
        (WriteOut { number: 0, place: 0, length: 0 }, Vec::new())
    );
}

#[test]
fn w6_bytes_past_the_length_stay() {
    // `written` sees that every byte past the length is as it was.
    let (out, _) = written(&[row(5, 6, 5, 1)], &list(), 4, 40);
    assert_eq!((out.number, out.place, out.length), (0, 0, 20));
}

#[test]
fn w7_a_closed_table_with_a_literal_subject() {
    let file = format!("<m:p> <{}> <m:c> .\n<m:a> <m:p> \"x\" .", FIVE[4]);
    let mut read = read_all(file.as_bytes());
    let room = &mut [0; 300];
    assert_eq!(write_triples(1, &read.lanes, 2, &read.names, 4, room).number, 0);
    let closed = trial::closing::close(1, 1, &mut read.lanes, 2);
    assert_eq!((closed.number, closed.count), (0, 3));
    let out = write_triples(1, &read.lanes, 3, &read.names, 4, room);
    assert_eq!((out.number, out.place, out.length), (39, 2, 0));
}
