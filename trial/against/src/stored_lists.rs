//! Makers' lists with what each must give: the worked examples of the readings, and corners that no
//! random file should be trusted to meet.

use trial::ntriples::text::{FIVE, XSD_STRING};
use trial::ntriples::Names;
use trial::random::files::Reading;
use trial::table::{Lanes, Triple};

/// A file, the room lent for it, and what reading it must give; with its canonical form where it is
/// read.
pub struct List {
    pub name: &'static str,
    pub file: Vec<u8>,
    pub rows: usize,
    pub entries: usize,
    pub bytes: usize,
    pub number: u32,
    pub place: u64,
    pub triples: Vec<Triple>,
    pub listed: Vec<(u16, &'static str)>,
    pub written: String,
}

impl List {
    /// The reading, in kind 1, into lanes full of what stood there before.
    pub fn reading(&self) -> Reading {
        let lane = vec![60_001; self.rows];
        let lanes = Lanes {
            subj: lane.clone(),
            pred: lane.clone(),
            obj: lane,
            ann: vec![u64::MAX; self.rows],
        };
        let names = Names {
            terms: vec![60_001; self.entries],
            ends: vec![60_002; self.entries],
            text: vec![255; self.bytes],
        };
        Reading { kind: 1, ann: 7, file: self.file.clone(), lanes, names }
    }
}

const SUB_CLASS: &str = FIVE[1];
const TYPE: &str = FIVE[2];

/// A file that is read: its rows, its entries, and what is written of them.
fn done(
    name: &'static str,
    file: &str,
    triples: &[Triple],
    listed: &[(u16, &'static str)],
    written: &str,
) -> List {
    List {
        name,
        file: file.as_bytes().to_vec(),
        rows: triples.len(),
        entries: listed.len(),
        bytes: listed.iter().map(|entry| entry.1.len()).sum(),
        number: 0,
        place: 0,
        triples: triples.to_vec(),
        listed: listed.to_vec(),
        written: written.to_string(),
    }
}

/// A file that is refused: rows, entries and bytes lent, number and place.
fn refused(name: &'static str, file: &[u8], room: [usize; 3], number: u32, place: u64) -> List {
    let [rows, entries, bytes] = room;
    let (triples, listed, written) = (Vec::new(), Vec::new(), String::new());
    let file = file.to_vec();
    List { name, file, rows, entries, bytes, number, place, triples, listed, written }
}

/// Section X of the readings.
pub fn worked_examples() -> Vec<List> {
    let two = b"<m:a> <m:p> <m:b> .\n<m:a> <m:p> <m:c> .";
    let blank_in_iri = b"<m:a> <m:p> <m:b> .\n  <m:a> <m:p> <m:\\u0020> .";
    vec![
        done(
            "names, and two of the five",
            &format!("<m:l7> <{TYPE}> <m:tail> . # lamp 7\r\n<m:tail> <{SUB_CLASS}> <m:lamp> .\n"),
            &[(5, 2, 6), (6, 1, 7)],
            &[(5, "m:l7"), (6, "m:tail"), (7, "m:lamp")],
            &format!("<m:l7> <{TYPE}> <m:tail> .\n<m:tail> <{SUB_CLASS}> <m:lamp> .\n"),
        ),
        done(
            "all sorts, and the way back",
            &format!("<m:a> <m:p> <m:z> .\n<m:a> <{TYPE}> _:b .\n_:b <m:p> \"x\\u0041\\t\"@EN .\n"),
            &[(5, 2, 16_384), (5, 6, 7), (16_384, 6, 32_768)],
            &[(5, "m:a"), (6, "m:p"), (7, "m:z"), (16_384, "b"), (32_768, "\"xA\t\"@EN")],
            &format!("<m:a> <{TYPE}> _:b .\n<m:a> <m:p> <m:z> .\n_:b <m:p> \"xA\t\"@EN .\n"),
        ),
        done(
            "two spellings are one text",
            &format!("<m:a> <m:p> \"x\" .\n<m:\\u0061> <m:p> \"x\"^^<{XSD_STRING}> ."),
            &[(5, 6, 32_768)],
            &[(5, "m:a"), (6, "m:p"), (32_768, "\"x\"")],
            "<m:a> <m:p> \"x\" .\n",
        ),
        refused("27 at the second line", two, [2, 3, 99], 27, 20),
        refused("12 at the second line", two, [1, 4, 99], 12, 20),
        refused("27 before 12 of the same line", two, [1, 3, 99], 27, 20),
        refused("26 at the line's first byte", blank_in_iri, [9, 9, 99], 26, 20),
        refused("26 whatever the room", blank_in_iri, [1, 3, 9], 26, 20),
    ]
}

/// More of the same kind.
pub fn corners() -> Vec<List> {
    let two = b"<m:a> <m:p> <m:b> .\n<m:a> <m:p> <m:c> .";
    let twice = format!("<{TYPE}> <{TYPE}> <{TYPE}> .\r<{TYPE}> <{TYPE}> <{TYPE}> .");
    vec![
        done("an empty file, no room at all", "", &[], &[], ""),
        done("lines with nothing in them", "\n\r \t\r\n#\n# x\r", &[], &[], ""),
        done(
            "the five take no entry, an equal triple no row",
            &twice,
            &[(2, 2, 2)],
            &[],
            &format!("<{TYPE}> <{TYPE}> <{TYPE}> .\n"),
        ),
        done(
            "one of the five as a label and in a string is an entry",
            &format!("_:type <{TYPE}> \"{TYPE}\" ."),
            &[(16_384, 2, 32_768)],
            &[(16_384, "type"), (32_768, "\"http://www.w3.org/1999/02/22-rdf-syntax-ns#type\"")],
            &format!("_:type <{TYPE}> \"{TYPE}\" .\n"),
        ),
        done(
            "the same bytes as a name, a label and a string",
            "_:m:a <m:a> <m:a> .\n<m:a> <m:a> \"m:a\" .\n",
            &[(5, 5, 32_768), (16_384, 5, 5)],
            &[(16_384, "m:a"), (5, "m:a"), (32_768, "\"m:a\"")],
            "<m:a> <m:a> \"m:a\" .\n_:m:a <m:a> <m:a> .\n",
        ),
        done(
            "every ECHAR, and NUL, TAB, BS and FF written raw",
            "_:a<m:p>\"\\t\\b\\n\\r\\f\\\"\\'\\\\\\u0000\".",
            &[(16_384, 5, 32_768)],
            &[(16_384, "a"), (5, "m:p"), (32_768, "\"\t\u{8}\\n\\r\u{C}\\\"'\\\\\0\"")],
            "_:a <m:p> \"\t\u{8}\\n\\r\u{C}\\\"'\\\\\0\" .\n",
        ),
        done(
            "white space inside a literal, a dot at a label's end",
            "_:a.b<m:p>\"x\" \t^^ <m:d>.#\n_:a.b <m:p>_:c.",
            &[(16_384, 5, 16_385), (16_384, 5, 32_768)],
            &[(16_384, "a.b"), (5, "m:p"), (32_768, "\"x\"^^<m:d>"), (16_385, "c")],
            "_:a.b <m:p> _:c .\n_:a.b <m:p> \"x\"^^<m:d> .\n",
        ),
        refused("27 by one byte of text", two, [2, 4, 11], 27, 20),
        refused("27 with no entry", two, [2, 0, 99], 27, 0),
        refused("27 with no text", two, [2, 4, 0], 27, 0),
        refused("12 with no row", two, [0, 4, 99], 12, 0),
        refused("11: 1,025 rows", two, [1025, 4, 99], 11, 0),
        refused("11: 513 entries", two, [2, 513, 99], 11, 0),
        refused("11: 32,769 bytes of text", two, [2, 4, 32_769], 11, 0),
        refused("13: 65,536 bytes", &[b'\n'; 65_536], [2, 4, 99], 13, 0),
        refused("26: a byte order mark", b"\xEF\xBB\xBF", [2, 4, 99], 26, 0),
        refused("26: no UTF-8 in a comment", b"\r#\xC3\n", [2, 4, 99], 26, 1),
        refused("26: a pair of surrogates", b"_:a <m:p> \"\\uD83D\\uDE00\" .", [2, 4, 99], 26, 0),
        refused("26: a relative IRI", b"<m:a> <p> <m:b> .", [2, 4, 99], 26, 0),
        refused("26: two in a line", b"_:a<m:p>_:b._:a<m:p>_:b.", [2, 4, 99], 26, 0),
        refused("26: two dots", b"\t_:a<m:p>_:b..", [2, 4, 99], 26, 0),
    ]
}
