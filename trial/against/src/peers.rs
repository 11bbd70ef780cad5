//! Files for other readers of N-Triples: plain ones, which all of them take, and those that show where
//! they leave the grammar.

use crate::calls;
use std::collections::BTreeSet;
use trial::ntriples::Names;
use trial::random::Random;
use trial::table::Lanes;

/// A file, and what is made of it here, by rapper and by serdi: `refused`, or the lines written, in
/// canonical form, with what is not printed as Rust escapes it. A line that is not N-Triples, which
/// only the others write, stands behind a mark.
pub struct Known {
    /// The paragraph of the readings.
    pub rule: &'static str,
    pub what: &'static str,
    pub file: &'static [u8],
    pub outcomes: [&'static str; 3],
}

/// The canonical lines of a file, or none where it is refused.
pub type Lines = Option<BTreeSet<String>>;

/// What our two calls make of a file.
pub fn ours(file: &[u8]) -> Lines {
    let (mut lanes, mut names) = (Lanes::zero(1024), Names::zero(512, 32_768));
    let read = calls::read_triples(1, 1, file, &mut lanes, &mut names);
    if read.number != 0 {
        return None;
    }
    let mut out = vec![0; 70_000];
    let written = calls::write_triples(1, &lanes, read.count, &names, read.names, &mut out);
    assert_eq!(written.number, 0, "what was read can be written");
    let text = String::from_utf8_lossy(&out[..written.length]).into_owned();
    Some(text.split_inclusive('\n').map(str::to_string).collect())
}

/// A refusal, or the lines, with what is not printed escaped.
pub fn shown(lines: &Lines) -> String {
    let Some(lines) = lines else {
        return "refused".to_string();
    };
    let shown = |line: &String| -> String {
        let chars = line.trim_end_matches('\n').chars();
        chars
            .flat_map(|one| match one {
                ' '..='~' => vec![one],
                _ => one.escape_unicode().collect(),
            })
            .collect()
    };
    lines.iter().map(shown).collect::<Vec<_>>().join(" / ")
}

const IRIS: [&str; 10] = [
    "http://makers.example/lamps/item/7",
    "http://makers.example/lamps/item/7#tail",
    "http://makers.example/r\u{E9}gion/\u{65E5}\u{672C}?w=5&v=12",
    "urn:isbn:0451450523",
    "m:a",
    "m:b",
    "m:p",
    "https://www.w3.org/2000/01/rdf-schema#range",
    "http://www.w3.org/2000/01/rdf-schema#subClassOf",
    "http://www.w3.org/1999/02/22-rdf-syntax-ns#type",
];

const LABELS: [&str; 8] = ["a", "b0", "B-1", "x_y", "_z", "9", "lamp.7", "genid1"];

const TAGS: [&str; 5] = ["en", "de", "en-gb", "de-1996", "x-maker-7"];

const DATATYPES: [&str; 3] = [
    "http://www.w3.org/2001/XMLSchema#integer",
    "http://www.w3.org/2001/XMLSchema#string",
    "m:watt",
];

/// Everything but NUL, U+FFFE and U+FFFF.
const CHARACTERS: [char; 28] = [
    'a',
    'b',
    'X',
    '0',
    ' ',
    '#',
    '.',
    '<',
    '>',
    '@',
    '^',
    '\'',
    '"',
    '\\',
    '\n',
    '\r',
    '\t',
    '\u{8}',
    '\u{C}',
    '\u{1}',
    '\u{1F}',
    '\u{7F}',
    '\u{E9}',
    '\u{7FF}',
    '\u{65E5}',
    '\u{FEFF}',
    '\u{1F600}',
    '\u{10FFFD}',
];

/// A character as it is, or escaped as it must be or may.
fn spelled(random: &mut Random, one: char) -> String {
    let letter = match one {
        '\t' => Some('t'),
        '\u{8}' => Some('b'),
        '\n' => Some('n'),
        '\r' => Some('r'),
        '\u{C}' => Some('f'),
        '"' | '\\' => Some(one),
        _ => None,
    };
    let needed = matches!(one, '"' | '\\' | '\n' | '\r');
    match random.below(4) {
        0 if one <= '\u{FFFF}' => format!("\\u{:04X}", u32::from(one)),
        1 => format!("\\U{:08x}", u32::from(one)),
        2 if !needed => one.to_string(),
        _ => letter.map_or(one.to_string(), |letter| format!("\\{letter}")),
    }
}

/// An IRI, characters outside ASCII escaped or not.
fn iri(random: &mut Random, iri: &str) -> String {
    let escape = random.chance(2);
    let spelled = iri.chars().map(|one| match one {
        one if one.is_ascii() || !escape => one.to_string(),
        one => format!("\\u{:04X}", u32::from(one)),
    });
    format!("<{}>", spelled.collect::<String>())
}

fn literal(random: &mut Random) -> String {
    let size = random.below(9);
    let string: String = (0..size)
        .map(|_| {
            let one = random.pick(&CHARACTERS);
            spelled(random, one)
        })
        .collect();
    let tail = match random.below(3) {
        0 => format!("@{}", random.pick(&TAGS)),
        1 => format!("^^<{}>", random.pick(&DATATYPES)),
        _ => String::new(),
    };
    format!("\"{string}\"{tail}")
}

fn name(random: &mut Random) -> String {
    let one = random.pick(&IRIS);
    iri(random, one)
}

fn subject(random: &mut Random) -> String {
    match random.below(3) {
        0 => format!("_:{}", random.pick(&LABELS)),
        _ => name(random),
    }
}

/// A file of up to 40 lines that leaves no reader a choice.
pub fn plain_file(random: &mut Random) -> Vec<u8> {
    let mut file = String::new();
    for _ in 0..random.from_to(1, 40) {
        if random.chance(8) {
            file += random.pick(&["\n", "# lamps\n", "\t # \u{E9}\r\n"]);
        }
        let object = if random.chance(2) { literal(random) } else { subject(random) };
        let terms = [subject(random), name(random), object];
        file += random.pick(&["", "", " ", "\t"]);
        file += &terms.join(random.pick(&[" ", " ", "\t", "  \t"]));
        file += random.pick(&[" .", " .", "\t.", " . # 7"]);
        file += random.pick(&["\n", "\n", "\r\n", "\n\n"]);
    }
    file.into_bytes()
}

/// Where rapper 2.0.15 and serdi 0.30.16 leave the grammar, in the order of the readings.
pub const KNOWN: &[Known] = &[
    Known {
        rule: "N2",
        what: "VT and FF as white space",
        file: b"_:a\x0B<m:p>\x0C_:b .",
        outcomes: ["refused", "_:a <m:p> _:b .", "refused"],
    },
    Known {
        rule: "N2",
        what: "no final dot",
        file: b"_:a <m:p> _:b",
        outcomes: ["refused", "_:a <m:p> _:b .", "refused"],
    },
    Known {
        rule: "N2",
        what: "no white space behind a label",
        file: b"_:a<m:p>_:b.",
        outcomes: ["_:a <m:p> _:b .", "no N-Triples: _:a <m:p> _:b. .", "_:a <m:p> _:b ."],
    },
    Known {
        rule: "N2",
        what: "a NUL behind the dot",
        file: b"_:a <m:p> _:b .\0",
        outcomes: ["refused", "_:a <m:p> _:b .", "_:a <m:p> _:b ."],
    },
    Known {
        rule: "N3",
        what: "two triples in a line",
        file: b"_:a <m:p> _:b . _:a <m:p> _:c .",
        outcomes: ["refused", "refused", "_:a <m:p> _:b . / _:a <m:p> _:c ."],
    },
    Known {
        rule: "N3",
        what: "a triple over two lines",
        file: b"_:a <m:p>\n_:b .",
        outcomes: ["refused", "refused", "_:a <m:p> _:b ."],
    },
    Known {
        rule: "N4",
        what: "a dot behind a label",
        file: b"_:a <m:p> _:b.",
        outcomes: ["_:a <m:p> _:b .", "no N-Triples: _:a <m:p> _:b. .", "_:a <m:p> _:b ."],
    },
    Known {
        rule: "N4",
        what: "two dots behind a label",
        file: b"_:a <m:p> _:b..",
        outcomes: ["refused", "no N-Triples: _:a <m:p> _:b.. .", "no N-Triples: _:a <m:p> _:b. ."],
    },
    Known {
        rule: "N5",
        what: "white space before a tag",
        file: b"_:a <m:p> \"x\" @en .",
        outcomes: ["_:a <m:p> \"x\"@en .", "refused", "refused"],
    },
    Known {
        rule: "N5",
        what: "white space before ^^",
        file: b"_:a <m:p> \"x\" ^^<m:d> .",
        outcomes: ["_:a <m:p> \"x\"^^<m:d> .", "refused", "refused"],
    },
    Known {
        rule: "N5",
        what: "white space behind ^^",
        file: b"_:a <m:p> \"x\"^^ <m:d> .",
        outcomes: ["_:a <m:p> \"x\"^^<m:d> .", "refused", "refused"],
    },
    Known {
        rule: "N5",
        what: "one ^",
        file: b"_:a <m:p> \"x\"^<m:d> .",
        outcomes: ["refused", "refused", "_:a <m:p> \"x\"^^<m:d> ."],
    },
    Known {
        rule: "N5",
        what: "^^ with nothing behind it",
        file: b"_:a <m:p> \"x\"^^ .",
        outcomes: ["refused", "refused", ""],
    },
    Known {
        rule: "N6",
        what: "a comment before the dot",
        file: b"_:a <m:p> _:b # x\n.",
        outcomes: ["refused", "refused", "_:a <m:p> _:b ."],
    },
    Known {
        rule: "N7",
        what: "Turtle's a",
        file: b"_:a a _:b .",
        outcomes: [
            "refused",
            "refused",
            "_:a <http://www.w3.org/1999/02/22-rdf-syntax-ns#type> _:b .",
        ],
    },
    Known {
        rule: "N7",
        what: "Turtle's semicolon",
        file: b"_:a <m:p> _:b ; <m:q> _:c .",
        outcomes: ["refused", "refused", "_:a <m:p> _:b . / _:a <m:q> _:c ."],
    },
    Known {
        rule: "N8",
        what: "an overlong form",
        file: b"_:a <m:p> \"\xC1\xA1\" .",
        outcomes: ["refused", "_:a <m:p> \"\" .", "_:a <m:p> \"a\" ."],
    },
    Known {
        rule: "N8",
        what: "a surrogate in UTF-8",
        file: b"_:a <m:p> \"\xED\xA0\x80\" .",
        outcomes: [
            "refused",
            "no N-Triples: _:a <m:p> \"\\uD800\" .",
            "no N-Triples: _:a <m:p> \"\\uD800\" .",
        ],
    },
    Known {
        rule: "N8",
        what: "above F4 8F",
        file: b"_:a <m:p> \"\xF4\x90\x80\x80\" .",
        outcomes: ["refused", "_:a <m:p> \"\" .", "no N-Triples: _:a <m:p> \"\\U00110000\" ."],
    },
    Known {
        rule: "N8",
        what: "no UTF-8 in a comment",
        file: b"_:a <m:p> \"x\" . # \xFF",
        outcomes: ["refused", "_:a <m:p> \"x\" .", "_:a <m:p> \"x\" ."],
    },
    Known {
        rule: "N9",
        what: "escapes for surrogates in a string",
        file: b"_:a <m:p> \"\\uD83D\\uDE00\" .",
        outcomes: [
            "refused",
            "no N-Triples: _:a <m:p> \"\\uD83D\\uDE00\" .",
            "no N-Triples: _:a <m:p> \"\\uD83D\\uDE00\" .",
        ],
    },
    Known {
        rule: "N9",
        what: "a lone surrogate",
        file: b"_:a <m:p> \"\\uD800\" .",
        outcomes: [
            "refused",
            "no N-Triples: _:a <m:p> \"\\uD800\" .",
            "no N-Triples: _:a <m:p> \"\\uD800\" .",
        ],
    },
    Known {
        rule: "N9",
        what: "an escape above 10FFFF",
        file: b"_:a <m:p> \"\\U00110000\" .",
        outcomes: ["refused", "refused", "_:a <m:p> \"\\u{fffd}\" ."],
    },
    Known {
        rule: "N10",
        what: "a brace in an IRI",
        file: b"_:a <m:p> <m:{> .",
        outcomes: ["refused", "no N-Triples: _:a <m:p> <m:\\u007B> .", "refused"],
    },
    Known {
        rule: "N10",
        what: "a backslash through an escape",
        file: b"_:a <m:p> <m:\\u005C> .",
        outcomes: [
            "refused",
            "no N-Triples: _:a <m:p> <m:\\\\> .",
            "no N-Triples: _:a <m:p> <m:\\u005C> .",
        ],
    },
    Known {
        rule: "N10",
        what: "two backslashes in an IRI",
        file: b"_:a <m:p> <m:\\\\> .",
        outcomes: ["refused", "no N-Triples: _:a <m:p> <m:\\\\> .", "refused"],
    },
    Known {
        rule: "N10",
        what: "\\\" in an IRI",
        file: b"_:a <m:p> <m:\\\"> .",
        outcomes: ["refused", "no N-Triples: _:a <m:p> <m:\\u0022> .", "refused"],
    },
    Known {
        rule: "N10",
        what: "U+FFFF in an IRI",
        file: b"_:a <m:p> <m:\xEF\xBF\xBF> .",
        outcomes: ["_:a <m:p> <m:\\u{ffff}> .", "_:a <m:p> <m:> .", "_:a <m:p> <m:\\u{ffff}> ."],
    },
    Known {
        rule: "N11",
        what: "an escape in a scheme",
        file: b"_:a <m:p> <\\u006D:b> .",
        outcomes: ["_:a <m:p> <m:b> .", "_:a <m:p> <m:b> .", "refused"],
    },
    Known {
        rule: "N12",
        what: "\\'",
        file: b"_:a <m:p> \"\\'\" .",
        outcomes: ["_:a <m:p> \"'\" .", "refused", "_:a <m:p> \"'\" ."],
    },
    Known {
        rule: "N12",
        what: "\\uFFFF in a string",
        file: b"_:a <m:p> \"a\\uFFFFb\" .",
        outcomes: ["_:a <m:p> \"a\\u{ffff}b\" .", "refused", "_:a <m:p> \"a\\u{ffff}b\" ."],
    },
    Known {
        rule: "N12",
        what: "a raw U+FFFF in a string",
        file: b"_:a <m:p> \"a\xEF\xBF\xBFb\" .",
        outcomes: [
            "_:a <m:p> \"a\\u{ffff}b\" .",
            "_:a <m:p> \"a\" .",
            "_:a <m:p> \"a\\u{ffff}b\" .",
        ],
    },
    Known {
        rule: "N12",
        what: "\\u0000 in a string",
        file: b"_:a <m:p> \"a\\u0000b\" .",
        outcomes: ["_:a <m:p> \"a\\u{0}b\" .", "_:a <m:p> \"a\" .", "_:a <m:p> \"a\\u{0}b\" ."],
    },
    Known {
        rule: "N12",
        what: "a raw NUL in a string",
        file: b"_:a <m:p> \"a\0b\" .",
        outcomes: ["_:a <m:p> \"a\\u{0}b\" .", "_:a <m:p> \"a\" .", "_:a <m:p> \"a\\u{0}b\" ."],
    },
    Known {
        rule: "N12",
        what: "a raw LF in a string",
        file: b"_:a <m:p> \"a\nb\" .",
        outcomes: ["refused", "_:a <m:p> \"a\\nb\" .", "refused"],
    },
    Known {
        rule: "N12",
        what: "a raw CR in a string",
        file: b"_:a <m:p> \"a\rb\" .",
        outcomes: ["refused", "_:a <m:p> \"a\\rb\" .", "refused"],
    },
    Known {
        rule: "N13",
        what: "':' in a label",
        file: b"_:a:b <m:p> _:b .",
        outcomes: ["_:a:b <m:p> _:b .", "_:a:b <m:p> _:b .", "refused"],
    },
    Known {
        rule: "N13",
        what: "a label that begins with '-'",
        file: b"_:-a <m:p> _:b .",
        outcomes: ["refused", "refused", "no N-Triples: _:-a <m:p> _:b ."],
    },
    Known {
        rule: "N13",
        what: "U+00D7 in a label",
        file: b"_:a\xC3\x97 <m:p> _:b .",
        outcomes: [
            "refused",
            "no N-Triples: _:a\\u{d7} <m:p> _:b .",
            "no N-Triples: _:a\\u{d7} <m:p> _:b .",
        ],
    },
    Known {
        rule: "N13",
        what: "an escape in a label",
        file: b"_:a\\u0041 <m:p> _:b .",
        outcomes: ["refused", "_:aA <m:p> _:b .", "refused"],
    },
    Known {
        rule: "N14",
        what: "a byte order mark",
        file: b"\xEF\xBB\xBF_:a <m:p> _:b .",
        outcomes: ["refused", "refused", "_:a <m:p> _:b ."],
    },
    Known {
        rule: "N15",
        what: "a tag in capitals",
        file: b"_:a <m:p> \"x\"@EN .",
        outcomes: ["_:a <m:p> \"x\"@EN .", "_:a <m:p> \"x\"@en .", "_:a <m:p> \"x\"@EN ."],
    },
    Known {
        rule: "N15",
        what: "a tag that ends in '-'",
        file: b"_:a <m:p> \"x\"@en- .",
        outcomes: [
            "refused",
            "no N-Triples: _:a <m:p> \"x\"@en- .",
            "no N-Triples: _:a <m:p> \"x\"@en- .",
        ],
    },
    Known {
        rule: "N15",
        what: "a tag with '_'",
        file: b"_:a <m:p> \"x\"@en_GB .",
        outcomes: ["refused", "_:a <m:p> \"x\"@en-gb .", "refused"],
    },
];

/// Files on which all three agree though one might not expect it, read or refused.
pub const AGREED: &[&[u8]] = &[
    b"_:a <m:p> \"\x80\" .",
    b"_:a <m:p> \"\xE2\x82\" .",
    b"_:a <m:p> <m:a b> .",
    b"_:a <m:p> <m:\\u0020> .",
    b"_:a <m:p> <m:\\t> .",
    b"_:a <m:p> <b> .",
    b".",
    b"<m:a><m:p><m:b>.",
    b"_:a _:p _:b .",
    b"\"x\" <m:p> _:b .",
    b"_:a <m:p> _:b <m:g> .",
    b"_:\xC3\xA9 <m:p> _:b .",
    b"_:a <m:p> _:b .\r_:a <m:p> _:c .",
];
