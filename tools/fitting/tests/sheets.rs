//! Sheets that prove a line together, as a text writes them.

mod common;
use common::*;

const BOOK: &str = "kind sheets maker, importer, workshop\n";

/// The annotations of a book's rows, in its bytes.
fn values(text: &str) -> Vec<u64> {
    let bytes = command("book t --quiet", &[text.as_bytes()]).out;
    assert_eq!(bytes[..7], [1, 0, 4, 1, 5, 0, 0], "kind 5, no base year");
    let value = |field: &[u8]| u64::from_be_bytes(field[9..].try_into().unwrap());
    bytes[7..].chunks(17).map(value).collect()
}

#[test]
fn combinations_in_bytes() {
    let lines =
        "a is b maker\na is c maker + importer\na is d maker+importer, workshop\na is e always\n";
    let wanted = [0xAAAA_AAAA_AAAA_AAAA, 0x8888_8888_8888_8888, 0xF8F8_F8F8_F8F8_F8F8, u64::MAX];
    assert_eq!(values(&format!("{BOOK}{lines}")), wanted);
}

/// A question for a combination asks for all that hold it, never for the single bit.
#[test]
fn combinations_in_questions() {
    let text = format!("{BOOK}ask ?x is b maker + importer\n");
    let question = &fitting::text::read(text.as_bytes()).ok().unwrap().questions[0];
    assert!(question.fields.bytes.ends_with(&0x8888_8888_8888_8888_u64.to_be_bytes()));
}

/// No value of a text misses a larger combination (28).
#[test]
fn every_value_is_legal() {
    let sheets = ["maker", "importer", "workshop"];
    for one in sheets {
        for other in sheets {
            for value in
                values(&format!("{BOOK}a is b {one}, {other} + {one}\na is c {one} + {other}\n"))
            {
                assert!(!fitting::sheets::misses_a_larger(value));
            }
        }
    }
}

#[test]
fn tables_say_sheets_too() {
    let table = "subject,relation,object,\"sheets maker, importer\"\na,is,b,\"importer, maker + importer\"\n";
    let imported = command("import table.csv", &[table.as_bytes()]);
    assert_eq!(imported.text(), "kind sheets maker, importer\na  is  b  importer\n");
}
