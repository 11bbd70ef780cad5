//! A maker's list of lamps to measure with: so many lines of some 120 bytes over so many names, none
//! of them twice. The bytes hardly depend on the names, so that what each of the two costs is seen.

/// The properties; with the items, blanks and literals they are all the names.
const PROPERTIES: usize = 13;

/// The bytes of a list of so many lines with so many entries of all sorts.
pub fn list(lines: usize, names: usize) -> Vec<u8> {
    let literals = names / 4;
    let subjects = names - PROPERTIES - literals;
    let mut file = String::new();
    for line in 0..lines {
        let object = match line % 2 {
            0 => literal(line / 2 % literals),
            _ => subject((line / 2 + 163) % subjects),
        };
        let property = line % PROPERTIES;
        file += &format!(
            "{} <http://makers.example/lamps/has#p{property:02}> {object} .\n",
            subject(line % subjects)
        );
    }
    file.into_bytes()
}

/// Every tenth subject is a blank.
fn subject(at: usize) -> String {
    match at % 10 {
        9 => format!("_:batch-of-lamps-without-a-number-{at:04}"),
        _ => format!("<http://makers.example/lamps/item/{at:04}>"),
    }
}

/// Plain, with a tag, with a datatype, with escapes.
fn literal(at: usize) -> String {
    match at % 4 {
        0 => format!("\"tail lamp, 12 V, 5 W, order {at:04}\""),
        1 => format!("\"feu arri\u{E8}re 12 V, 5 W, {at:04}\"@fr"),
        2 => format!("\"{at:04}\"^^<http://makers.example/types#watt>"),
        _ => format!("\"\\\"tail\\\" lamp, 12\\u00A0V, {at:04}\"@en"),
    }
}
