//! Quoted texts and IRIs: as a text writes them, and as N-Triples has them, which is how they are
//! kept.
//!
//! A kept literal is N-Triples' canonical form, from its quote on: `"12 volt"`, `"Licht"@de`,
//! `"5"^^<IRI>`; in it a quote, a backslash and line ends stand behind a backslash. A text also
//! writes by escapes what cannot be seen.

use crate::letters::{is_odd_blank, is_unseen};

/// The sort of a text that has no other: it is not written.
const STRING: &str = "http://www.w3.org/2001/XMLSchema#string";

/// Reads the quoted text at the beginning; the literal kept, and what stands behind it.
pub fn read(rest: &str) -> Result<(String, &str), String> {
    let (content, after) = content(&rest[1..])?;
    let mut kept = String::from("\"");
    content.chars().for_each(|letter| keep(letter, &mut kept));
    kept.push('"');
    if let Some(behind) = after.strip_prefix('@') {
        let (tag, after) = behind.split_at(tag_length(behind));
        if tag.is_empty() {
            return Err("behind `@` stands a language, as in \"Licht\"@de".to_string());
        }
        return Ok((format!("{kept}@{tag}"), after));
    }
    let Some(behind) = after.strip_prefix("^^") else {
        return Ok((kept, after));
    };
    if !behind.starts_with('<') {
        return Err("behind `^^` stands an IRI in < >".to_string());
    }
    let (iri, after) = read_iri(behind)?;
    let sort = if iri == STRING { String::new() } else { format!("^^<{iri}>") };
    Ok((format!("{kept}{sort}"), after))
}

fn keep(letter: char, kept: &mut String) {
    match letter {
        '"' => *kept += "\\\"",
        '\\' => *kept += "\\\\",
        '\n' => *kept += "\\n",
        '\r' => *kept += "\\r",
        _ => kept.push(letter),
    }
}

/// Letters, then groups of letters and digits behind hyphens.
fn tag_length(text: &str) -> usize {
    let mut length = text.find(|letter: char| !letter.is_ascii_alphabetic()).unwrap_or(text.len());
    while length > 0 {
        let Some(group) = text[length..].strip_prefix('-') else {
            break;
        };
        let more =
            group.find(|letter: char| !letter.is_ascii_alphanumeric()).unwrap_or(group.len());
        if more == 0 {
            break;
        }
        length += 1 + more;
    }
    length
}

/// The letters up to the closing quote, and what stands behind it.
fn content(rest: &str) -> Result<(String, &str), String> {
    let mut text = String::new();
    let mut letters = rest.char_indices();
    while let Some((at, letter)) = letters.next() {
        match letter {
            '"' => return Ok((text, &rest[at + 1..])),
            '\\' => {
                let (escaped, length) = escape(&rest[at + 1..], true)?;
                text.push(escaped);
                letters.nth(length - 1);
            }
            _ if is_odd_blank(letter) => {
                let code = letter as u32;
                return Err(format!(
                    "in quotes a blank is a plain space, and another is written \\u{code:04X}"
                ));
            }
            _ => text.push(letter),
        }
    }
    Err("a quote is opened and not closed in this line".to_string())
}

/// The character of an escape, behind its backslash, and the letters that it takes there.
fn escape(rest: &str, in_quotes: bool) -> Result<(char, usize), String> {
    let first = rest.chars().next();
    let plain = match first {
        Some(letter @ ('"' | '\\')) => Some(letter),
        Some('n') => Some('\n'),
        Some('r') => Some('\r'),
        Some('t') => Some('\t'),
        _ => None,
    };
    if let Some(letter) = plain.filter(|_| in_quotes) {
        return Ok((letter, 1));
    }
    let digits = match first {
        Some('u') => 4,
        Some('U') => 8,
        _ if in_quotes => {
            return Err(r#"in quotes, \ stands only before " \ n r t u U"#.to_string())
        }
        _ => return Err(r"in < >, \ stands only before u or U".to_string()),
    };
    let code =
        rest.get(1..=digits).filter(|code| code.bytes().all(|digit| digit.is_ascii_hexdigit()));
    let letter = code.and_then(|code| u32::from_str_radix(code, 16).ok()).and_then(char::from_u32);
    letter.map(|letter| (letter, 1 + digits)).ok_or_else(|| {
        format!(r"behind \{} stand {digits} digits (0 to F) of a character", &rest[..1])
    })
}

/// Reads the IRI in `<` and `>` at the beginning; its text, and what stands behind it.
pub fn read_iri(rest: &str) -> Result<(String, &str), String> {
    let mut text = String::new();
    let mut letters = rest.char_indices().skip(1);
    while let Some((at, letter)) = letters.next() {
        let (letter, more) = match letter {
            '>' => return Ok((text, &rest[at + 1..])),
            '\\' => escape(&rest[at + 1..], false)?,
            _ => (letter, 0),
        };
        if !is_in_iri(letter) {
            return Err(format!("an IRI in < > has no {} in it", named(letter)));
        }
        text.push(letter);
        (0..more).for_each(|_| {
            letters.next();
        });
    }
    Err("a `<` is opened and not closed in this line (a name does not begin with it)".to_string())
}

/// What N-Triples lets stand in an IRI.
pub fn is_in_iri(letter: char) -> bool {
    letter > ' ' && !"<>\"{}|^`\\".contains(letter)
}

fn named(letter: char) -> String {
    match letter {
        ' ' => "space".to_string(),
        _ if is_unseen(letter) => format!("U+{:04X}", letter as u32),
        _ => format!("`{letter}`"),
    }
}

/// A kept literal as a text writes it.
pub fn written(kept: &str) -> String {
    seen(kept, |letter| is_unseen(letter) || is_odd_blank(letter))
}

pub fn written_iri(iri: &str) -> String {
    format!("<{}>", seen(iri, |letter| is_unseen(letter) || letter.is_whitespace()))
}

fn seen(text: &str, is_escaped: impl Fn(char) -> bool) -> String {
    let mut written = String::new();
    for letter in text.chars() {
        let code = letter as u32;
        match letter {
            '\t' => written += "\\t",
            _ if !is_escaped(letter) => written.push(letter),
            _ if code > 0xFFFF => written += &format!("\\U{code:08X}"),
            _ => written += &format!("\\u{code:04X}"),
        }
    }
    written
}

#[cfg(test)]
mod tests {
    use super::*;

    fn kept(text: &str) -> String {
        let (kept, after) = read(text).unwrap();
        assert_eq!(after, " 2000", "{text}");
        kept
    }

    #[test]
    fn what_is_kept_of_a_quoted_text() {
        assert_eq!(kept(r#""van 31" 2000"#), r#""van 31""#);
        assert_eq!(kept(r#""5\" \\ \n\r\t\u0041\U00000042" 2000"#), "\"5\\\" \\\\ \\n\\r\tAB\"");
        assert_eq!(kept(r#""Licht"@de-AT 2000"#), r#""Licht"@de-AT"#);
        assert_eq!(kept(r#""5"^^<x:int> 2000"#), r#""5"^^<x:int>"#);
        assert_eq!(kept(&format!("\"x\"^^<{STRING}> 2000")), "\"x\"");
    }

    #[test]
    fn what_is_written_reads_back() {
        for text in [
            r#""van 31" 2000"#,
            r#""a\tb\u200C\U000E0041\u00A0\u0007"@en 2000"#,
            r#""5"^^<x:\u200C> 2000"#,
        ] {
            let first = kept(text);
            let again = written(&first);
            assert!(
                !again.chars().any(|letter| is_unseen(letter) || is_odd_blank(letter)),
                "{again}"
            );
            assert_eq!(kept(&format!("{again} 2000")), first);
        }
        let (iri, _) = read_iri(r"<http://x/\u200Ca(b),c>").unwrap();
        assert_eq!(iri, "http://x/\u{200C}a(b),c");
        assert_eq!(written_iri(&iri), r"<http://x/\u200Ca(b),c>");
    }

    #[test]
    fn what_is_wrong() {
        let wrong = |text: &str| read(text).unwrap_err();
        assert!(wrong(r#""a\qb""#).starts_with("in quotes, \\ stands only before"));
        assert!(wrong(r#""a\u12G4""#).starts_with("behind \\u stand 4 digits"));
        assert!(wrong(r#""a\uD800""#).starts_with("behind \\u stand 4 digits"));
        assert!(wrong(r#""a\u12"#).starts_with("behind \\u stand 4 digits"));
        assert!(wrong("\"a\u{A0}b\"").starts_with("in quotes a blank is a plain space"));
        assert!(wrong("\"a").starts_with("a quote is opened"));
        assert!(wrong("\"a\"@1").starts_with("behind `@`"));
        assert!(wrong("\"a\"^^x").starts_with("behind `^^`"));
        let iri = |text: &str| read_iri(text).unwrap_err();
        assert!(iri("<a b>").starts_with("an IRI in < > has no space"));
        assert!(iri(r"<a\u0020b>").starts_with("an IRI in < > has no space"));
        assert!(iri(r"<a\tb>").starts_with(r"in < >, \ stands only"));
        assert!(iri("<a").starts_with("a `<` is opened"));
        assert!(iri("<aé\\").starts_with(r"in < >"));
    }
}
