//! Bytes into letters: a text is UTF-8, and what to do where a file is not.

use crate::Fault;

/// The letters of a file, without the mark that some editors put first.
pub fn decoded(bytes: &[u8]) -> Result<&str, Fault> {
    if let Some(words) = other_form(bytes) {
        return Err(Fault::new(1, words));
    }
    let bytes = bytes.strip_prefix(b"\xEF\xBB\xBF").unwrap_or(bytes);
    let text = std::str::from_utf8(bytes).map_err(|wrong| no_utf8(bytes, wrong.valid_up_to()))?;
    if text.contains('\r') && !text.contains('\n') && text.trim_end().contains('\r') {
        let words =
            "the lines of this file end as on old Macs (CR alone): save it again as UTF-8, \
                     with the line ends of your system";
        return Err(Fault::new(1, words));
    }
    Ok(text)
}

/// What can be told from the first bytes.
fn other_form(bytes: &[u8]) -> Option<&'static str> {
    let nulls = bytes.iter().take(64).filter(|byte| **byte == 0).count();
    match bytes {
        [0xFF, 0xFE, ..] | [0xFE, 0xFF, ..] => Some(UTF_16),
        [1, 0, 4 | 5, ..] => {
            Some("these are the bytes of a book, not a text: `fitting text FILE` shows them")
        }
        [0x1F, 0x8B, ..] | [b'P', b'K', 3, 4, ..] => {
            Some("this is a packed file, not plain text: save it as plain text, UTF-8")
        }
        [_, _, ..] if 2 * nulls >= bytes.len().min(64) - 1 && nulls > 0 => Some(UTF_16),
        _ => None,
    }
}

const UTF_16: &str = "this file is UTF-16 (\"Unicode\" in some editors): save it as UTF-8";

fn no_utf8(bytes: &[u8], at: usize) -> Fault {
    let line = 1 + bytes[..at].iter().filter(|byte| **byte == b'\n').count();
    let byte = bytes[at];
    // What an older Western code has there.
    let letter = char::from(byte);
    let words = if letter.is_alphabetic() && before_is_text(bytes, at) {
        format!("this file is not UTF-8: byte {byte:02X} is `{letter}` in Latin-1 (\"ANSI\", Windows-1252); save it as UTF-8")
    } else {
        format!("this file is not UTF-8 (byte {byte:02X} here): save it as UTF-8")
    };
    Fault::new(line, words)
}

/// A file of bytes that is no text in any code is not called Latin-1.
fn before_is_text(bytes: &[u8], at: usize) -> bool {
    !bytes[..at].iter().any(|byte| *byte < b' ' && !b"\t\r\n".contains(byte))
}

#[cfg(test)]
mod tests {
    use super::*;

    fn fault(bytes: &[u8]) -> String {
        let fault = decoded(bytes).unwrap_err();
        format!("{}: {}", fault.line, fault.words)
    }

    #[test]
    fn other_codes_are_told_by_name() {
        assert!(fault(b"kind sheets\nR\xFCcklicht is led 3\n")
            .starts_with("2: this file is not UTF-8: byte FC is `ü` in Latin-1"));
        assert!(fault(b"\xFF\xFEk\0i\0").starts_with("1: this file is UTF-16"));
        assert!(fault(b"k\0i\0n\0d\0").starts_with("1: this file is UTF-16"));
        assert!(fault(b"\0k\0i\0n\0d").starts_with("1: this file is UTF-16"));
        assert!(fault(b"kind sheets\rlamp is led 3\r")
            .starts_with("1: the lines of this file end as on old Macs"));
        assert!(
            fault(b"\x01\0\x04\x01\x01\x07\xD0").starts_with("1: these are the bytes of a book")
        );
        assert!(fault(b"PK\x03\x04").starts_with("1: this is a packed file"));
        assert!(fault(b"lamp \xFF is").contains("byte FF is `ÿ` in Latin-1"));
        assert!(fault(b"\x02\x80").starts_with("1: this file is not UTF-8 (byte 80 here)"));
    }

    #[test]
    fn utf8_passes_with_or_without_its_mark() {
        assert_eq!(decoded("\u{FEFF}kind".as_bytes()), Ok("kind"));
        assert_eq!(decoded("Rücklicht\r\n".as_bytes()), Ok("Rücklicht\r\n"));
        assert_eq!(decoded(b"kind sheets\r"), Ok("kind sheets\r"));
        assert_eq!(decoded(b""), Ok(""));
    }
}
