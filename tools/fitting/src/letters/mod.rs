//! Letters: which cannot be seen, how wide each is, and when two spellings are the same letters.

mod tables;

use tables::{COMPOSED, MARKS, WIDE};

/// Characters without a shape, and blanks that only look like a space. Names that differ by one
/// look the same, and behind a line end of another sort a comment would hide what looks like a
/// line.
pub fn is_unseen(letter: char) -> bool {
    let shapeless = matches!(letter,
        '\u{AD}' | '\u{34F}' | '\u{61C}' | '\u{115F}'..='\u{1160}' | '\u{17B4}'..='\u{17B5}' | '\u{180B}'..='\u{180F}'
        | '\u{200B}'..='\u{200F}' | '\u{2028}'..='\u{202E}' | '\u{2060}'..='\u{206F}' | '\u{2800}' | '\u{3164}'
        | '\u{FDD0}'..='\u{FDEF}' | '\u{FE00}'..='\u{FE0F}' | '\u{FEFF}' | '\u{FFA0}' | '\u{FFF0}'..='\u{FFFB}' | '\u{FFFE}'..='\u{FFFF}'
        | '\u{13430}'..='\u{1345F}' | '\u{16FE4}' | '\u{1BCA0}'..='\u{1BCA3}' | '\u{1D159}' | '\u{1D173}'..='\u{1D17A}'
        | '\u{E0000}'..='\u{E0FFF}' | '\u{F0000}'..='\u{10FFFF}');
    let private = matches!(letter, '\u{E000}'..='\u{F8FF}');
    shapeless || private || letter.is_control() && letter != '\t'
}

/// What may not stand in quotes as it is: it could be taken for a plain space.
pub fn is_odd_blank(letter: char) -> bool {
    letter.is_whitespace() && letter != ' '
}

/// The columns of a text in a terminal: two for a wide letter, none for a mark over another.
pub fn width(text: &str) -> usize {
    text.chars()
        .map(|letter| if is_mark(letter) { 0 } else { 1 + usize::from(is_wide(letter)) })
        .sum()
}

fn is_wide(letter: char) -> bool {
    is_in(WIDE, letter)
}

pub fn is_mark(letter: char) -> bool {
    is_in(MARKS, letter)
}

fn is_in(runs: &[(u32, u32)], letter: char) -> bool {
    let code = letter as u32;
    let behind = runs.partition_point(|(first, _)| *first <= code);
    behind.checked_sub(1).is_some_and(|at| code <= runs[at].1)
}

/// The letters in pieces, marks behind their letter in one order: two spellings of the same letters
/// become one.
pub fn in_pieces(text: &str) -> String {
    let mut pieces = Vec::new();
    for letter in text.chars() {
        match COMPOSED.binary_search_by_key(&(letter as u32), |(code, _)| *code) {
            Ok(at) => pieces.extend(COMPOSED[at].1.chars()),
            Err(_) => syllable(letter, &mut pieces),
        }
    }
    let mut from = 0;
    for at in 0..=pieces.len() {
        if !pieces.get(at).is_some_and(|letter| is_mark(*letter)) {
            pieces[from..at].sort_unstable();
            from = at + 1;
        }
    }
    pieces.into_iter().collect()
}

/// A Hangul syllable is its two or three letters, by rule; any other letter stays.
fn syllable(letter: char, pieces: &mut Vec<char>) {
    let code = letter as u32;
    let number = match code {
        0xAC00..=0xD7A3 => code - 0xAC00,
        _ => return pieces.push(letter),
    };
    let parts = [0x1100 + number / 588, 0x1161 + number % 588 / 28, 0x11A7 + number % 28];
    let told = if number % 28 == 0 { 2 } else { 3 };
    pieces.extend(parts.into_iter().take(told).filter_map(char::from_u32));
}

#[cfg(test)]
mod tests {
    use super::*;

    #[test]
    fn characters_without_a_shape() {
        for code in [
            0x200C, 0x200D, 0xFE0F, 0x3164, 0x180E, 0x34F, 0xE0041, 0xFEFF, 0x2028, 0x2800, 0x7F,
            0x85,
        ] {
            assert!(is_unseen(char::from_u32(code).unwrap()), "{code:X}");
        }
        for letter in ['a', 'é', '\u{301}', '電', '-', '\t', ' ', '🚐', 'ء', '\u{FFFD}'] {
            assert!(!is_unseen(letter), "{letter:?}");
        }
    }

    #[test]
    fn wide_letters_take_two_columns_and_marks_none() {
        assert_eq!(width("lamp"), 4);
        assert_eq!(width("電球"), 4);
        assert_eq!(width("e\u{301}"), 1);
        assert_eq!(width("Rücklicht"), 9);
        assert_eq!(width("ﾗﾝﾌﾟ"), 4, "half-width kana");
        assert_eq!(width("한국"), 4);
    }

    #[test]
    fn two_spellings_are_one() {
        assert_eq!(in_pieces("é"), in_pieces("e\u{301}"));
        assert_eq!(in_pieces("ệ"), in_pieces("e\u{302}\u{323}"));
        assert_eq!(in_pieces("ệ"), in_pieces("e\u{323}\u{302}"));
        assert_eq!(
            in_pieces("한국"),
            in_pieces("\u{1112}\u{1161}\u{11AB}\u{1100}\u{116E}\u{11A8}")
        );
        assert_eq!(in_pieces("가"), "\u{1100}\u{1161}");
        assert_ne!(in_pieces("e"), in_pieces("é"));
        assert_eq!(in_pieces(""), "");
    }

    #[test]
    fn the_tables_are_in_order() {
        for runs in [WIDE, MARKS] {
            assert!(runs.iter().all(|(first, last)| first <= last));
            assert!(runs.windows(2).all(|pair| pair[0].1 < pair[1].0));
        }
        assert!(COMPOSED.windows(2).all(|pair| pair[0].0 < pair[1].0));
    }
}
