//! The order in which names are listed: as a reader looks for them, lamp-7 before lamp-12, and
//! small letters beside capitals. It depends on the names alone.

use crate::names::FIVE_WORDS;
use std::cmp::Ordering;

/// A piece of a name: a number in digits, or a letter in small.
#[derive(PartialEq, Eq, PartialOrd, Ord)]
enum Piece {
    /// By size: how many digits it has without leading noughts, then the digits.
    Number(usize, String),
    Letter(char),
}

pub fn compare(left: &str, right: &str) -> Ordering {
    pieces(left).cmp(&pieces(right)).then_with(|| left.cmp(right))
}

/// Terms as a text writes them: the five words first, then names, blanks, quoted texts and values.
pub fn compare_terms(left: &str, right: &str) -> Ordering {
    rank(left).cmp(&rank(right)).then_with(|| compare(left, right))
}

fn rank(term: &str) -> usize {
    let five = FIVE_WORDS.iter().position(|word| *word == term);
    five.unwrap_or(match term.chars().next() {
        Some('"') => FIVE_WORDS.len() + 2,
        Some('0'..='9') if term.ends_with(" mA") => FIVE_WORDS.len() + 3,
        Some('_') => FIVE_WORDS.len() + 1,
        _ => FIVE_WORDS.len(),
    })
}

fn pieces(name: &str) -> Vec<Piece> {
    let mut found = Vec::new();
    let mut rest = name;
    while let Some(letter) = rest.chars().next() {
        let digits = rest.len() - rest.trim_start_matches(|one: char| one.is_ascii_digit()).len();
        if digits > 0 {
            let number = rest[..digits].trim_start_matches('0');
            found.push(Piece::Number(number.len(), number.to_string()));
            rest = &rest[digits..];
        } else {
            found.extend(letter.to_lowercase().map(Piece::Letter));
            rest = &rest[letter.len_utf8()..];
        }
    }
    found
}

#[cfg(test)]
mod tests {
    use super::*;

    #[test]
    fn numbers_by_size_and_letters_without_case() {
        let mut names = [
            "lamp-12",
            "Lamp-9",
            "lamp-7",
            "lamp",
            "lamp-07",
            "led",
            "lamp-007b",
            "Led",
            "2nd",
            "äh",
        ];
        names.sort_by(|left, right| compare(left, right));
        let sorted = [
            "2nd",
            "lamp",
            "lamp-07",
            "lamp-7",
            "lamp-007b",
            "Lamp-9",
            "lamp-12",
            "Led",
            "led",
            "äh",
        ];
        assert_eq!(names, sorted);
    }

    #[test]
    fn terms_by_their_sort_first() {
        let mut terms = ["500 mA", "\"a\"", "60 mA", "_a", "a", "to", "is", "<m:a>"];
        terms.sort_by(|left, right| compare_terms(left, right));
        assert_eq!(terms, ["is", "to", "<m:a>", "a", "_a", "\"a\"", "60 mA", "500 mA"]);
    }

    #[test]
    fn no_two_names_are_the_same_place() {
        assert_ne!(compare("lamp-07", "lamp-7"), Ordering::Equal);
        assert_ne!(compare("LED", "led"), Ordering::Equal);
        assert_eq!(compare("led", "led"), Ordering::Equal);
    }
}
