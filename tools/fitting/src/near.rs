//! Names that are easily taken for one another: another case, a hyphen more or less, the same
//! letters in other pieces, one letter more, less or changed, or two letters that changed places. A
//! digit that differs makes another number, and no slip.

use crate::letters;
use std::collections::HashMap;

/// How two names differ.
#[derive(Clone, Copy, Debug, PartialEq, Eq)]
pub enum Apart {
    Spelling,
    Case,
    Hyphen,
    CaseAndHyphen,
    Letter,
}

impl Apart {
    /// A note on a name and the one before that it is near to.
    pub fn note(self, name: &str, known: &str, line: usize) -> String {
        let differs = match self {
            Apart::Spelling => {
                return format!("`{name}` looks like `{known}` (line {line}), its letters are put together in another way");
            }
            Apart::Case => "by capitals",
            Apart::Hyphen => "by a hyphen",
            Apart::CaseAndHyphen => "by capitals and a hyphen",
            Apart::Letter => "by one letter",
        };
        format!("`{name}` differs {differs} from `{known}` (line {line})")
    }
}

/// Names with fewer letters are not called one letter apart.
const SHORTEST: usize = 3;

/// Longer names are not compared letter by letter.
const LONGEST: usize = 80;

/// How the two differ, if they are near.
pub fn apart(left: &str, right: &str) -> Option<Apart> {
    if left == right {
        return None;
    }
    let pieces = [left, right].map(letters::in_pieces);
    if pieces[0] == pieces[1] {
        return Some(Apart::Spelling);
    }
    let small = pieces.each_ref().map(|name| name.to_lowercase());
    if small[0] == small[1] {
        return Some(Apart::Case);
    }
    if joined(&pieces[0]) == joined(&pieces[1]) {
        return Some(Apart::Hyphen);
    }
    if joined(&small[0]) == joined(&small[1]) {
        return Some(Apart::CaseAndHyphen);
    }
    one_letter(left, right).then_some(Apart::Letter)
}

/// Without what stands between the parts of a name.
fn joined(name: &str) -> String {
    name.replace(['-', '_', '.', '‐', '‑', '–', '—'], "")
}

/// What names that are near by case, hyphens or spelling have in common.
fn core(name: &str) -> String {
    joined(&letters::in_pieces(name).to_lowercase())
}

/// One letter put in, left out or changed, or two neighbours swapped; never a digit, nor the one
/// letter of a part, as in van-a and van-b.
pub fn one_letter(left: &str, right: &str) -> bool {
    let lengths = [left, right].map(|name| name.chars().take(LONGEST + 1).count());
    lengths.iter().all(|length| (SHORTEST..=LONGEST).contains(length)) && one_slip(left, right)
}

/// The same for words of any length.
fn one_slip(left: &str, right: &str) -> bool {
    let (left, right): (Vec<char>, Vec<char>) = (left.chars().collect(), right.chars().collect());
    let front = left.iter().zip(&right).take_while(|(one, other)| one == other).count();
    let (left_rest, right_rest) = (&left[front..], &right[front..]);
    let pairs = left_rest.iter().rev().zip(right_rest.iter().rev());
    let back = pairs.take_while(|(one, other)| one == other).count();
    let (mine, yours) =
        (&left_rest[..left_rest.len() - back], &right_rest[..right_rest.len() - back]);
    match (mine, yours) {
        ([one], []) => is_letter(*one) && !alone(&left, front),
        ([], [one]) => is_letter(*one) && !alone(&right, front),
        ([one], [other]) => is_letter(*one) && is_letter(*other) && !alone(&left, front),
        ([one, two], [first, second]) => {
            (one, two) == (second, first) && is_letter(*one) && is_letter(*two)
        }
        _ => false,
    }
}

fn is_letter(letter: char) -> bool {
    letter.is_alphabetic()
}

/// Whether the letter at this place is a part of its name by itself.
fn alone(name: &[char], at: usize) -> bool {
    let is_part = |letter: Option<&char>| letter.is_some_and(|letter| letter.is_alphanumeric());
    let before = at.checked_sub(1).and_then(|before| name.get(before));
    !is_part(before) && !is_part(name.get(at + 1))
}

/// The word of these that was most likely meant.
pub fn meant<'a>(name: &str, words: impl Iterator<Item = &'a str>) -> Option<&'a str> {
    let is_near = |word: &&str| *word != name && (core(word) == core(name) || one_slip(word, name));
    Some(words).filter(|_| name.len() <= LONGEST)?.find(is_near)
}

/// The pairs of names that are near, by their numbers in the list, the smaller first; a name at
/// most once as the later one.
pub fn pairs(names: &[&str]) -> Vec<(usize, usize, Apart)> {
    let mut found = Vec::new();
    let mut cores: HashMap<String, usize> = HashMap::new();
    let mut without: HashMap<u64, Vec<usize>> = HashMap::new();
    for (at, name) in names.iter().enumerate() {
        let known = cores.entry(core(name)).or_insert(at);
        let by_core = Some(*known).filter(|known| *known != at);
        let near = by_core.or_else(|| one_letter_before(names, at, &mut without));
        if let Some((earlier, apart)) =
            near.and_then(|near| Some((near, apart(names[near], name)?)))
        {
            found.push((earlier, at, apart));
        }
    }
    found
}

/// The first earlier name one letter apart: names that are have a shape in common, themselves or
/// with one letter left out.
fn one_letter_before(
    names: &[&str],
    at: usize,
    without: &mut HashMap<u64, Vec<usize>>,
) -> Option<usize> {
    let mut best: Option<usize> = None;
    for shape in shapes(names[at]) {
        let known = without.entry(shape).or_default();
        let near = known.iter().copied().find(|earlier| one_letter(names[*earlier], names[at]));
        best = best.into_iter().chain(near).min();
        // A shape that many names share, as one of numbers, is looked through only so far.
        if known.len() < 32 {
            known.push(at);
        }
    }
    best
}

/// The hashes of a name and of the name with each one letter left out.
fn shapes(name: &str) -> Vec<u64> {
    let letters: Vec<char> = name.chars().take(LONGEST + 1).collect();
    if letters.len() < SHORTEST || letters.len() > LONGEST {
        return Vec::new();
    }
    let less = (0..letters.len()).filter(|at| is_letter(letters[*at]));
    let mut shapes: Vec<u64> =
        less.map(|at| hash(letters[..at].iter().chain(&letters[at + 1..]))).collect();
    shapes.push(hash(letters.iter()));
    shapes.sort_unstable();
    shapes.dedup();
    shapes
}

fn hash<'a>(letters: impl Iterator<Item = &'a char>) -> u64 {
    letters.fold(0xCBF2_9CE4_8422_2325, |sum, letter| {
        (sum ^ u64::from(*letter)).wrapping_mul(0x100_0000_01B3)
    })
}

#[cfg(test)]
mod tests {
    use super::*;

    #[test]
    fn how_names_differ() {
        assert_eq!(apart("lamp-7", "lamp7"), Some(Apart::Hyphen));
        assert_eq!(apart("lamp-7", "lamp_7"), Some(Apart::Hyphen));
        assert_eq!(apart("lamp-7", "Lamp-7"), Some(Apart::Case));
        assert_eq!(apart("LAMP7", "lamp-7"), Some(Apart::CaseAndHyphen));
        assert_eq!(apart("Rücklicht", "Ru\u{308}cklicht"), Some(Apart::Spelling));
        assert_eq!(apart("led-lamp", "led-lmap"), Some(Apart::Letter));
        assert_eq!(apart("led-lamp", "led-lamps"), Some(Apart::Letter));
        assert_eq!(apart("led-lamp", "lad-lamp"), Some(Apart::Letter));
    }

    #[test]
    fn names_that_are_meant_to_differ() {
        for (left, right) in [
            ("lamp-7", "lamp-9"),
            ("lamp-1", "lamp-12"),
            ("lamp-7", "lamp-7"),
            ("van-a", "van-b"),
            ("a", "b"),
            ("is", "it"),
            ("lamp", "clamps"),
            ("bulb", "lamp"),
        ] {
            assert_eq!(apart(left, right), None, "{left} {right}");
        }
    }

    /// Each name with the first that it is near to.
    #[test]
    fn pairs_of_a_list() {
        let names = ["lamp-7", "led", "lamp7", "lamp-9", "Lamp-7", "lde", "n1", "n2", "red"];
        let found = pairs(&names);
        let near = [
            (0, 2, Apart::Hyphen),
            (0, 4, Apart::Case),
            (1, 5, Apart::Letter),
            (1, 8, Apart::Letter),
        ];
        assert_eq!(found, near);
    }

    #[test]
    fn the_word_that_was_meant() {
        let words = ["implies", "within", "is", "from", "to"];
        for (written, word) in
            [("iz", "is"), ("withn", "within"), ("Is", "is"), ("form", "from"), ("tot", "to")]
        {
            assert_eq!(meant(written, words.into_iter()), Some(word));
        }
        assert_eq!(meant("fits", words.into_iter()), None);
        assert_eq!(meant("is", words.into_iter()), None);
    }

    #[test]
    fn every_pair_one_letter_apart_is_found() {
        let name = "rear-fitted-to";
        for at in 0..name.len() {
            let less = [&name[..at], &name[at + 1..]].concat();
            let other = [&name[..at], "x", &name[at + 1..]].concat();
            for near in [less, other] {
                let found = pairs(&[name, &near]).len();
                assert_eq!(found, usize::from(apart(name, &near).is_some()), "{near}");
            }
        }
    }

    #[test]
    fn many_numbered_names_are_soon_compared() {
        let names: Vec<String> = (0..16_000).map(|number| format!("lamp-{number}")).collect();
        let names: Vec<&str> = names.iter().map(String::as_str).collect();
        assert_eq!(pairs(&names), []);
    }
}
