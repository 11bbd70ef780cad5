//! What people write where years belong, and what to write instead.

use crate::annotation::{whole_number, Kind};

/// For a comma where a space belongs.
pub const COMMA: &str =
    "no comma is wanted here: words stand apart by spaces, and a comma stands only between years";

/// Words for a first and a last year.
const ON: [&str; 5] = ["since", "from", "after", "ab", "seit"];
const UP_TO: [&str; 4] = ["until", "till", "before", "bis"];
const BETWEEN: [&str; 9] = ["to", "until", "till", "through", "bis", "-", "–", "—", ".."];

/// Says what to write for a list that only looks like years; a list that is none of these passes.
pub fn judge_years(kind: Kind, items: &[&str]) -> Result<(), String> {
    let Kind::Years { base } = kind else {
        return Ok(());
    };
    let book = Book { first: u32::from(base), last: u32::from(base) + 63 };
    let between = items.windows(3).find_map(|three| match three {
        [from, word, to] if BETWEEN.contains(word) => {
            Some(format!("{from} {word} {to}: write {}-{}", year(from)?, year(to)?))
        }
        _ => None,
    });
    let pair = items.windows(2).find_map(|two| book.open(two[0], two[1]));
    let one = items.iter().find_map(|item| book.half(item).or_else(|| glued(item)));
    between.or(pair).or(one).map_or(Ok(()), Err)
}

struct Book {
    first: u32,
    last: u32,
}

impl Book {
    /// `since 2001`, `until 2005`.
    fn open(&self, word: &str, item: &str) -> Option<String> {
        let number = year(item)?;
        if ON.contains(&word) {
            return Some(self.on(&format!("{word} {item}"), number));
        }
        UP_TO.contains(&word).then(|| self.up_to(&format!("{word} {item}"), number))
    }

    /// `2001-`, `2001+`, `-2005`.
    fn half(&self, item: &str) -> Option<String> {
        if let Some(number) = item.strip_suffix(['-', '–', '+']).and_then(year) {
            return Some(self.on(item, number));
        }
        let number = item.strip_prefix(['-', '–']).and_then(year)?;
        Some(self.up_to(item, number))
    }

    fn on(&self, written: &str, number: u32) -> String {
        format!("{written}: write {number}-{}; this book's years end with {}", self.last, self.last)
    }

    fn up_to(&self, written: &str, number: u32) -> String {
        format!(
            "{written}: write {}-{number}; this book's years begin with {}",
            self.first, self.first
        )
    }
}

/// `2001..2005`, `2001/2005`, `2000-02`, `2001.`
fn glued(item: &str) -> Option<String> {
    for mark in ["..", "/", "to"] {
        if let Some((from, to)) = item.split_once(mark) {
            return Some(format!("{item}: write {}-{}", year(from)?, year(to)?));
        }
    }
    if let Some(years) =
        item.strip_suffix('.').filter(|years| years.split('-').all(|one| year(one).is_some()))
    {
        return Some(format!("{item}: write {years}, without the full stop"));
    }
    let (from, to) = item.split_once(['-', '–'])?;
    let from = year(from)?;
    let short = to.len() == 2 && whole_number::<u32>(to).is_some();
    short.then(|| format!("{item}: write {from}-{}{to}", from / 100))
}

/// A year as people write it.
fn year(text: &str) -> Option<u32> {
    whole_number(text).filter(|_| text.len() == 4)
}

#[cfg(test)]
mod tests {
    use super::*;

    fn said(items: &[&str]) -> String {
        judge_years(Kind::Years { base: 2000 }, items).unwrap_err()
    }

    #[test]
    fn what_to_write_instead() {
        assert_eq!(said(&["2001", "to", "2005"]), "2001 to 2005: write 2001-2005");
        assert_eq!(said(&["2001", "-", "2005"]), "2001 - 2005: write 2001-2005");
        assert_eq!(
            said(&["since", "2001"]),
            "since 2001: write 2001-2063; this book's years end with 2063"
        );
        assert_eq!(
            said(&["until", "2005"]),
            "until 2005: write 2000-2005; this book's years begin with 2000"
        );
        assert_eq!(said(&["2001-"]), "2001-: write 2001-2063; this book's years end with 2063");
        assert_eq!(said(&["-2005"]), "-2005: write 2000-2005; this book's years begin with 2000");
        assert_eq!(said(&["2000-02"]), "2000-02: write 2000-2002");
        assert_eq!(said(&["2001/2005"]), "2001/2005: write 2001-2005");
        assert_eq!(said(&["2001..2005"]), "2001..2005: write 2001-2005");
        assert_eq!(said(&["2000", "2005."]), "2005.: write 2005, without the full stop");
        assert_eq!(said(&["2000-2005."]), "2000-2005.: write 2000-2005, without the full stop");
    }

    #[test]
    fn what_is_right_passes() {
        for items in [&["2000-2002", "2005"][..], &["2007-2005"], &["20O5"], &["light"]] {
            assert_eq!(judge_years(Kind::Years { base: 2000 }, items), Ok(()));
        }
        assert_eq!(judge_years(Kind::Degree, &["2001-"]), Ok(()));
    }
}
