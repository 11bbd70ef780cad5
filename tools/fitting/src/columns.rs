//! Lines of words in columns, as wide as their widest word; a letter that takes two places counts
//! for two.

use crate::letters::width;

/// A longer word than this does not widen its column.
const WIDEST: usize = 100;

/// The widths so far: lines that come later widen them for those behind.
#[derive(Default)]
pub struct Columns(Vec<usize>);

impl Columns {
    /// The lines, two blanks between the words.
    pub fn lines(&mut self, lines: &[Vec<String>]) -> Vec<String> {
        for line in lines {
            self.0.resize(self.0.len().max(line.len()), 0);
            for (widest, word) in self.0.iter_mut().zip(line) {
                *widest =
                    (*widest).max(Some(width(word)).filter(|width| *width <= WIDEST).unwrap_or(0));
            }
        }
        lines.iter().map(|line| self.padded(line)).collect()
    }

    fn padded(&self, line: &[String]) -> String {
        let word = |(word, widest): (&String, &usize)| {
            let blanks = widest.saturating_sub(width(word));
            format!("{word}{}", " ".repeat(blanks))
        };
        let words: Vec<String> = line.iter().zip(&self.0).map(word).collect();
        words.join("  ").trim_end().to_string()
    }
}

#[cfg(test)]
mod tests {
    use super::*;

    fn lines(words: &[&[&str]]) -> Vec<String> {
        let owned: Vec<Vec<String>> =
            words.iter().map(|line| line.iter().map(|word| word.to_string()).collect()).collect();
        Columns::default().lines(&owned)
    }

    #[test]
    fn wide_letters_and_marks_stay_in_line() {
        let shown = lines(&[&["電球", "is"], &["lamp-7", "is"], &["e\u{301}", "is"]]);
        assert_eq!(shown, ["電球    is", "lamp-7  is", "e\u{301}       is"]);
    }

    #[test]
    fn a_very_long_word_does_not_widen_its_column() {
        let long = "l".repeat(101);
        assert_eq!(
            lines(&[&[&long, "is"], &["a", "is"]]),
            [format!("{long}  is"), "a  is".to_string()]
        );
    }

    #[test]
    fn later_lines_keep_the_widths() {
        let mut columns = Columns::default();
        let line = |word: &str| vec![vec![word.to_string(), "x".to_string()]];
        assert_eq!(columns.lines(&line("lamp")), ["lamp  x"]);
        assert_eq!(columns.lines(&line("a")), ["a     x"]);
    }
}
