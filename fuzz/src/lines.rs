//! Lines of words and decimal numbers behind single blanks.

use crate::{must, Fault};

/// The lines of an output, each of which must end in one line feed.
pub fn lines(output: &[u8]) -> Result<Vec<&str>, Fault> {
    let text = std::str::from_utf8(output).map_err(|_| "output that is no text".to_string())?;
    must(text.is_empty() || text.ends_with('\n'), || "no line feed at the end".to_string())?;
    Ok(text.lines().collect())
}

/// A line of numbers: single blanks, decimal, no sign and no zero in front.
pub fn numbers(line: &str) -> Result<Vec<u64>, Fault> {
    line.split(' ')
        .map(|word| {
            let number = word.parse::<u64>().map_err(|_| format!("not a number in: {line}"))?;
            must(number.to_string() == word, || format!("not in decimal as usual: {line}"))?;
            Ok(number)
        })
        .collect()
}

/// The numbers behind a line's first word, if it is that word.
pub fn behind(word: &str, line: &str) -> Option<Result<Vec<u64>, Fault>> {
    line.strip_prefix(word)?.strip_prefix(' ').map(numbers)
}
