//! Measured values: currents in milliamps, as terms.

/// The largest value; one more is the mark of a variable without a value.
pub const MOST: u16 = 16_382;

/// The term of 0 mA: a value's top two bits are both set.
const FIRST: u16 = 3 << 14;

/// The term of a value.
pub fn term(value: u16) -> u16 {
    FIRST + value.min(MOST)
}

/// The value of a term that is one.
pub fn of(term: u16) -> Option<u16> {
    term.checked_sub(FIRST).filter(|value| *value <= MOST)
}

pub fn written(value: u16) -> String {
    format!("{value} mA")
}

/// The value at the beginning, `500 mA` or `500mA`, and what stands behind it; nothing if none does.
/// An error says what to write instead.
pub fn read(rest: &str) -> Result<Option<(u16, &str)>, String> {
    let digits = rest.len() - rest.trim_start_matches(|one: char| one.is_ascii_digit()).len();
    let (number, behind) = rest.split_at(digits);
    let Some(after) = behind.trim_start_matches([' ', '\t']).strip_prefix("mA") else {
        return Ok(None);
    };
    let ends = !after.starts_with(|next: char| !next.is_whitespace() && !",()".contains(next));
    if digits == 0 || !ends {
        return Ok(None);
    }
    let value = number.parse().ok().filter(|value| *value <= MOST);
    value.map(|value| Some((value, after))).ok_or_else(|| {
        format!(
            "{number} mA is over 16,382 mA, the largest value there is: write 16382 mA, or a text in quotes: \"{number} mA\""
        )
    })
}

/// What to write for a current in other words, if a number and the word behind it are one.
pub fn meant(number: &str, next: Option<&str>) -> Option<String> {
    let unit = next?;
    let written = format!("{number} {unit}");
    let factor = match unit.to_lowercase().as_str() {
        "ma" | "milliamp" | "milliamps" | "milliampere" | "milliamperes" => 1.0,
        "a" | "amp" | "amps" | "ampere" | "amperes" => 1000.0,
        _ => return None,
    };
    let value = number.replace(',', ".").parse::<f64>().ok()? * factor;
    Some(format!("{written}: write {} mA, a whole number of milliamps", value.round()))
}

#[cfg(test)]
mod tests {
    use super::*;

    #[test]
    fn values_are_terms_of_the_fourth_sort() {
        assert_eq!((term(500), of(0xC1F4)), (0xC1F4, Some(500)));
        assert_eq!((term(0), term(MOST)), (0xC000, 0xFFFE));
        assert_eq!((of(65_535), of(49_151)), (None, None));
        assert!((0..=MOST).all(|value| of(term(value)) == Some(value)));
    }

    #[test]
    fn milliamps() {
        assert_eq!(read("500 mA 2000"), Ok(Some((500, " 2000"))));
        assert_eq!(read("500mA"), Ok(Some((500, ""))));
        assert_eq!(read("0 mA, 1"), Ok(Some((0, ", 1"))));
        for other in ["500", "mA", "500 mAh", "500 ma", "x500 mA", "500-600 mA"] {
            assert_eq!(read(other), Ok(None), "{other}");
        }
        let over = "16383 mA is over 16,382 mA, the largest value there is: write 16382 mA, or a text in quotes: \"16383 mA\"";
        assert_eq!(read("16383 mA"), Err(over.to_string()));
        assert!(read("99999999999 mA").is_err());
    }

    #[test]
    fn other_words_for_a_current() {
        let said = |number: &str, unit: &str| meant(number, Some(unit)).unwrap();
        assert_eq!(said("0.5", "A"), "0.5 A: write 500 mA, a whole number of milliamps");
        assert_eq!(said("500", "ma"), "500 ma: write 500 mA, a whole number of milliamps");
        assert_eq!(said("2", "amps"), "2 amps: write 2000 mA, a whole number of milliamps");
        assert_eq!((meant("5", Some("volt")), meant("5", None)), (None, None));
    }
}
