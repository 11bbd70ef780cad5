//! The kinds of annotation, and how a text writes their values: years as runs, sheets by their names,
//! degrees as one number. A gap between two runs is never filled.

use crate::sheets::{self, Sheets};

#[derive(Clone, Copy, Debug, PartialEq, Eq)]
pub enum Kind {
    Years { base: u16 },
    Sheets(Sheets),
    Degree,
    Strict,
}

/// Years in one annotation.
const BITS: u32 = 64;

/// For a word that looks like the second half of a name.
const NAME_HINT: &str = " (a name is one word: rear-light)";

impl Kind {
    pub fn number(self) -> u8 {
        match self {
            Kind::Years { .. } => 1,
            Kind::Sheets(_) => 5,
            Kind::Degree => 3,
            Kind::Strict => 4,
        }
    }

    /// The base year; 0 where there is none.
    pub fn base(self) -> u16 {
        match self {
            Kind::Years { base } => base,
            _ => 0,
        }
    }

    /// What stands behind `kind` in the line of a text that says it.
    pub fn words(self) -> String {
        match self {
            Kind::Years { base } => format!("years from {base}"),
            Kind::Sheets(sheets) => format!("sheets {}", sheets.names().join(", ")),
            Kind::Degree => "degree".to_string(),
            Kind::Strict => "strict".to_string(),
        }
    }

    /// The kind of a number and a base year; sheets have no names in bytes.
    pub fn of(number: u8, base: u16) -> Option<Kind> {
        match number {
            1 => Some(Kind::Years { base }),
            5 => Some(Kind::Sheets(Sheets::numbered())),
            3 => Some(Kind::Degree),
            4 => Some(Kind::Strict),
            _ => None,
        }
    }

    /// What a word of a list is called.
    pub fn one(self) -> &'static str {
        match self {
            Kind::Years { .. } => "year",
            Kind::Sheets(_) => "sheet",
            Kind::Degree | Kind::Strict => "degree",
        }
    }

    /// What to write, for messages.
    pub fn example(self) -> &'static str {
        match self {
            Kind::Years { .. } => "years such as 2000-2002, 2005",
            Kind::Sheets(_) => "sheets such as maker, or maker + importer",
            Kind::Degree | Kind::Strict => "a degree from 1 to 1000",
        }
    }

    /// A test of when, for messages.
    pub fn test(self) -> &'static str {
        match self {
            Kind::Years { .. } => "?when covers 2005-2006",
            Kind::Sheets(_) => "?when covers maker + importer",
            Kind::Degree | Kind::Strict => "?degree >= 700",
        }
    }

    pub fn is_set(self) -> bool {
        matches!(self, Kind::Years { .. } | Kind::Sheets(_))
    }

    /// `always`.
    pub fn top(self) -> u64 {
        if self.is_set() {
            u64::MAX
        } else {
            1000
        }
    }

    /// Of two lines that say the same, what both together say. Only used to mark the rows of a
    /// listing that the book has for less.
    pub fn join(self, left: u64, right: u64) -> u64 {
        if self.is_set() {
            left | right
        } else {
            left.max(right)
        }
    }

    /// Whether a value holds in all that another says.
    pub fn covers(self, value: u64, least: u64) -> bool {
        match self.is_set() {
            true => value & least == least,
            false => value >= least,
        }
    }

    /// What of a value of this kind another book's value does not have: years by years, whatever
    /// year each book begins with; a degree whole, if the two differ.
    pub fn only(self, value: u64, other: Kind, its_value: u64) -> Option<u64> {
        let less = match self {
            Kind::Years { .. } => {
                value & !shifted(its_value, i32::from(other.base()) - i32::from(self.base()))
            }
            Kind::Sheets(_) => sheets::smallest(value & !its_value)
                .into_iter()
                .fold(0, |bits, combination| bits | sheets::enough(combination)),
            Kind::Degree | Kind::Strict => value * u64::from(value != its_value),
        };
        Some(less).filter(|less| *less != 0)
    }

    /// The value of a list of runs or of sheets, or of one degree.
    pub fn value(self, items: &[&str]) -> Result<u64, String> {
        if let Kind::Sheets(sheets) = self {
            return sheets.value(items);
        }
        if self.is_set() {
            return items.iter().try_fold(0, |bits, item| Ok(bits | self.run(item)?));
        }
        match items {
            [degree] => self.degree(degree),
            _ => Err("one degree is wanted here, a whole number from 1 to 1000".to_string()),
        }
    }

    /// Whether a degree is from 1 to 1000 is for the library to say.
    fn degree(self, item: &str) -> Result<u64, String> {
        let whole = "degrees are whole numbers from 1 to 1000";
        let example = if item.contains('.') { " (700, not 0.7)" } else { "" };
        whole_number(item).ok_or_else(|| format!("`{item}` is not a degree: {whole}{example}"))
    }

    /// The bits of one run, `2000-2002` or `2005`.
    fn run(self, item: &str) -> Result<u64, String> {
        let plain = item.replace(['–', '—'], "-");
        let (first, last) = plain.split_once('-').unwrap_or((&plain, &plain));
        let (from, to) = (self.place(first, item)?, self.place(last, item)?);
        if from > to {
            return Err(format!("the run {item} is backwards: write {last}-{first}"));
        }
        Ok(u64::MAX >> (BITS - 1 - to) & u64::MAX << from)
    }

    /// The bit of one year or sheet.
    fn place(self, number: &str, item: &str) -> Result<u32, String> {
        let first = u32::from(self.base());
        let last = first + BITS - 1;
        let one = self.one();
        let Some(place) = whole_number::<u32>(number) else {
            let name = if item.starts_with(char::is_alphabetic) { NAME_HINT } else { "" };
            return Err(format!("`{item}` is not a {one}: here stand {}{name}", self.example()));
        };
        if !(first..=last).contains(&place) {
            let run = if item == number { String::new() } else { format!(" of {item}") };
            let outside = format!("is outside this book's {one}s, {first} to {last}");
            return Err(format!("{one} {number}{run} {outside}"));
        }
        Ok(place - first)
    }

    /// The value as a text writes it.
    pub fn written(self, value: u64) -> String {
        if self.is_set() && value == self.top() {
            return "always".to_string();
        }
        self.written_span(value)
    }

    /// The same with all years by their numbers.
    pub fn written_span(self, value: u64) -> String {
        if let Kind::Sheets(sheets) = self {
            return sheets.written(value);
        }
        if !self.is_set() {
            return value.to_string();
        }
        let first = u32::from(self.base());
        let runs: Vec<String> = runs(value).iter().map(|run| written_run(first, *run)).collect();
        runs.join(", ")
    }
}

/// A set of years as another book counts them, whose first year is so many years earlier.
fn shifted(value: u64, years: i32) -> u64 {
    let far = years.unsigned_abs();
    let moved = if years < 0 { value.checked_shr(far) } else { value.checked_shl(far) };
    moved.unwrap_or(0)
}

/// Digits and nothing else.
pub fn whole_number<N: std::str::FromStr>(text: &str) -> Option<N> {
    let digits = text.bytes().all(|letter| letter.is_ascii_digit());
    text.parse().ok().filter(|_| digits)
}

fn written_run(first: u32, (from, to): (u32, u32)) -> String {
    if from == to {
        format!("{}", first + from)
    } else {
        format!("{}-{}", first + from, first + to)
    }
}

/// The runs of neighbouring bits, lowest first: first and last bit of each.
pub fn runs(value: u64) -> Vec<(u32, u32)> {
    let has = |bit: u32| bit < BITS && value >> bit & 1 == 1;
    let begins = |bit: &u32| has(*bit) && (*bit == 0 || !has(*bit - 1));
    let end = |bit: u32| (bit..BITS).take_while(|next| has(*next)).last().unwrap_or(bit);
    (0..BITS).filter(begins).map(|bit| (bit, end(bit))).collect()
}

#[cfg(test)]
mod tests {
    use super::*;

    const YEARS: Kind = Kind::Years { base: 2000 };

    #[test]
    fn two_runs_stay_two() {
        let value = YEARS.value(&["2000-2002", "2005-2007"]).unwrap();
        assert_eq!(value, 0b1110_0111);
        assert_eq!(runs(value), [(0, 2), (5, 7)]);
        assert_eq!(YEARS.written(value), "2000-2002, 2005-2007");
    }

    #[test]
    fn runs_at_both_ends_and_single_years() {
        assert_eq!(YEARS.value(&["2063"]), Ok(1 << 63));
        assert_eq!(YEARS.written(1 << 63 | 1), "2000, 2063");
        assert_eq!(YEARS.written(0b11), "2000-2001");
        assert_eq!(YEARS.value(&["2000-2063"]), Ok(YEARS.top()));
        assert_eq!(YEARS.written(YEARS.top()), "always");
        assert_eq!(YEARS.written(YEARS.top() >> 1), "2000-2062");
    }

    /// What is written is read back to the same value, whatever its bits.
    #[test]
    fn written_values_read_back() {
        let mut value: u64 = 1;
        for _ in 0..10_000 {
            value = value
                .wrapping_mul(6_364_136_223_846_793_005)
                .wrapping_add(1_442_695_040_888_963_407);
            let sparse = (value & value.rotate_left(21)) | 1;
            let written = YEARS.written(sparse);
            let items: Vec<&str> = written.split(", ").collect();
            assert_eq!(YEARS.value(&items), Ok(sparse), "{written}");
        }
    }

    #[test]
    fn what_one_value_has_alone() {
        let other = Kind::Years { base: 1995 };
        let (mine, yours) =
            (YEARS.value(&["2000-2005"]).unwrap(), other.value(&["1995-2002"]).unwrap());
        assert_eq!(YEARS.only(mine, other, yours), Some(YEARS.value(&["2003-2005"]).unwrap()));
        assert_eq!(other.only(yours, YEARS, mine), Some(other.value(&["1995-1999"]).unwrap()));
        assert_eq!(YEARS.only(mine, YEARS, mine), None);
        assert_eq!(
            YEARS.only(mine, Kind::Years { base: 2100 }, u64::MAX),
            Some(mine),
            "no year in common"
        );
        assert_eq!(Kind::Degree.only(700, Kind::Degree, 500), Some(700));
        assert_eq!(Kind::Degree.only(700, Kind::Degree, 700), None);
        assert_eq!(Kind::Degree.only(0, Kind::Degree, 700), None);
    }

    #[test]
    fn degrees_are_whole_numbers() {
        assert_eq!(Kind::Degree.value(&["700"]), Ok(700));
        assert_eq!(Kind::Strict.value(&["1001"]), Ok(1001), "the library says so");
        for wrong in ["0.7", "+7", "-7", "70%", "99999999999999999999"] {
            assert!(Kind::Degree.value(&[wrong]).is_err(), "{wrong}");
        }
        assert!(Kind::Degree.value(&["7", "8"]).is_err());
    }
}
