//! Sheets: which of them are enough, together, to say a line. A book names at most six.
//!
//! In an annotation bit k says whether the sheets whose numbers are the set bits of k are enough. If
//! they are, so are more of them.

/// The most sheets of a book, and the longest name of one in bytes.
pub const MOST: usize = 6;
const LONGEST: usize = 40;

/// Combinations of sheets, the empty one and all six among them.
const COMBINATIONS: u32 = 1 << MOST;

/// The names of a book's sheets, in their order.
#[derive(Clone, Copy, Debug, PartialEq, Eq)]
pub struct Sheets {
    names: [Name; MOST],
    count: usize,
}

/// A short text by value.
#[derive(Clone, Copy, Debug, PartialEq, Eq)]
struct Name {
    bytes: [u8; LONGEST],
    length: usize,
}

impl Name {
    const NONE: Name = Name { bytes: [0; LONGEST], length: 0 };

    fn of(text: &str) -> Option<Name> {
        let mut name = Name { length: text.len(), ..Name::NONE };
        name.bytes.get_mut(..text.len())?.copy_from_slice(text.as_bytes());
        Some(name)
    }

    fn text(&self) -> &str {
        std::str::from_utf8(&self.bytes[..self.length]).unwrap_or("")
    }
}

impl Sheets {
    /// The sheets of these names; an error is in plain words.
    pub fn of(names: &[&str]) -> Result<Sheets, String> {
        if names.is_empty() {
            return Err("name the sheets, at most six: kind sheets maker, importer".to_string());
        }
        let mut sheets = Sheets { names: [Name::NONE; MOST], count: 0 };
        for name in names {
            if sheets.number(name).is_some() {
                return Err(format!("the sheet `{name}` is named twice"));
            }
            if sheets.count == MOST {
                return Err(format!("`{name}` is one sheet too many: a book has at most six"));
            }
            if name.contains('+') || !crate::names::is_name(name) {
                return Err(format!(
                    "`{name}` is no name for a sheet: write a word, such as maker"
                ));
            }
            let long =
                || format!("the sheet's name `{name}` is too long: it has at most {LONGEST} bytes");
            sheets.names[sheets.count] = Name::of(name).ok_or_else(long)?;
            sheets.count += 1;
        }
        Ok(sheets)
    }

    /// The sheets of bytes, which have no names.
    pub fn numbered() -> Sheets {
        let names = ["sheet-0", "sheet-1", "sheet-2", "sheet-3", "sheet-4", "sheet-5"];
        Sheets { names: names.map(|name| Name::of(name).unwrap_or(Name::NONE)), count: MOST }
    }

    fn number(&self, name: &str) -> Option<usize> {
        self.names[..self.count].iter().position(|known| known.text() == name)
    }

    /// The names in their order.
    pub fn names(&self) -> Vec<&str> {
        self.names[..self.count].iter().map(Name::text).collect()
    }

    /// How many sheets the book names.
    pub fn count(&self) -> usize {
        self.count
    }

    /// A sheet's name; by its number where the book names fewer.
    fn name(&self, number: usize) -> String {
        match self.names[..self.count].get(number) {
            Some(name) => name.text().to_string(),
            None => format!("sheet-{number}"),
        }
    }

    /// What a list says: `maker`, `maker + importer`, alternatives behind a comma.
    pub fn value(&self, items: &[&str]) -> Result<u64, String> {
        let joined = items.join(" ").replace('+', " + ");
        let words: Vec<&str> = joined.split_whitespace().collect();
        let mut value = 0;
        for part in alternatives(&words)? {
            let mut combination = 0;
            for name in part {
                combination |= 1 << self.number(name).ok_or_else(|| self.unknown(name))?;
            }
            value |= enough(combination);
        }
        Ok(value)
    }

    fn unknown(&self, name: &str) -> String {
        let names = self.names();
        let meant = crate::near::meant(name, names.iter().copied());
        let meant = meant.map_or(String::new(), |name| format!("; is `{name}` meant?"));
        format!("`{name}` is no sheet of this book, which has: {}{meant}", names.join(", "))
    }

    /// The value as a text writes it: the smallest combinations.
    pub fn written(&self, value: u64) -> String {
        if value & 1 == 1 {
            return "always".to_string();
        }
        let names = |combination: &u32| {
            let own = (0..MOST).filter(|sheet| combination >> sheet & 1 == 1);
            own.map(|sheet| self.name(sheet)).collect::<Vec<String>>().join(" + ")
        };
        let shown: Vec<String> = smallest(value).iter().map(names).collect();
        shown.join(", ")
    }
}

/// A list's alternatives, each the names between the `+`; commas were taken out, so two names side
/// by side are two alternatives.
fn alternatives<'a>(words: &[&'a str]) -> Result<Vec<Vec<&'a str>>, String> {
    let mut found: Vec<Vec<&str>> = Vec::new();
    let mut is_joined = false;
    for word in words {
        match (*word, found.last_mut()) {
            ("+", Some(_)) if !is_joined => is_joined = true,
            ("+", _) => {
                return Err("on both sides of `+` stands a sheet: maker + importer".to_string())
            }
            (name, Some(last)) if is_joined => {
                last.push(name);
                is_joined = false;
            }
            (name, _) => found.push(vec![name]),
        }
    }
    if is_joined {
        return Err("on both sides of `+` stands a sheet: maker + importer".to_string());
    }
    Ok(found)
}

/// The combinations that hold this one.
pub fn enough(combination: u32) -> u64 {
    let holds = |other: &u32| other & combination == combination;
    (0..COMBINATIONS).filter(holds).fold(0, |bits, other| bits | 1 << other)
}

/// The combinations that are enough and hold no smaller one that is: those of fewer sheets first.
pub fn smallest(value: u64) -> Vec<u32> {
    let has = |combination: u32| value >> combination & 1 == 1;
    let is_smallest = |combination: &u32| {
        let smaller = (0..*combination).filter(|other| other & combination == *other);
        has(*combination) && !smaller.into_iter().any(has)
    };
    let mut found: Vec<u32> = (0..COMBINATIONS).filter(is_smallest).collect();
    found.sort_by_key(|combination| (combination.count_ones(), *combination));
    found
}

/// Whether a combination that is enough misses a larger one: no book holds such a value.
pub fn misses_a_larger(value: u64) -> bool {
    smallest(value)
        .into_iter()
        .any(|combination| value & enough(combination) != enough(combination))
}

#[cfg(test)]
mod tests {
    use super::*;

    fn sheets() -> Sheets {
        Sheets::of(&["maker", "importer", "workshop"]).unwrap()
    }

    /// The document's numbers for single sheets, and for two together.
    #[test]
    fn combinations_are_the_documents_bits() {
        let value = |items: &[&str]| sheets().value(items).unwrap();
        assert_eq!(value(&["maker"]), 0xAAAA_AAAA_AAAA_AAAA);
        assert_eq!(value(&["importer"]), 0xCCCC_CCCC_CCCC_CCCC);
        assert_eq!(value(&["workshop"]), 0xF0F0_F0F0_F0F0_F0F0);
        assert_eq!(value(&["maker", "+", "importer"]), 0x8888_8888_8888_8888);
        assert_eq!(value(&["maker+importer", "workshop"]), 0xF8F8_F8F8_F8F8_F8F8);
    }

    #[test]
    fn the_smallest_combinations_are_written() {
        let written = |value: u64| sheets().written(value);
        assert_eq!(written(0xF8F8_F8F8_F8F8_F8F8), "workshop, maker + importer");
        assert_eq!(written(0x8888_8888_8888_8888), "maker + importer");
        assert_eq!(written(u64::MAX), "always");
        assert_eq!(written(u64::MAX - 1), "maker, importer, workshop, sheet-3, sheet-4, sheet-5");
        assert_eq!(written(1 << 63), "maker + importer + workshop + sheet-3 + sheet-4 + sheet-5");
        // A larger combination beside a smaller one says nothing more.
        assert_eq!(written(sheets().value(&["maker", "maker", "+", "importer"]).unwrap()), "maker");
    }

    /// Every value built of combinations is read back from what is written of it.
    #[test]
    fn written_values_read_back() {
        let six = Sheets::numbered();
        let mut seed: u64 = 5;
        for _ in 0..5_000 {
            seed = seed
                .wrapping_mul(6_364_136_223_846_793_005)
                .wrapping_add(1_442_695_040_888_963_407);
            let pieces = (0..1 + seed % 5).map(|piece| 1 + (seed >> (8 + 6 * piece)) as u32 % 63);
            let value = pieces.fold(0, |bits, combination| bits | enough(combination));
            assert!(!misses_a_larger(value));
            let written = six.written(value);
            let items: Vec<&str> = written.split(", ").collect();
            assert_eq!(six.value(&items), Ok(value), "{written}");
        }
        assert!(misses_a_larger(2) && misses_a_larger(1) && !misses_a_larger(u64::MAX - 1));
    }

    #[test]
    fn names_of_sheets() {
        assert_eq!(sheets().names(), ["maker", "importer", "workshop"]);
        let wrong = |names: &[&str]| Sheets::of(names).unwrap_err();
        assert!(wrong(&[]).starts_with("name the sheets, at most six"));
        assert_eq!(wrong(&["a1", "a1"]), "the sheet `a1` is named twice");
        assert!(
            wrong(&["a", "b", "c", "d", "e", "f", "g"]).starts_with("`g` is one sheet too many")
        );
        assert!(wrong(&["3"]).starts_with("`3` is no name for a sheet"));
        assert!(wrong(&["a+b"]).starts_with("`a+b` is no name for a sheet"));
        assert!(wrong(&[&"a".repeat(41)]).contains("is too long: it has at most 40 bytes"));
        let unknown = sheets().value(&["makr"]).unwrap_err();
        assert_eq!(unknown, "`makr` is no sheet of this book, which has: maker, importer, workshop; is `maker` meant?");
        for wrong in [&["maker", "+"][..], &["+", "maker"], &["maker", "+", "+", "importer"]] {
            assert!(
                sheets().value(wrong).unwrap_err().starts_with("on both sides of `+`"),
                "{wrong:?}"
            );
        }
    }
}
