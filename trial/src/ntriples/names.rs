//! The names list: two lanes of entries and a lane of text (L3).

use super::text::{Sort, Text};

/// The most entries, and the most bytes of text (L4).
pub const MOST_NAMES: usize = 512;
pub const MOST_TEXT: usize = 32_768;

/// The list's lanes as they are lent: of any length each, with anything in them.
#[derive(Clone, Debug, Default, PartialEq, Eq)]
pub struct Names {
    pub terms: Vec<u16>,
    pub ends: Vec<u16>,
    pub text: Vec<u8>,
}

impl Names {
    /// Zeros, with room for so many entries and so many bytes.
    pub fn zero(room: usize, bytes: usize) -> Names {
        Names { terms: vec![0; room], ends: vec![0; room], text: vec![0; bytes] }
    }

    /// How many entries there is room for, once the lanes are known to be fit.
    pub fn room(&self) -> usize {
        self.terms.len()
    }

    /// Otherwise 11 (L4).
    pub fn fit(&self) -> bool {
        self.terms.len() == self.ends.len()
            && self.terms.len() <= MOST_NAMES
            && self.text.len() <= MOST_TEXT
    }

    /// Writes these entries and zeros all that stands past them; what the lanes do not reach is
    /// not written.
    pub fn fill(&mut self, entries: &[(u16, Text)]) {
        self.terms.fill(0);
        self.ends.fill(0);
        self.text.fill(0);
        let bytes: Vec<u8> = entries.iter().flat_map(|(_, text)| text.bytes.clone()).collect();
        for (entry, byte) in self.text.iter_mut().zip(bytes) {
            *entry = byte;
        }
        let mut end = 0;
        let lanes = self.terms.iter_mut().zip(&mut self.ends);
        for ((term, lane_end), (number, text)) in lanes.zip(entries) {
            end += text.bytes.len();
            *term = *number;
            *lane_end = u16::try_from(end).unwrap_or(u16::MAX);
        }
    }

    /// The bytes of one entry, if its ends fit: from the end before it (0 before the first) to its
    /// own, not falling and not past the text.
    pub fn entry(&self, at: usize) -> Option<&[u8]> {
        let start = match at.checked_sub(1) {
            Some(before) => usize::from(*self.ends.get(before)?),
            None => 0,
        };
        let end = usize::from(*self.ends.get(at)?);
        self.text.get(start..end)
    }

    /// A term's text by the first `names` entries (W4). The five have theirs whatever the list
    /// says; another has that of the first entry with its number, if its ends fit and it is legal.
    pub fn text_of(&self, names: usize, number: u16) -> Option<Text> {
        if let Some(text) = Text::of_known(number) {
            return Some(text);
        }
        let sort = Sort::of(number)?;
        let at = self.terms.iter().take(names).position(|term| *term == number)?;
        let bytes = self.entry(at)?.to_vec();
        Some(Text { sort, bytes }).filter(Text::legal)
    }
}
