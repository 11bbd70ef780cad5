//! Fields (tag, length, value), and the line of the text that each was written by.

/// Some fields one behind another, with the byte and the line of each and of those in it.
#[derive(Clone, Debug, Default, PartialEq, Eq)]
pub struct Fields {
    pub bytes: Vec<u8>,
    lines: Vec<(usize, usize)>,
}

/// The longest book, question or field value: lengths have two bytes.
pub const LONGEST: usize = 65_535;

impl Fields {
    /// One field without fields in it.
    pub fn one(tag: u8, value: &[u8], line: usize) -> Fields {
        let mut fields = Fields { bytes: header(tag, value.len()), lines: vec![(0, line)] };
        fields.bytes.extend(value);
        fields
    }

    /// One field that holds others.
    pub fn holder(tag: u8, line: usize, held: &[Fields]) -> Fields {
        let length = held.iter().map(|fields| fields.bytes.len()).sum();
        let mut fields = Fields { bytes: header(tag, length), lines: vec![(0, line)] };
        held.iter().for_each(|part| fields.add(part));
        fields
    }

    /// Puts more fields behind these.
    pub fn add(&mut self, more: &Fields) {
        let start = self.bytes.len();
        self.lines.extend(more.lines.iter().map(|(at, line)| (start + at, *line)));
        self.bytes.extend(&more.bytes);
    }

    /// The line that wrote the field at this byte, or the one around it.
    pub fn line_at(&self, place: usize) -> Option<usize> {
        self.lines.iter().rev().find(|(at, _)| *at <= place).map(|(_, line)| *line)
    }

    /// The bytes behind their length, as the counter reads them; nothing if they are too long.
    pub fn behind_length(&self) -> Option<Vec<u8>> {
        let length = u16::try_from(self.bytes.len()).ok()?;
        Some([&length.to_be_bytes()[..], &self.bytes].concat())
    }
}

/// A length over 65,535 is cut here; whoever builds a field that long refuses it.
fn header(tag: u8, length: usize) -> Vec<u8> {
    let length = length as u16;
    [&[tag][..], &length.to_be_bytes()].concat()
}
