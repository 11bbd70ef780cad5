//! What a book's first line says: its kind, and by which rules things follow.

use crate::annotation::Kind;
use crate::fields::Fields;

const TAG: u8 = 1;

/// The rule set of a book that says none.
pub const BASIC: u8 = 1;

/// The rule set by which reflexive lines follow.
const REFLEXIVE: u8 = 2;

#[derive(Clone, Copy, Debug, PartialEq, Eq)]
pub struct Head {
    pub kind: Kind,
    /// Whether there is a rule set of this number is for the library to say.
    pub rules: u8,
}

impl Head {
    pub fn is_reflexive(self) -> bool {
        self.rules == REFLEXIVE
    }

    /// The line of a text that says it.
    pub fn line(self) -> String {
        format!("kind {}", self.words())
    }

    /// What stands there behind `kind`.
    pub fn words(self) -> String {
        let kind = self.kind.words();
        match self.rules {
            BASIC => kind,
            rules => format!("{kind} rules {rules}"),
        }
    }

    /// The head of the book's bytes: of edition 2 only where another rule set is said.
    pub fn field(self, line: usize) -> Fields {
        let (kind, base) = (self.kind.number(), self.kind.base().to_be_bytes());
        let value = match self.rules {
            BASIC => [&[1, kind][..], &base].concat(),
            rules => [&[2, kind][..], &base, &[rules]].concat(),
        };
        Fields::one(TAG, &value, line)
    }
}

#[cfg(test)]
mod tests {
    use super::*;

    #[test]
    fn a_head_as_words_and_as_bytes() {
        let head = |rules| Head { kind: Kind::Years { base: 2000 }, rules };
        assert_eq!(head(1).line(), "kind years from 2000");
        assert_eq!(head(2).line(), "kind years from 2000 rules 2");
        assert_eq!(head(1).field(1).bytes, [1, 0, 4, 1, 1, 7, 208]);
        assert_eq!(head(2).field(1).bytes, [1, 0, 5, 2, 1, 7, 208, 2]);
        assert_eq!(head(9).field(1).bytes, [1, 0, 5, 2, 1, 7, 208, 9]);
    }
}
