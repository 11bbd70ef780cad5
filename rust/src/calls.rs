//! What is asked of the proved library: reading and closing a book, asking, and makers' lists.
//! Nothing of it is done here.

/// Rows that a table has room for.
pub const ROOM: usize = 1024;

/// Terms and annotations of one answer, and the answers there is room for.
pub const TERMS: usize = 16;
pub const ANNS: usize = 8;
pub const MOST_ANSWERS: usize = 256;

/// Entries and bytes of text of a names list.
pub const MOST_NAMES: usize = 512;
pub const MOST_NAME_TEXT: usize = 32_768;

/// Marks an unbound variable in an answer's terms; 0 does in its annotations.
pub const UNBOUND: u16 = 65_535;

/// A number and place given back.
#[derive(Clone, Copy, Debug, PartialEq, Eq)]
pub struct Refusal {
    pub number: u32,
    pub place: usize,
}

/// The rules by which closing draws what follows.
#[derive(Clone, Copy, Debug, PartialEq, Eq)]
pub enum RuleSet {
    /// Rule set 1: that of every book of edition 1.
    Basic,
    /// Rule set 2: these and the reflexive lines that have a premise.
    Reflexive,
}

impl RuleSet {
    pub fn number(self) -> u8 {
        match self {
            RuleSet::Basic => 1,
            RuleSet::Reflexive => 2,
        }
    }
}

/// The rule set of a number; 36 where there is none, as the library says.
impl TryFrom<u8> for RuleSet {
    type Error = Refusal;

    fn try_from(number: u8) -> Result<RuleSet, Refusal> {
        match number {
            1 => Ok(RuleSet::Basic),
            2 => Ok(RuleSet::Reflexive),
            _ => Err(Refusal { number: 36, place: 0 }),
        }
    }
}

/// A row of a table.
#[derive(Clone, Copy, Debug, PartialEq, Eq)]
pub struct Row {
    pub triple: [u16; 3],
    pub value: u64,
}

/// Rows of a kind of annotation, in the table's order.
#[derive(Clone, Debug, PartialEq, Eq)]
pub struct Table {
    pub kind: u8,
    pub rows: Vec<Row>,
}

/// A book as it was read.
#[derive(Clone, Debug, PartialEq, Eq)]
pub struct Book {
    pub base: u16,
    pub rules: RuleSet,
    pub table: Table,
}

/// One answer: the value of each variable that is bound.
#[derive(Clone, Debug, PartialEq, Eq)]
pub struct Answer {
    pub terms: Vec<Option<u16>>,
    pub anns: Vec<Option<u64>>,
}

/// What is said of one question; number 0 is done.
#[derive(Clone, Debug, PartialEq, Eq)]
pub struct Asked {
    pub refusal: Refusal,
    pub looks: u32,
    pub answers: Vec<Answer>,
}

/// The texts of terms as N-Triples has them: a name's IRI, a blank's label, a literal from its
/// quote on.
pub type NameList = Vec<(u16, String)>;

/// The calls.
pub trait Calls {
    fn read(&self, book: &[u8]) -> Result<Book, Refusal>;
    fn close(&self, rules: RuleSet, table: &Table) -> Result<Table, Refusal>;
    fn ask(&self, table: &Table, question: &[u8], looks: u32) -> Asked;
    fn read_triples(&self, kind: u8, value: u64, file: &[u8])
        -> Result<(Table, NameList), Refusal>;
    fn write_triples(&self, table: &Table, names: &NameList) -> Result<Vec<u8>, Refusal>;
}

/// A table in four lanes, as it is lent.
#[derive(Clone, Debug)]
pub struct Lanes {
    pub subj: Vec<u16>,
    pub pred: Vec<u16>,
    pub obj: Vec<u16>,
    pub ann: Vec<u64>,
}

impl Lanes {
    pub fn zero() -> Lanes {
        Lanes { subj: vec![0; ROOM], pred: vec![0; ROOM], obj: vec![0; ROOM], ann: vec![0; ROOM] }
    }

    /// The rows of a table; those that find no room are left out, and the count says so.
    pub fn of(rows: &[Row]) -> Lanes {
        let mut lanes = Lanes::zero();
        for (at, Row { triple: [subj, pred, obj], value }) in rows.iter().take(ROOM).enumerate() {
            (lanes.subj[at], lanes.pred[at], lanes.obj[at], lanes.ann[at]) =
                (*subj, *pred, *obj, *value);
        }
        lanes
    }

    pub fn rows(&self, count: usize) -> Vec<Row> {
        let row = |at: usize| Row {
            triple: [self.subj[at], self.pred[at], self.obj[at]],
            value: self.ann[at],
        };
        (0..count.min(ROOM)).map(row).collect()
    }
}

/// A names list in its lanes, as it is lent.
pub struct NameLanes {
    pub terms: Vec<u16>,
    pub ends: Vec<u16>,
    pub text: Vec<u8>,
}

impl NameLanes {
    pub fn zero() -> NameLanes {
        NameLanes {
            terms: vec![0; MOST_NAMES],
            ends: vec![0; MOST_NAMES],
            text: vec![0; MOST_NAME_TEXT],
        }
    }

    /// The entries one behind another; nothing if they are too many or too long.
    pub fn of(names: &NameList) -> Option<NameLanes> {
        let mut lanes = NameLanes::zero();
        let mut end = 0;
        for (at, (term, text)) in names.iter().enumerate() {
            let room = lanes.text.get_mut(end..end + text.len())?;
            room.copy_from_slice(text.as_bytes());
            end += text.len();
            *lanes.terms.get_mut(at)? = *term;
            lanes.ends[at] = u16::try_from(end).ok()?;
        }
        Some(lanes)
    }

    /// The first entries; nothing if an end does not fit or a text is none.
    pub fn names(&self, count: usize) -> Option<NameList> {
        let start = |at: usize| if at == 0 { 0 } else { usize::from(self.ends[at - 1]) };
        let entry = |at: usize| {
            let bytes = self.text.get(start(at)..usize::from(self.ends[at]))?;
            Some((self.terms[at], std::str::from_utf8(bytes).ok()?.to_string()))
        };
        (0..count.min(MOST_NAMES)).map(entry).collect()
    }
}

/// The answers in the lanes of a run.
pub fn answers(terms: &[u16], anns: &[u64], count: usize) -> Vec<Answer> {
    let rows = terms.chunks(TERMS).zip(anns.chunks(ANNS)).take(count);
    let answer = |(terms, anns): (&[u16], &[u64])| Answer {
        terms: terms.iter().map(|term| Some(*term).filter(|term| *term != UNBOUND)).collect(),
        anns: anns.iter().map(|ann| Some(*ann).filter(|ann| *ann != 0)).collect(),
    };
    rows.map(answer).collect()
}

#[cfg(test)]
mod tests {
    use super::*;

    #[test]
    fn rule_sets_have_numbers() {
        for number in 0..=255 {
            match RuleSet::try_from(number) {
                Ok(rules) => assert_eq!(rules.number(), number),
                Err(refusal) => {
                    assert_eq!(refusal, Refusal { number: 36, place: 0 });
                    assert!(![1, 2].contains(&number));
                }
            }
        }
        assert_eq!(RuleSet::try_from(1), Ok(RuleSet::Basic));
        assert_eq!(RuleSet::try_from(2), Ok(RuleSet::Reflexive));
    }

    #[test]
    fn rows_go_into_lanes_and_back() {
        let rows = [Row { triple: [5, 2, 6], value: 7 }, Row { triple: [5, 2, 7], value: 9 }];
        assert_eq!(Lanes::of(&rows).rows(2), rows);
    }

    #[test]
    fn names_go_into_lanes_and_back() {
        let names: NameList =
            vec![(5, "m:a".to_string()), (32_768, "\"é\"@de".to_string()), (6, String::new())];
        assert_eq!(NameLanes::of(&names).unwrap().names(3), Some(names));
        let long = vec![(5, "a".repeat(MOST_NAME_TEXT + 1))];
        assert!(NameLanes::of(&long).is_none());
        let many = vec![(5, String::new()); MOST_NAMES + 1];
        assert!(NameLanes::of(&many).is_none());
    }
}
