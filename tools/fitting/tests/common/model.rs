//! The model's calls, in place of the proved library's.

use fitting::calls::{
    answers, Asked, Book, Calls, Lanes, NameLanes, NameList, Refusal, RuleSet, Table, ANNS,
    MOST_ANSWERS, TERMS,
};
use trial::ntriples;
use trial::steps::{Step, MOST_STEPS};

pub struct Model;

/// Room for what is written at once, as the proved library is given.
const LONGEST_OUT: usize = 1 << 18;

fn refusal(number: u32, place: u64) -> Result<(), Refusal> {
    match number {
        0 => Ok(()),
        _ => Err(Refusal { number, place: place as usize }),
    }
}

fn theirs(lanes: Lanes) -> trial::table::Lanes {
    let Lanes { subj, pred, obj, ann } = lanes;
    trial::table::Lanes { subj, pred, obj, ann }
}

fn ours(lanes: trial::table::Lanes) -> Lanes {
    let trial::table::Lanes { subj, pred, obj, ann } = lanes;
    Lanes { subj, pred, obj, ann }
}

fn their_names(names: NameLanes) -> ntriples::Names {
    ntriples::Names { terms: names.terms, ends: names.ends, text: names.text }
}

impl Calls for Model {
    fn read(&self, book: &[u8]) -> Result<Book, Refusal> {
        let mut lanes = theirs(Lanes::zero());
        let read = trial::book::read(book, &mut lanes);
        refusal(read.number, read.place)?;
        let rows = ours(lanes).rows(read.count);
        let rules = RuleSet::try_from(read.rules)?;
        Ok(Book { base: read.base, rules, table: Table { kind: read.kind, rows } })
    }

    fn close(&self, rules: RuleSet, table: &Table) -> Result<Table, Refusal> {
        let mut lanes = theirs(Lanes::of(&table.rows));
        let (kind, rules, count) = (table.kind, rules.number(), table.rows.len());
        let closed = trial::closing::close(kind, rules, &mut lanes, count);
        refusal(closed.number, closed.place)?;
        Ok(Table { kind: table.kind, rows: ours(lanes).rows(closed.count) })
    }

    fn ask(&self, table: &Table, question: &[u8], looks: u32) -> Asked {
        let lanes = theirs(Lanes::of(&table.rows));
        let mut steps = [Step::default(); MOST_STEPS];
        let made = trial::question::compile(table.kind, question, &mut steps);
        if made.number != 0 {
            let refusal = Refusal { number: made.number, place: made.place as usize };
            return Asked { refusal, looks: 0, answers: Vec::new() };
        }
        let (mut terms, mut anns) = (vec![0; TERMS * MOST_ANSWERS], vec![0; ANNS * MOST_ANSWERS]);
        let (kind, count) = (table.kind, table.rows.len());
        let ran = trial::steps::run(
            kind, &lanes, count, &steps, made.steps, looks, &mut terms, &mut anns,
        );
        let refusal = Refusal { number: ran.number, place: ran.place as usize };
        Asked { refusal, looks: ran.looks, answers: answers(&terms, &anns, ran.answers) }
    }

    fn read_triples(
        &self,
        kind: u8,
        value: u64,
        file: &[u8],
    ) -> Result<(Table, NameList), Refusal> {
        let (mut lanes, mut names) = (theirs(Lanes::zero()), their_names(NameLanes::zero()));
        let read = ntriples::read_triples(kind, value, file, &mut lanes, &mut names);
        refusal(read.number, read.place)?;
        let ntriples::Names { terms, ends, text } = names;
        let list = NameLanes { terms, ends, text }.names(read.names).unwrap_or_default();
        Ok((Table { kind, rows: ours(lanes).rows(read.count) }, list))
    }

    fn write_triples(&self, table: &Table, names: &NameList) -> Result<Vec<u8>, Refusal> {
        let lanes = theirs(Lanes::of(&table.rows));
        let list = their_names(NameLanes::of(names).ok_or(Refusal { number: 27, place: 0 })?);
        let mut out = vec![0; LONGEST_OUT];
        let written = ntriples::write_triples(
            table.kind,
            &lanes,
            table.rows.len(),
            &list,
            names.len(),
            &mut out,
        );
        refusal(written.number, written.place)?;
        out.truncate(written.length);
        Ok(out)
    }
}
