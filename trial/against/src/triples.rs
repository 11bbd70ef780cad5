//! Makers' lists: reading and writing N-Triples.

use crate::calls;
use crate::difference::{same, Difference};
use std::collections::BTreeSet;
use trial::annotation;
use trial::book;
use trial::ntriples::{self, Names, Text};
use trial::random::files::{self, Needs, Reading};
use trial::random::lists::{self, Writing};
use trial::random::Random;
use trial::table::{self, Lanes};

/// A file dealt from the seed, valid or spoiled, read into lanes that mostly just hold it; what was
/// read is written, and read again.
pub fn read(seed: u64) -> Result<(), Difference> {
    read_one(&files::reading(&mut Random::new(seed)))
}

pub fn read_one(reading: &Reading) -> Result<(), Difference> {
    let Reading { kind, ann, file, lanes, names } = reading;
    let (mut proved_lanes, mut proved_names) = (lanes.clone(), names.clone());
    let (mut model_lanes, mut model_names) = (lanes.clone(), names.clone());
    let proved = calls::read_triples(*kind, *ann, file, &mut proved_lanes, &mut proved_names);
    let model = ntriples::read_triples(*kind, *ann, file, &mut model_lanes, &mut model_names);
    let input = || shown(reading);
    same("read triples: answer", &proved, &model, input)?;
    same("read triples: lanes", &proved_lanes, &model_lanes, input)?;
    same("read triples: list", &proved_names, &model_names, input)?;
    if proved.number != 0 {
        return Ok(());
    }
    // Whatever reading gave can be written, into just the bytes that it takes.
    let (count, listed) = (proved.count, proved.names);
    let needed = ntriples::writing::judge(*kind, &proved_lanes, count, &proved_names, listed);
    let needed = needed.map_err(|verdict| format!("{verdict:?} of what was read: {}", input()))?;
    let out = noise(needed.len());
    write_one(&Writing {
        kind: *kind,
        lanes: proved_lanes,
        count,
        names: proved_names,
        listed,
        out,
    })
}

/// A table and a names list dealt from the seed, written into about the bytes it needs; what was
/// written is read again.
pub fn write(seed: u64) -> Result<(), Difference> {
    let mut writing = lists::writing(&mut Random::new(seed));
    writing.out = noise(writing.out.len());
    write_one(&writing)
}

pub fn write_one(writing: &Writing) -> Result<(), Difference> {
    let Writing { kind, lanes, count, names, listed, out } = writing;
    let (mut proved_out, mut model_out) = (out.clone(), out.clone());
    let proved = calls::write_triples(*kind, lanes, *count, names, *listed, &mut proved_out);
    let model = ntriples::write_triples(*kind, lanes, *count, names, *listed, &mut model_out);
    let input = || format!("{writing:?}");
    same("write triples: answer", &proved, &model, input)?;
    same("write triples: bytes", &proved_out, &model_out, input)?;
    if proved.number != 0 || proved.length > book::LONGEST {
        return Ok(());
    }
    let meant = lists::meaning(lanes, *count, names, *listed);
    let meant: BTreeSet<[Text; 3]> = meant.unwrap_or_default().into_iter().collect();
    read_back(&proved_out[..proved.length], &meant).map_err(|fault| format!("{fault}: {}", input()))
}

/// What was written means the rows, and is read into just the room that they ask for; with one row,
/// entry or byte less it is 12 or 27.
fn read_back(file: &[u8], meant: &BTreeSet<[Text; 3]>) -> Result<(), Difference> {
    let needs = files::needs(meant.iter());
    let (kind, ann) = (1, annotation::top(1));
    let lent = |needs: Needs| (Lanes::zero(needs.rows), Names::zero(needs.entries, needs.bytes));
    let (mut lanes, mut names) = lent(needs);
    let back = calls::read_triples(kind, ann, file, &mut lanes, &mut names);
    let done = ntriples::ReadOut { number: 0, place: 0, count: needs.rows, names: needs.entries };
    same("read back: answer", &back, &done, String::new)?;
    let again = lists::meaning(&lanes, back.count, &names, back.names);
    let again = again.map(|triples| triples.into_iter().collect());
    same("read back: meaning", &again, &Some(meant.clone()), String::new)?;
    let Needs { rows, entries, bytes } = needs;
    for (less, number) in [
        (Needs { rows: rows.wrapping_sub(1), ..needs }, 12),
        (Needs { entries: entries.wrapping_sub(1), ..needs }, 27),
        (Needs { bytes: bytes.wrapping_sub(1), ..needs }, 27),
    ] {
        if [less.rows, less.entries, less.bytes].contains(&usize::MAX) {
            continue;
        }
        let (mut lanes, mut names) = lent(less);
        let short = calls::read_triples(kind, ann, file, &mut lanes, &mut names);
        same("read back: less room", &short.number, &number, || format!("{less:?}"))?;
        same("read back: zeros", &(lanes, names), &lent(less), || format!("{less:?}"))?;
    }
    Ok(())
}

/// Bytes that differ from their neighbours, to see which were written.
pub fn noise(length: usize) -> Vec<u8> {
    (0..length).map(|at| (at * 151 + 77) as u8).collect()
}

/// A reading with its file as text where it is one.
fn shown(reading: &Reading) -> String {
    format!("{reading:?}, file as text: {:?}", String::from_utf8_lossy(&reading.file))
}

/// The rows that a table has, without their annotations.
pub fn triples_of(lanes: &Lanes, count: usize) -> Vec<table::Triple> {
    table::rows(lanes, count).into_iter().map(|(triple, _)| triple).collect()
}
