//! Tables to write as N-Triples and the names lists for them: lists as reading leaves them, and
//! lists of any content.

use super::lines::{self, spelled, text};
use super::{annotation, files, legal_kind, legal_rules, tables, Random};
use crate::ntriples::names::{MOST_NAMES, MOST_TEXT};
use crate::ntriples::text::FIVE;
use crate::ntriples::{read_triples, writing, Names, Sort, Text};
use crate::table::{self, Lanes, Row, Triple};
use std::collections::BTreeMap;

/// All that a writing is handed.
#[derive(Clone, Debug, PartialEq, Eq)]
pub struct Writing {
    pub kind: u8,
    pub lanes: Lanes,
    pub count: usize,
    pub names: Names,
    pub listed: usize,
    pub out: Vec<u8>,
}

/// Entries with their bytes apart, before they are laid end to end.
type Entries = Vec<(u16, Vec<u8>)>;

const SUBJECTS: [u16; 14] =
    [0, 2, 4, 5, 6, 7, 8, 9, 16_383, 16_384, 16_385, 16_386, 32_766, 32_767];
const PREDICATES: [u16; 10] = [0, 1, 2, 3, 4, 5, 6, 7, 8, 16_383];
const LITERALS: [u16; 5] = [32_768, 32_769, 32_770, 40_000, 49_151];
/// Measured values, which have no text whatever the list says.
const VALUES: [u16; 3] = [49_152, 49_652, 65_534];

/// Texts that are legal for no sort, or only for another than they are mostly put to.
const ILLEGAL: [&[u8]; 28] = [
    b"",
    b" ",
    b"a b",
    b"m:a ",
    b"m:a>",
    b"m:\\u0061",
    b"m:\n",
    b"9:a",
    b"\xC3\xA9:a",
    b"m:\xC3",
    b"m:\xED\xA0\x80",
    b"a.",
    b"-a",
    b"_:a",
    b"a\\u0041",
    b"\"",
    b"\"x",
    b"\"x\" ",
    b"\"\\t\"",
    b"\"\\u0041\"",
    b"\"\n\"",
    b"\"x\"@",
    b"\"x\" @en",
    b"\"x\"^^<d>",
    b"\"x\"^^<http://www.w3.org/2001/XMLSchema#string>",
    b"\"\xFF\"",
    b"\"x\"y\"",
    b"\"\0\"",
];

/// Lays entries end to end; ends past 16 bits, which no legal list has, are cut to them.
fn laid(entries: &Entries) -> Names {
    let mut names = Names::default();
    for (number, bytes) in entries {
        names.terms.push(*number);
        names.text.extend(bytes);
        names.ends.push(names.text.len() as u16);
    }
    names
}

/// Few rows, whose subjects are mostly no literals; many differ in one term only.
fn rows(random: &mut Random, kind: u8) -> Vec<Row> {
    let mut map: BTreeMap<Triple, u64> = BTreeMap::new();
    let mut last = (5, 6, 7);
    for _ in 0..random.below(10) {
        let objects: &[u16] = if random.chance(2) { &LITERALS } else { &SUBJECTS };
        let new = (random.pick(&SUBJECTS), random.pick(&PREDICATES), random.pick(objects));
        last = match random.below(6) {
            0 => (new.0, last.1, last.2),
            1 => (last.0, new.1, last.2),
            2 => (last.0, last.1, new.2),
            _ if random.chance(30) => (random.pick(&LITERALS), new.1, new.2),
            _ if random.chance(40) => (new.0, new.1, random.pick(&VALUES)),
            _ if random.chance(60) => (random.pick(&VALUES), new.1, new.2),
            _ => new,
        };
        map.insert(last, annotation(random, kind));
    }
    map.into_iter().collect()
}

/// A legal text for a number; sometimes one of the five IRIs, for a name that is none of them.
fn legal_text(random: &mut Random, number: u16) -> Vec<u8> {
    let Some(sort) = Sort::of(number) else {
        return b"never".to_vec();
    };
    text(&lines::term_of(random, sort)).bytes
}

/// A legal text that most numbers of its sort share, so that different rows mean one triple.
fn shared_text(random: &mut Random, number: u16) -> Vec<u8> {
    let texts: [&str; 3] = match Sort::of(number) {
        Some(Sort::Name) => ["m:a", "m:a", FIVE[2]],
        Some(Sort::Blank) => ["a", "a", "m:a"],
        _ => ["\"x\"", "\"x\"", "\"\""],
    };
    random.pick(&texts).as_bytes().to_vec()
}

/// A text that is most likely not legal for its number: of another sort, in another spelling, or
/// spoiled by a byte.
fn bad_text(random: &mut Random, number: u16) -> Vec<u8> {
    let sort = random.below(3);
    let sort = Sort::ALL.get(sort).copied().unwrap_or(Sort::Name);
    let term = lines::term_of(random, sort);
    match random.below(5) {
        0 => text(&term).bytes,
        1 => spelled(random, &term).into_bytes(),
        2 => {
            let legal = legal_text(random, number);
            lines::mutated(random, &legal)
        }
        3 => {
            let legal = legal_text(random, number);
            lines::damaged(random, &legal)
        }
        _ => {
            let at = random.below(ILLEGAL.len());
            ILLEGAL.get(at).copied().unwrap_or_default().to_vec()
        }
    }
}

/// An entry for every term of the rows, in no order, and a few that no row needs.
fn entries_for(random: &mut Random, rows: &[Row]) -> Entries {
    let terms = rows.iter().flat_map(|((subj, pred, obj), _)| [*subj, *pred, *obj]);
    let mut numbers: Vec<u16> = terms.filter(|number| *number > 4).collect();
    numbers.sort_unstable();
    numbers.dedup();
    for _ in 0..random.below(4) {
        numbers.push(random.pick(&[0, 2, 4, 5, 9, 10, 16_384, 20_000, 32_768, 49_652, 65_535]));
    }
    let legal = if random.chance(5) { shared_text } else { legal_text };
    let mut entries = Entries::new();
    for number in numbers {
        let place = random.below(entries.len() + 1);
        let extra = entries.iter().any(|entry| entry.0 == number) && random.chance(2);
        let bytes = if extra { bad_text(random, number) } else { legal(random, number) };
        entries.insert(place, (number, bytes));
    }
    entries
}

/// One fault among the entries: one missing, a text not legal, a number twice or another's.
fn spoil_entries(random: &mut Random, entries: &mut Entries) {
    let at = random.below(entries.len());
    let Some((number, _)) = entries.get(at).cloned() else {
        return;
    };
    match random.below(6) {
        0 => {
            entries.remove(at);
        }
        1 => entries[at].0 = random.pick(&[0, 4, 5, 6, 16_384, 32_768, 49_152, 65_535]),
        2 => {
            let bytes = bad_text(random, number);
            entries.insert(random.below(entries.len() + 1), (number, bytes));
        }
        3 => {
            let bytes = legal_text(random, number);
            entries.insert(random.below(entries.len() + 1), (number, bytes));
        }
        _ => entries[at].1 = bad_text(random, number),
    }
}

/// One fault of the lanes: an end moved, the text cut or gone on with.
fn spoil_lanes(random: &mut Random, names: &mut Names) {
    let length = names.text.len();
    let new = random.pick(&[0, 1, 2, length, length + 1, length.saturating_sub(1), 65_535]);
    let any = random.below(length + 2);
    match random.below(6) {
        0 => names.text.truncate(any),
        1 => names.text.truncate(length.saturating_sub(1)),
        2 => names.text.extend([b'x'; 3]),
        _ => {
            let at = random.below(names.ends.len());
            if let Some(end) = names.ends.get_mut(at) {
                *end = random.pick(&[new, any, any]) as u16;
            }
        }
    }
}

/// A last entry that no row needs, its end mostly falling or past the text.
fn idle_entry(random: &mut Random, names: &mut Names) {
    let length = names.text.len();
    names.terms.push(random.pick(&[2, 11, 20_000, 49_152, 65_535]));
    names.ends.push(random.pick(&[0, 1, length, length + 1, 65_535]) as u16);
}

/// Old entries behind the list's own; they must not count.
fn go_on(random: &mut Random, names: &mut Names) {
    for _ in 0..random.below(4) {
        let number = random.pick(&[5, 6, 7, 16_384, 16_385, 32_768, 32_769]);
        let bytes = legal_text(random, number);
        names.text.extend(bytes);
        names.terms.push(number);
        names.ends.push(names.text.len() as u16);
    }
}

/// Makes the list's lanes unfit, or asks for more entries than there are.
fn unfit(random: &mut Random, names: &mut Names, listed: &mut usize) {
    match random.below(6) {
        0 => names.terms.push(5),
        1 => {
            names.ends.pop();
        }
        2 => {
            let more = random.pick(&[MOST_NAMES, MOST_NAMES + 1]);
            names.terms.resize(more, 0);
            names.ends.resize(more, 0);
        }
        3 => names.text.resize(random.pick(&[MOST_TEXT, MOST_TEXT + 1]), 0),
        _ => {
            let room = names.room();
            *listed = random.pick(&[room + 1, room + 1, 512, 513, 65_536, usize::MAX]);
        }
    }
}

/// A table and a list as a reading leaves them; the table may have been closed since.
fn from_reading(random: &mut Random, kind: u8) -> (Lanes, usize, Names, usize) {
    let file = match random.below(60) {
        0 => files::many_names(random),
        1 => files::much_text(random),
        2 => files::many_rows(random),
        _ => {
            let lines = random.below(10);
            files::valid(random, lines).bytes
        }
    };
    let rows = random.pick(&[1024, 24, 12]);
    let (mut lanes, mut names) = (Lanes::zero(rows), Names::zero(512, MOST_TEXT));
    let out = read_triples(kind, annotation(random, kind), &file, &mut lanes, &mut names);
    let mut count = out.count;
    if count < 40 && random.chance(5) {
        count = crate::closing::close(kind, legal_rules(random), &mut lanes, count).count;
    }
    if random.chance(2) {
        let end = names.ends.get(out.names.wrapping_sub(1)).copied().unwrap_or(0);
        names.terms.truncate(out.names);
        names.ends.truncate(out.names);
        names.text.truncate(usize::from(end));
    }
    (lanes, count, names, out.names)
}

/// A sound table and a list of our own making, with faults in it or none.
fn arbitrary(random: &mut Random, kind: u8) -> (Lanes, usize, Names, usize) {
    let rows = rows(random, kind);
    let mut entries = entries_for(random, &rows);
    for _ in 0..random.pick(&[0, 0, 0, 1, 1, 2]) {
        spoil_entries(random, &mut entries);
    }
    let mut names = laid(&entries);
    if random.chance(10) {
        idle_entry(random, &mut names);
    }
    let mut listed = names.terms.len();
    if random.chance(3) {
        go_on(random, &mut names);
    }
    if random.chance(6) {
        spoil_lanes(random, &mut names);
    }
    if random.chance(12) {
        listed = random.below(listed + 1);
    }
    let room = rows.len() + random.below(3);
    (tables::lanes_of(random, &rows, room), rows.len(), names, listed)
}

/// The output's length: just enough, one less, one more, none, or anything up to it.
fn output(random: &mut Random, needed: usize) -> Vec<u8> {
    let length = match random.below(8) {
        0 | 1 => needed.saturating_sub(1),
        2 => needed + 1,
        3 => 0,
        4 => random.below(needed + 1),
        _ => needed,
    };
    let old = random.draw() as u8;
    vec![old; length]
}

/// Any writing at all.
pub fn writing(random: &mut Random) -> Writing {
    let mut kind = legal_kind(random);
    let made = if random.chance(3) { from_reading } else { arbitrary };
    let (mut lanes, mut count, mut names, mut listed) = made(random, kind);
    if random.chance(6) {
        (lanes, count) = tables::broken(random, kind);
    }
    if random.chance(12) {
        unfit(random, &mut names, &mut listed);
    }
    if random.chance(30) {
        kind = random.pick(&[0, 5, 255]);
    }
    let needed = writing::judge(kind, &lanes, count, &names, listed);
    let needed = needed.map_or(random.below(200), |bytes| bytes.len());
    let out = output(random, needed);
    Writing { kind, lanes, count, names, listed, out }
}

/// What the rows of a table mean by a list, in their order; none if one of them has no text.
pub fn meaning(
    lanes: &Lanes,
    count: usize,
    names: &Names,
    listed: usize,
) -> Option<Vec<[Text; 3]>> {
    let rows = table::rows(lanes, count);
    rows.iter().map(|row| writing::texts_of(names, listed, *row)).collect()
}
