//! Closing as the proved library does it, in plain Rust with its work counted: three sweeps over the
//! rows, then one subject after another of those that rose, and the rows that can meet its rows.

use trial::annotation;
use trial::table::{Row, Triple};
use trial::term::{self, DOM, RANGE, SC, SP, TYPE};

/// What a closing did. A row is passed when it is looked at to see whether it is due.
#[derive(Clone, Copy, Debug, Default, PartialEq, Eq)]
pub struct Work {
    pub sweeps: u64,
    pub steps: u64,
    pub passed: u64,
    pub asked: u64,
    pub drawn: u64,
    /// How often a row was put in or raised.
    pub rises: u64,
}

type Set = Vec<bool>;

/// Down or up by a set, or up by one subject.
enum Turn<'a> {
    Down(&'a mut Set),
    Up(&'a mut Set),
    One(u16),
}

struct Closing {
    kind: u8,
    rules: u8,
    rows: Vec<Row>,
    near: usize,
    work: Work,
}

fn meets(within: impl Fn(u16) -> bool, (x, d, y): Triple) -> bool {
    within(x) || within(d) || (d < DOM && within(y))
}

impl Closing {
    fn place(&self, triple: Triple) -> usize {
        self.rows.partition_point(|row| row.0 < triple)
    }

    fn raise(&mut self, triple: Triple, ann: u64) -> bool {
        if !term::name(triple.1) || ann == annotation::BOTTOM {
            return false;
        }
        self.work.drawn += 1;
        let at = self.place(triple);
        self.near = at + 1;
        let there = self.rows.get(at).filter(|row| row.0 == triple).map(|row| row.1);
        let new = there.map_or(ann, |old| annotation::join(self.kind, old, ann));
        match there {
            Some(old) if old == new => return false,
            Some(_) => self.rows[at].1 = new,
            None => self.rows.insert(at, (triple, ann)),
        }
        self.work.rises += 1;
        true
    }

    /// The rows that begin with q and r, one after another; those that are put in move the others up.
    fn walk(&mut self, (q, r): (u16, u16), ann: u64, gives: impl Fn(u16) -> Triple) -> bool {
        let (mut at, mut changed) = (self.place((q, r, 0)), false);
        while let Some(((_, _, z), b)) = self.row_of(at, q, r) {
            changed |= self.raise(gives(z), annotation::and(self.kind, ann, b));
            at += 1;
        }
        changed
    }

    fn row_of(&self, at: usize, q: u16, r: u16) -> Option<Row> {
        self.rows.get(at).copied().filter(|row| (row.0 .0, row.0 .1) == (q, r))
    }

    fn walk_behind(&mut self, d: u16, t: u16, s: u16, ann: u64) -> bool {
        let (mut at, mut changed) = (self.place((d, SP, 0)), false);
        while let Some(((_, _, z), b)) = self.row_of(at, d, SP) {
            changed |= self.walk((z, t), annotation::and(self.kind, ann, b), |w| (s, TYPE, w));
            at += 1;
        }
        changed
    }

    /// The rules of the set at one row; the subjects of what rose go into the sets.
    fn ask(&mut self, at: usize, sets: &mut [&mut Set]) {
        let ((x, d, y), a) = self.rows[at];
        self.work.asked += 1;
        let mut rose = Vec::new();
        let mut note = |changed: bool, s: u16| {
            if changed {
                rose.push(s);
            }
        };
        note(d == SP && self.walk((y, SP), a, |z| (x, SP, z)), x);
        note(self.walk((d, SP), a, |z| (x, z, y)), x);
        note(d == SC && self.walk((y, SC), a, |z| (x, SC, z)), x);
        note(d == TYPE && self.walk((y, SC), a, |z| (x, TYPE, z)), x);
        note(self.walk((d, DOM), a, |z| (x, TYPE, z)), x);
        note(self.walk((d, RANGE), a, |z| (y, TYPE, z)), y);
        note(self.walk_behind(d, DOM, x, a), x);
        note(self.walk_behind(d, RANGE, y, a), y);
        if self.rules == 2 {
            let typed = d == DOM || d == RANGE;
            note(self.raise((d, SP, d), a), d);
            note((d == SP || typed) && self.raise((x, SP, x), a), x);
            note(d == SP && self.raise((y, SP, y), a), y);
            note(d == SC && self.raise((x, SC, x), a), x);
            note((d == SC || d == TYPE || typed) && self.raise((y, SC, y), a), y);
        }
        if !rose.is_empty() {
            // a row whose asking gave anything is asked once more
            rose.push(x);
        }
        for set in sets {
            for s in &rose {
                set[usize::from(*s)] = true;
            }
        }
    }

    fn round(&mut self, mut turn: Turn, rose: &mut Set) {
        self.near = 0;
        let down = matches!(turn, Turn::Down(_));
        let mut at = if down { self.rows.len() } else { 0 };
        while if down { at > 0 } else { at < self.rows.len() } {
            let here = if down { at - 1 } else { at };
            self.work.passed += 1;
            let triple = self.rows[here].0;
            let before = self.rows.len();
            let due = match &turn {
                Turn::Down(due) | Turn::Up(due) => meets(|term| due[usize::from(term)], triple),
                Turn::One(one) => meets(|term| term == *one, triple),
            };
            if due {
                match &mut turn {
                    Turn::Down(due) | Turn::Up(due) => self.ask(here, &mut [due, rose]),
                    Turn::One(_) => self.ask(here, &mut [rose]),
                }
            }
            at = if down { here + self.rows.len() - before } else { here + 1 };
        }
    }

    /// Where (D sp A) and A is in the set, D is put in.
    fn spread(&self, set: &mut Set) {
        for ((d, word, a), _) in &self.rows {
            if *word == SP && set[usize::from(*a)] {
                set[usize::from(*d)] = true;
            }
        }
    }

    fn sweeps(&mut self) -> Set {
        let mut due = vec![true; 65_536];
        for down in [false, true, false] {
            let mut rose = vec![false; 65_536];
            let rises = self.work.rises;
            self.work.sweeps += 1;
            self.round(if down { Turn::Down(&mut due) } else { Turn::Up(&mut due) }, &mut rose);
            due.clone_from(&rose);
            if self.work.rises == rises {
                break;
            }
            if self.work.sweeps < 3 {
                self.spread(&mut due);
            } else {
                break;
            }
        }
        due
    }

    fn choose(&self, rose: &Set, seen: &Set) -> Option<u16> {
        let subject = |at: usize| self.rows.get(at).map(|row| row.0 .0);
        let waits = |s: &u16| rose[usize::from(*s)];
        let fresh = |s: &u16| waits(s) && !seen[usize::from(*s)];
        let last = self.near.checked_sub(1).and_then(subject).filter(fresh);
        let subjects = || self.rows.iter().map(|row| row.0 .0);
        last.or_else(|| subjects().find(fresh)).or_else(|| subjects().find(waits))
    }

    fn settle(&mut self, mut rose: Set) {
        let mut seen = vec![false; 65_536];
        self.near = 0;
        while let Some(one) = self.choose(&rose, &seen) {
            self.work.steps += 1;
            if seen[usize::from(one)] {
                seen.fill(false);
            }
            seen[usize::from(one)] = true;
            rose[usize::from(one)] = false;
            let typed = [DOM, RANGE]
                .iter()
                .any(|word| self.row_of(self.place((one, *word, 0)), one, *word).is_some());
            if typed {
                let mut due = vec![false; 65_536];
                due[usize::from(one)] = true;
                self.spread(&mut due);
                self.round(Turn::Up(&mut due), &mut rose);
            } else {
                self.round(Turn::One(one), &mut rose);
            }
        }
    }
}

/// The rows of the closure, ascending, and the work.
pub fn close(kind: u8, rules: u8, rows: &[Row]) -> (Vec<Row>, Work) {
    let mut closing = Closing { kind, rules, rows: rows.to_vec(), near: 0, work: Work::default() };
    let rose = closing.sweeps();
    closing.settle(rose);
    (closing.rows, closing.work)
}
