//! A plain closure with hash maps, to measure the proved one beside: a queue of triples that rose,
//! each joined with its partners through indexes for every place it can take in a rule. In either rule
//! set; a link of a term to itself is no partner, since it gives nothing that is not there.

use std::collections::HashMap;
use trial::annotation;
use trial::table::{Row, Triple};
use trial::term::{self, DOM, RANGE, SC, SP, TYPE};

#[derive(Default)]
struct Graph {
    kind: u8,
    value: HashMap<Triple, u64>,
    objects: HashMap<(u16, u16), Vec<u16>>,
    subjects: HashMap<(u16, u16), Vec<u16>>,
    uses: HashMap<u16, Vec<(u16, u16)>>,
    queue: Vec<Triple>,
    /// How many conclusions were drawn, new or not.
    drawn: u64,
}

impl Graph {
    fn raise(&mut self, triple: Triple, ann: u64) {
        let (subj, pred, obj) = triple;
        if !term::name(pred) || ann == annotation::BOTTOM {
            return;
        }
        self.drawn += 1;
        let old = self.value.get(&triple).copied();
        let new = old.map_or(ann, |old| annotation::join(self.kind, old, ann));
        if old == Some(new) {
            return;
        }
        self.value.insert(triple, new);
        self.queue.push(triple);
        if old.is_none() {
            self.objects.entry((subj, pred)).or_default().push(obj);
            self.subjects.entry((pred, obj)).or_default().push(subj);
            self.uses.entry(pred).or_default().push((subj, obj));
        }
    }

    fn of(&self, subj: u16, pred: u16, obj: u16) -> u64 {
        self.value.get(&(subj, pred, obj)).copied().unwrap_or(0)
    }

    fn and(&self, left: u64, right: u64) -> u64 {
        annotation::and(self.kind, left, right)
    }

    fn objects(&self, subj: u16, pred: u16) -> Vec<u16> {
        self.objects.get(&(subj, pred)).cloned().unwrap_or_default()
    }

    fn subjects(&self, pred: u16, obj: u16) -> Vec<u16> {
        self.subjects.get(&(pred, obj)).cloned().unwrap_or_default()
    }

    fn uses(&self, pred: u16) -> Vec<(u16, u16)> {
        self.uses.get(&pred).cloned().unwrap_or_default()
    }

    /// The triple as the (X D Y) of 2b, 4 and 5.
    fn as_use(&mut self, (x, d, y): Triple, ann: u64) {
        for e in self.objects(d, SP).into_iter().filter(|e| *e != d) {
            let both = self.and(ann, self.of(d, SP, e));
            self.raise((x, e, y), both);
            self.typed(e, x, y, both);
        }
        self.typed(d, x, y, ann);
    }

    /// The types that a property's domains and ranges give.
    fn typed(&mut self, property: u16, x: u16, y: u16, ann: u64) {
        for b in self.objects(property, DOM) {
            let all = self.and(ann, self.of(property, DOM, b));
            self.raise((x, TYPE, b), all);
        }
        for b in self.objects(property, RANGE) {
            let all = self.and(ann, self.of(property, RANGE, b));
            self.raise((y, TYPE, b), all);
        }
    }

    /// The triple as either premise of 2a or 3a.
    fn as_link(&mut self, (a, pred, b): Triple, ann: u64) {
        if a == b {
            return;
        }
        for c in self.objects(b, pred).into_iter().filter(|c| *c != b) {
            let both = self.and(ann, self.of(b, pred, c));
            self.raise((a, pred, c), both);
        }
        for z in self.subjects(pred, a).into_iter().filter(|z| *z != a) {
            let both = self.and(ann, self.of(z, pred, a));
            self.raise((z, pred, b), both);
        }
    }

    fn as_sub_property(&mut self, (d, _, e): Triple, ann: u64) {
        if d == e {
            return;
        }
        for (x, y) in self.uses(d) {
            let both = self.and(ann, self.of(x, d, y));
            self.raise((x, e, y), both);
            self.typed(e, x, y, both);
        }
    }

    fn as_typing(&mut self, (a, pred, b): Triple, ann: u64) {
        let mut properties = vec![(a, annotation::top(self.kind))];
        for d in self.subjects(SP, a).into_iter().filter(|d| *d != a) {
            properties.push((d, self.of(d, SP, a)));
        }
        for (d, link) in properties {
            for (x, y) in self.uses(d) {
                let all = self.and(self.and(ann, link), self.of(x, d, y));
                self.raise((if pred == DOM { x } else { y }, TYPE, b), all);
            }
        }
    }

    /// The triple as the one premise of rule set 2's lines.
    fn alone(&mut self, (s, pred, o): Triple, ann: u64) {
        self.raise((pred, SP, pred), ann);
        let (of_subject, of_object) = match pred {
            SP => (Some(SP), Some(SP)),
            SC => (Some(SC), Some(SC)),
            TYPE => (None, Some(SC)),
            DOM | RANGE => (Some(SP), Some(SC)),
            _ => (None, None),
        };
        if let Some(link) = of_subject {
            self.raise((s, link, s), ann);
        }
        if let Some(link) = of_object {
            self.raise((o, link, o), ann);
        }
    }

    fn as_class(&mut self, (s, pred, o): Triple, ann: u64) {
        if pred == TYPE {
            for b in self.objects(o, SC).into_iter().filter(|b| *b != o) {
                let both = self.and(ann, self.of(o, SC, b));
                self.raise((s, TYPE, b), both);
            }
        } else if s != o {
            for x in self.subjects(TYPE, s) {
                let both = self.and(ann, self.of(x, TYPE, s));
                self.raise((x, TYPE, o), both);
            }
        }
    }
}

/// The rows of the closure under a rule set, ascending, and how many conclusions were drawn on the way.
pub fn close(kind: u8, rules: u8, rows: &[Row]) -> (Vec<Row>, u64) {
    let mut graph = Graph { kind, ..Graph::default() };
    for (triple, ann) in rows {
        graph.raise(*triple, *ann);
    }
    graph.drawn = 0;
    while let Some(triple) = graph.queue.pop() {
        let (subj, pred, obj) = triple;
        let ann = graph.of(subj, pred, obj);
        graph.as_use(triple, ann);
        if rules == 2 {
            graph.alone(triple, ann);
        }
        match pred {
            SP => {
                graph.as_link(triple, ann);
                graph.as_sub_property(triple, ann);
            }
            SC => {
                graph.as_link(triple, ann);
                graph.as_class(triple, ann);
            }
            TYPE => graph.as_class(triple, ann),
            DOM | RANGE => graph.as_typing(triple, ann),
            _ => {}
        }
    }
    let mut rows: Vec<Row> = graph.value.into_iter().collect();
    rows.sort_unstable();
    (rows, graph.drawn)
}
