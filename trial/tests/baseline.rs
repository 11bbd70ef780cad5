//! The plain closure that `against` measures the proved one beside, held against the model. It needs
//! nothing of the library, so it is tried on every machine.

#[path = "../against/src/baseline.rs"]
mod baseline;
#[path = "../against/src/rounds.rs"]
mod rounds;

use trial::closing;
use trial::random::{closings, legal_kind, legal_rules, slow, Random};

#[test]
fn the_plain_closure_agrees_on_random_tables() {
    let mut random = Random::new(70);
    let mut tried = [0, 0];
    for _ in 0..2_000 {
        let (kind, rules) = (legal_kind(&mut random), legal_rules(&mut random));
        let rows = closings::rows(&mut random, kind);
        let Some(closed) = closing::closure(kind, rules, &rows, 400) else {
            continue;
        };
        tried[usize::from(rules) - 1] += 1;
        let plain = baseline::close(kind, rules, &rows).0;
        assert_eq!(plain, closed, "kind {kind}, rule set {rules}, {rows:?}");
        if tried[0] % 4 == 0 {
            let counted = rounds::close(kind, rules, &rows).0;
            assert_eq!(counted, closed, "counted: kind {kind}, rule set {rules}, {rows:?}");
        }
    }
    assert!(tried.iter().all(|tried| *tried > 500), "{tried:?}");
}

#[test]
fn the_plain_closure_agrees_on_books_made_to_be_slow() {
    for order in slow::ORDERS {
        for (name, kind, rows) in slow::books(order, 100) {
            for rules in [1, 2] {
                let closed = closing::closure(kind, rules, &rows, 1024);
                let plain = baseline::close(kind, rules, &rows).0;
                assert_eq!(Some(&plain), closed.as_ref(), "{name} {order}, rule set {rules}");
                let (counted, work) = rounds::close(kind, rules, &rows);
                assert_eq!(Some(counted), closed, "counted: {name} {order}, rule set {rules}");
                bounded(&work, plain.len());
            }
        }
    }
}

/// An asking that raised anything puts three subjects in at most, and a step takes one out and passes over all rows at most.
fn bounded(work: &rounds::Work, closed: usize) {
    assert!(work.steps <= 3 * work.rises, "{work:?}");
    assert!(work.passed <= (work.sweeps + work.steps) * closed as u64, "{work:?}");
    assert!(work.asked <= work.passed, "{work:?}");
}
