//! The proved library beside plain Rust: the same input, the same machine, one run. Times are the
//! best of many, in microseconds.
//!
//! Closing stands beside a closure with hash maps, running beside a walk of the question's tree
//! that scans the rows, reading and compiling beside the model, makers' lists beside a reader and a
//! writer with hash maps. Rounds and rows drawn are those of the plainest way (every conclusion of
//! every rule, round by round), which is what the proved closing does at most.

use against::running::Running;
use against::stored_questions::{ann, con, holder, triple, var, BOTH, EITHER};
use against::{asking, baseline, calls, catalogue, places, plain_triples, records, rounds};
use std::hint::black_box;
use std::path::Path;
use std::process::{Command, Stdio};
use std::time::Instant;
use trial::annotation::LARGER;
use trial::ntriples::Names;
use trial::random::slow;
use trial::steps::{Step, ANNS, MOST_ANSWERS, MOST_STEPS, TERMS};
use trial::table::{self, Lanes, Row, Triple};
use trial::term::{DOM, RANGE, SC, SP, TYPE};
use trial::{book, closing, question};

fn annotated(kind: u8, triples: &[Triple]) -> Vec<Row> {
    let mut triples = triples.to_vec();
    triples.sort_unstable();
    triples.dedup();
    let ann = |at: usize| match kind {
        1 => 0xFFFF_FFFF_0000 | 1 << (at % 40),
        3 => 500 + (at as u64 * 37) % 500,
        5 => LARGER[1 + at % 15],
        _ => 990 + (at as u64 * 7) % 11,
    };
    triples.iter().enumerate().map(|(at, triple)| (*triple, ann(at))).collect()
}

/// A chain of sc links; 44 of them are 990 rows closed, in rule set 2 43 are 992.
fn chain(links: u16) -> Vec<Triple> {
    (0..links).map(|at| (100 + at, SC, 101 + at)).collect()
}

/// Things of the leaves of a tree of 20 classes; 190 of them are 1,004 rows closed, in rule set 2 185
/// are 1,002.
fn types(things: u16) -> Vec<Triple> {
    let mut triples: Vec<Triple> = (1..20).map(|at| (100 + at, SC, 100 + (at - 1) / 2)).collect();
    triples.extend((0..things).map(|at| (1000 + at, TYPE, 100 + 15 + at % 5)));
    triples
}

/// Uses of a chain of properties with domains and ranges; 120 of them are 971 rows closed, in rule set
/// 2 122 are 1,001.
fn web(uses: u16) -> Vec<Triple> {
    let mut triples = vec![(20, SP, 21), (21, SP, 22), (22, SP, 16_384)];
    triples.extend([
        (20, DOM, 100),
        (21, RANGE, 101),
        (22, DOM, 102),
        (16_384, DOM, 103),
        (16_384, RANGE, 104),
    ]);
    triples.extend((0..uses).map(|at| (1000 + at, 20, 3000 + at)));
    triples
}

/// The best time of many, in microseconds.
fn best(mut work: impl FnMut()) -> f64 {
    let mut best = f64::MAX;
    let begin = Instant::now();
    while begin.elapsed().as_millis() < 400 {
        let start = Instant::now();
        work();
        best = best.min(start.elapsed().as_secs_f64() * 1e6);
    }
    best
}

/// Rounds, and conclusions drawn in them, of the plainest way.
fn work_done(kind: u8, rules: u8, rows: &[Row]) -> (usize, usize) {
    let mut map = rows.iter().copied().collect();
    let (mut rounds, mut drawn) = (0, 0);
    loop {
        let rows: Vec<Row> =
            std::collections::BTreeMap::iter(&map).map(|(t, a)| (*t, *a)).collect();
        let conclusions = closing::conclusions(kind, rules, &rows);
        rounds += 1;
        drawn += conclusions.len();
        let mut changed = false;
        for row in conclusions {
            changed |= table::join_in(kind, &mut map, row);
        }
        if !changed {
            return (rounds, drawn);
        }
    }
}

fn measure(name: &str, kind: u8, rules: u8, triples: &[Triple]) {
    let rows = annotated(kind, triples);
    let mut filled = Lanes::zero(1024);
    table::fill(&mut filled, &rows);
    let mut lanes = filled.clone();
    let closed = calls::close(kind, rules, &mut lanes, rows.len());
    let (plain_rows, _) = baseline::close(kind, rules, &rows);
    assert_eq!(table::rows(&lanes, closed.count), plain_rows, "{name}, kind {kind}, {rules}");
    let proved = best(|| {
        lanes.clone_from(&filled);
        black_box(calls::close(kind, rules, &mut lanes, rows.len()));
    });
    let plain = best(|| {
        black_box(baseline::close(kind, rules, black_box(&rows)));
    });
    let (rounds, drawn) = work_done(kind, rules, &rows);
    println!(
        "{name:6} {rules:5} {kind:4} {:5} {:7} {rounds:7} {drawn:7} {proved:12.0} {plain:12.0} {:8.2}",
        rows.len(),
        closed.count,
        proved / plain
    );
}

/// A book made to be slow: the same, without the plainest way, which would take too long.
fn measure_slow(name: &str, order: &str, kind: u8, rules: u8, rows: &[Row]) {
    let mut filled = Lanes::zero(1024);
    table::fill(&mut filled, rows);
    let mut lanes = filled.clone();
    let closed = calls::close(kind, rules, &mut lanes, rows.len());
    let (plain_rows, _) = baseline::close(kind, rules, rows);
    assert_eq!(table::rows(&lanes, closed.count), plain_rows, "{name} {order}, {kind}, {rules}");
    let proved = best(|| {
        lanes.clone_from(&filled);
        black_box(calls::close(kind, rules, &mut lanes, rows.len()));
    });
    let plain = best(|| {
        black_box(baseline::close(kind, rules, black_box(rows)));
    });
    println!(
        "{name:16} {order:8} {rules:6} {kind:5} {:5} {:7} {proved:12.0} {plain:12.0} {:8.2}",
        rows.len(),
        closed.count,
        proved / plain
    );
}

/// The work of closing a book made to be slow, counted in plain Rust, and the conclusions that the
/// plain closure draws.
fn count_work(name: &str, order: &str, kind: u8, rules: u8, rows: &[Row]) {
    let (plain_rows, plain) = baseline::close(kind, rules, rows);
    let (counted, work) = rounds::close(kind, rules, rows);
    assert_eq!(counted, plain_rows, "{name} {order}, {kind}, {rules}");
    println!(
        "{name:16} {order:8} {rules:6} {:5} {:7} {:7} {:7} {:8} {:7} {:9} {plain:9}",
        rows.len(),
        counted.len(),
        work.sweeps,
        work.steps,
        work.passed,
        work.asked,
        work.drawn
    );
}

/// A workshop's table of so many rows: lamps of classes, classes within classes, lamps on vans.
fn workshop(rows: u16) -> Vec<Triple> {
    let lamps = rows * 2 / 5;
    let mut triples: Vec<Triple> = (0..lamps).map(|at| (1000 + at, TYPE, 100 + at % 40)).collect();
    triples.extend((0..lamps).map(|at| (1000 + at, 20, 3000 + at % 60)));
    triples.extend((0..rows - 2 * lamps).map(|at| (100 + at, SC, 500 + at % 7)));
    triples
}

/// (s p o) with its annotation in a variable of its own number.
fn part(subj: [u8; 3], pred: u16, obj: [u8; 3], number: u64) -> Vec<u8> {
    triple(subj, con(pred), obj, &ann(1, number))
}

fn both(left: Vec<u8>, right: Vec<u8>) -> Vec<u8> {
    holder(BOTH, &[&left, &right])
}

/// The lamps of a class, and the vans they are on: the second part knows its subject.
fn on_vans() -> Vec<u8> {
    both(part(var(0), TYPE, con(103), 0), part(var(0), 20, var(1), 1))
}

/// The lamps of one class, each with every lamp of another: no part knows its subject.
fn all_with_all() -> Vec<u8> {
    both(part(var(0), TYPE, con(103), 0), part(var(1), TYPE, con(104), 1))
}

/// The lamps of a class, what it lies within, and the vans they are on.
fn three() -> Vec<u8> {
    let class = both(part(var(0), TYPE, var(1), 0), part(var(1), SC, con(503), 1));
    both(class, part(var(0), 20, var(2), 2))
}

fn two_joins() -> Vec<u8> {
    let on_one_van = both(part(var(0), 20, con(3007), 0), part(var(0), TYPE, var(1), 1));
    holder(EITHER, &[&on_vans(), &on_one_van])
}

fn ratio_line(name: &str, size: usize, proved: f64, plain: f64) {
    println!("{name:36} {size:6} {proved:12.1} {plain:12.1} {:8.2}", proved / plain);
}

fn measure_asking(name: &str, rows: u16, bytes: &[u8]) {
    let rows = annotated(1, &workshop(rows));
    let mut lanes = Lanes::zero(rows.len());
    table::fill(&mut lanes, &rows);
    let mut steps = vec![Step::default(); MOST_STEPS];
    let step_count = question::compile(1, bytes, &mut steps).steps;
    steps.truncate(step_count);
    let (mut terms, mut anns) = (vec![0; TERMS * MOST_ANSWERS], vec![0; ANNS * MOST_ANSWERS]);
    let running = Running {
        kind: 1,
        lanes,
        count: rows.len(),
        steps,
        step_count,
        allowed: u32::MAX,
        terms: Vec::new(),
        anns: Vec::new(),
    };
    let part = question::parse(1, bytes).expect("the question is good");
    let plain_answers = asking::ask(1, &rows, &part);
    let ran = calls::run(&running, &mut terms, &mut anns);
    assert_eq!((ran.number, ran.answers), (0, plain_answers.answers.len()), "{name}");
    assert_eq!(u64::from(ran.looks), plain_answers.looks, "{name}");
    let proved = best(|| {
        black_box(calls::run(&running, &mut terms, &mut anns));
    });
    let plain = best(|| {
        black_box(asking::ask(1, black_box(&rows), &part));
    });
    let name = format!("{name}, {} answers", ran.answers);
    ratio_line(&name, rows.len(), proved, plain);
}

fn measure_reading(rows: u16) {
    let mut rows = annotated(3, &workshop(rows));
    // Not in table order: every third row first.
    rows.sort_by_key(|((subj, ..), _)| subj % 3);
    let bytes = book::bytes_of(3, 0, 1, &rows);
    let mut lanes = Lanes::zero(1024);
    let proved = best(|| {
        black_box(calls::read(black_box(&bytes), &mut lanes));
    });
    let plain = best(|| {
        black_box(book::read(black_box(&bytes), &mut lanes));
    });
    ratio_line("reading", rows.len(), proved, plain);
}

/// Rows that come in some order: the looks a row and the time of each search in plain Rust, and the
/// proved adding, which checks the table before each row, and reading.
fn measure_placing(order: &str, rows: u16) {
    let rows = places::in_order(order, &annotated(3, &workshop(rows)));
    let (mut looks, mut times) = (Vec::new(), Vec::new());
    for (_, search) in places::SEARCHES {
        looks.push(places::placed(&rows, search).1 as f64 / rows.len() as f64);
        times.push(best(|| {
            black_box(places::placed(black_box(&rows), search));
        }));
    }
    let mut lanes = Lanes::zero(1024);
    let adding = best(|| {
        rows.iter().fold(0, |count, row| calls::add(3, &mut lanes, count, *row).count);
    });
    let bytes = book::bytes_of(3, 0, 1, &rows);
    let reading = best(|| {
        black_box(calls::read(black_box(&bytes), &mut lanes));
    });
    let shown = |of: &[f64]| of.iter().map(|n| format!("{n:9.1}")).collect::<String>();
    println!(
        "{order:10} {:5} {} {} {adding:9.0} {reading:9.1}",
        rows.len(),
        shown(&looks),
        shown(&times)
    );
}

fn measure_compiling(name: &str, bytes: &[u8]) {
    let mut records = records::marked(MOST_STEPS);
    let mut steps = vec![Step::default(); MOST_STEPS];
    let proved = best(|| {
        black_box(calls::compile(1, black_box(bytes), &mut records));
    });
    let plain = best(|| {
        black_box(question::compile(1, black_box(bytes), &mut steps));
    });
    ratio_line(name, bytes.len(), proved, plain);
}

/// Lanes and a list as long as they may be.
fn most_room() -> (Lanes, Names) {
    (Lanes::zero(1024), Names::zero(512, 32_768))
}

/// A maker's list read, and what was read written back.
fn measure_triples(lines: usize, entries: usize) {
    let file = catalogue::list(lines, entries);
    let (kind, ann) = (1, u64::MAX);
    let (mut lanes, mut names) = most_room();
    let (mut plain_lanes, mut plain_names) = most_room();
    let read = calls::read_triples(kind, ann, &file, &mut lanes, &mut names);
    let plain = plain_triples::read(kind, ann, &file, &mut plain_lanes, &mut plain_names);
    assert_eq!((read.number, read.count, read.names), (0, lines, entries));
    assert_eq!((read, &lanes, &names), (plain, &plain_lanes, &plain_names));
    let (mut out, mut plain_out) = (vec![0; 65_536], vec![0; 65_536]);
    let (count, listed) = (read.count, read.names);
    let written = calls::write_triples(kind, &lanes, count, &names, listed, &mut out);
    let plain = plain_triples::write(kind, &lanes, count, &names, listed, &mut plain_out);
    assert_eq!((written.number, written, &out), (0, plain, &plain_out));

    let proved = best(|| {
        black_box(calls::read_triples(kind, ann, black_box(&file), &mut lanes, &mut names));
    });
    let plain = best(|| {
        let (lanes, names) = (&mut plain_lanes, &mut plain_names);
        black_box(plain_triples::read(kind, ann, black_box(&file), lanes, names));
    });
    ratio_line(&format!("reading {lines} lines, {entries} names"), file.len(), proved, plain);
    let proved = best(|| {
        black_box(calls::write_triples(kind, &lanes, count, &names, listed, &mut out));
    });
    let plain = best(|| {
        black_box(plain_triples::write(kind, &lanes, count, &names, listed, &mut plain_out));
    });
    ratio_line(&format!("writing {lines} lines, {entries} names"), written.length, proved, plain);
}

/// The best time of a process, if it can be started.
fn process(program: &Path, words: &[&str], file: &Path) -> Option<f64> {
    let run = || {
        let mut command = Command::new(program);
        command.args(words).arg(file).stdout(Stdio::null()).stderr(Stdio::null());
        command.status()
    };
    if !run().ok()?.success() {
        return None;
    }
    Some(best(|| {
        let _ = run();
    }))
}

/// Other readers of N-Triples as processes, where they are installed; `true` shows what a process
/// costs by itself, and the C host does with the proved calls what they do.
fn measure_processes(lines: usize, entries: usize) {
    let file = catalogue::list(lines, entries);
    let folder = Path::new(env!("CARGO_MANIFEST_DIR")).join("../../target");
    let path = folder.join("bench.nt");
    if std::fs::write(&path, &file).is_err() {
        return;
    }
    let host = folder.join("host/triples");
    let as_ntriples = ["-q", "-i", "ntriples", "-o", "ntriples"];
    for (name, program, words) in [
        ("true", Path::new("true"), &[][..]),
        ("the C host", &host, &[]),
        ("serdi", Path::new("serdi"), &as_ntriples[1..]),
        ("rapper", Path::new("rapper"), &as_ntriples),
    ] {
        match process(program, words, &path) {
            Some(time) => {
                println!("{:36} {:6} {time:12.0}", format!("{name}, a process"), file.len())
            }
            None => println!("{name} is not there"),
        }
    }
}

/// Tables that close to about 100, 300 and 1,000 rows, then the last of them in every kind.
fn measure_closing(rules: u8, sizes: [(u16, u16, u16); 3]) {
    for (links, things, uses) in sizes {
        measure("chain", 1, rules, &chain(links));
        measure("types", 1, rules, &types(things));
        measure("web", 1, rules, &web(uses));
    }
    let [.., (links, things, uses)] = sizes;
    for kind in [3, 4, 5] {
        measure("chain", kind, rules, &chain(links));
        measure("types", kind, rules, &types(things));
        measure("web", kind, rules, &web(uses));
    }
}

/// One of the books made to be slow, of this size, or of the largest under it whose closure fits: in
/// rule set 2 there are up to 1.6 times as many rows.
fn largest(order: &str, at: usize, rules: u8, size: u16) -> (&'static str, u8, Vec<Row>) {
    let sizes = (16..=size).rev().step_by(10);
    let mut books = sizes.map(|size| slow::books(order, size).swap_remove(at));
    let fits = |book: &(_, u8, Vec<Row>)| baseline::close(book.1, rules, &book.2).0.len() <= 1024;
    books.find(fits).expect("the smallest fits")
}

fn measure_made_slow(rules: u8) {
    for size in [64, 250, 1000] {
        for order in slow::ORDERS {
            for at in 0..slow::books(order, size).len() {
                let (name, kind, rows) = largest(order, at, rules, size);
                measure_slow(name, order, kind, rules, &rows);
            }
        }
    }
}

fn count_made_slow(rules: u8) {
    for order in slow::ORDERS {
        for at in 0..slow::books(order, 1000).len() {
            let (name, kind, rows) = largest(order, at, rules, 1000);
            count_work(name, order, kind, rules, &rows);
        }
    }
}

fn main() {
    println!("table  rules kind  rows  closed  rounds   drawn   proved, us    plain, us    ratio");
    measure_closing(1, [(13, 10, 11), (24, 50, 36), (44, 190, 120)]);
    measure_closing(2, [(13, 5, 10), (23, 45, 35), (43, 185, 122)]);
    println!(
        "\nmade to be slow  order     rules  kind  rows  closed   proved, us    plain, us    ratio"
    );
    measure_made_slow(1);
    measure_made_slow(2);
    println!(
        "\nmade to be slow  order     rules  rows  closed  sweeps   steps   passed   asked     drawn   plain's"
    );
    count_made_slow(1);
    count_made_slow(2);
    println!("\nwhat                                   size   proved, us    plain, us    ratio");
    for rows in [100, 300, 1000] {
        measure_asking("join on the subject", rows, &on_vans());
        measure_asking("join of all with all", rows, &all_with_all());
        measure_asking("three parts", rows, &three());
        measure_asking("either of two joins", rows, &two_joins());
    }
    for rows in [100, 300, 1000] {
        measure_reading(rows);
    }
    println!("\nplacing     rows   looks a row: walk, halving, strides    us: walk, halving, strides    adding   reading");
    for order in places::ORDERS {
        for rows in [100, 1000] {
            measure_placing(order, rows);
        }
    }
    println!("\nwhat                                   size   proved, us    plain, us    ratio");
    measure_compiling("compiling two parts", &on_vans());
    measure_compiling("compiling either", &two_joins());
    for (lines, entries) in [(500, 400), (500, 200), (500, 100), (250, 400), (250, 200), (250, 100)]
    {
        measure_triples(lines, entries);
    }
    measure_processes(500, 400);
}
