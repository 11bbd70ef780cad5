//! What the generators deal: every number is met, and no call panics or says what it must not.

mod common;
use std::collections::BTreeMap;
use trial::ntriples::{self, names, Names};
use trial::random::{self, books, closings, counters, questions, steps as lists, tables, Random};
use trial::random::{files, lists as written, slow};
use trial::steps::{self, Step};
use trial::table::{self, Lanes};
use trial::{book, closing, programs, question};

/// How often each number was met.
type Met = BTreeMap<u32, usize>;

fn meet(met: &mut Met, number: u32) {
    *met.entry(number).or_default() += 1;
}

/// Exactly these numbers, each often enough.
fn assert_met(met: &Met, numbers: &[u32], least: usize) {
    let found: Vec<u32> = met.keys().copied().collect();
    assert_eq!(found, numbers, "{met:?}");
    assert!(met.values().all(|times| *times >= least), "{met:?}");
}

#[test]
fn the_same_seed_deals_the_same_cases() {
    let deal = |seed| {
        let random = &mut Random::new(seed);
        let book = books::any(random);
        (book, questions::any(random, 1), lists::any(random, 2), closings::any(random))
    };
    assert_eq!(deal(7), deal(7));
    assert_ne!(deal(7), deal(8));
    // Splitmix64's first number from seed 0.
    assert_eq!(Random::new(0).draw(), 0xE220_A839_7B1D_CDAF);
}

#[test]
fn tables_and_adding() {
    let mut random = Random::new(41);
    let (mut checks, mut adds) = (Met::new(), Met::new());
    for _ in 0..6000 {
        let kind = random::kind(&mut random);
        let (mut lanes, count) = tables::any(&mut random, kind);
        let verdict = table::check(kind, &lanes, count);
        meet(&mut checks, verdict.number);
        let (triple, ann) = tables::to_add(&mut random, kind, &lanes, count);
        let before = lanes.clone();
        let added = table::add(kind, &mut lanes, count, triple, ann);
        meet(&mut adds, added.number);
        if added.number != 0 {
            assert_eq!((&lanes, added.count), (&before, count));
            continue;
        }
        assert!(table::check(kind, &lanes, added.count).done());
        let (rows, old) = (table::rows(&lanes, 2000), table::rows(&before, 2000));
        assert_eq!(rows[added.count..], old[added.count..]);
        let new = rows.iter().take(added.count).find(|row| row.0 == triple);
        assert!(new.is_some_and(|row| trial::annotation::at_most(kind, ann, row.1)));
    }
    assert_met(&checks, &[0, 4, 8, 9, 10, 11, 14, 15, 28], 20);
    assert_met(&adds, &[0, 4, 8, 9, 10, 11, 12, 14, 15, 28], 20);
}

#[test]
fn sound_tables_are_sound_and_reach_every_length() {
    let mut random = Random::new(42);
    let mut rooms = BTreeMap::new();
    for _ in 0..2000 {
        let kind = random::legal_kind(&mut random);
        let (lanes, count) = tables::sound(&mut random, kind);
        assert!(table::check(kind, &lanes, count).done());
        *rooms.entry(lanes.room()).or_insert(0) += 1;
        let (lanes, count) = tables::small(&mut random, kind, 9);
        assert!(table::check(kind, &lanes, count).done() && count < 10);
    }
    assert!(rooms[&0] > 20 && rooms[&1] > 20 && rooms[&1024] > 20 && rooms[&1023] > 20);
    assert!(rooms.len() > 150);
}

#[test]
fn books_meet_every_number() {
    let mut random = Random::new(43);
    let (mut met, mut heads) = (Met::new(), BTreeMap::new());
    for _ in 0..4000 {
        let bytes = books::any(&mut random);
        let (mut lanes, _) = tables::any(&mut random, 1);
        let before = lanes.clone();
        let out = book::read(&bytes, &mut lanes);
        meet(&mut met, out.number);
        *heads.entry((bytes.get(2..4).map(<[u8]>::to_vec), out.rules)).or_insert(0) += 1;
        match out.number {
            0 => assert!(table::check(out.kind, &lanes, out.count).done()),
            11 | 13 => assert_eq!(lanes, before),
            _ => assert_eq!(lanes, Lanes::zero(before.room())),
        }
        let zeros = table::rows(&lanes, usize::MAX);
        if out.number == 0 {
            assert!(zeros[out.count..].iter().all(|row| *row == ((0, 0, 0), 0)));
        }
    }
    assert_met(&met, &[0, 1, 2, 3, 4, 5, 6, 7, 8, 9, 10, 11, 12, 13, 28, 36], 12);
    assert!(met[&36] > 40, "{met:?}");
    // Length and edition, and the rule set that was read: 0 where the book is refused.
    for (length, edition, rules) in [(4, 1, 1), (5, 2, 1), (5, 2, 2)] {
        assert!(heads[&(Some(vec![length, edition]), rules)] > 100, "{heads:?}");
    }
    for (length, edition) in [(4, 2), (5, 1), (5, 3), (4, 3), (6, 2), (3, 1)] {
        assert!(heads[&(Some(vec![length, edition]), 0)] >= 3, "{heads:?}");
    }
}

#[test]
fn questions_meet_every_number() {
    let mut random = Random::new(44);
    let mut met = Met::new();
    for _ in 0..12_000 {
        let kind = random::kind(&mut random);
        let bytes = questions::any(&mut random, kind);
        let mut records = vec![
            Step::default();
            match random.below(20) {
                0 => 47,
                1 => 0,
                2 => 60,
                _ => 48,
            }
        ];
        let before = records.clone();
        let out = question::compile(kind, &bytes, &mut records);
        meet(&mut met, out.number);
        assert_eq!(records[out.steps..], before[out.steps..]);
        if out.number == 0 {
            assert!(steps::check(kind, &records, out.steps).done());
        }
    }
    assert_met(&met, &[0, 4, 8, 9, 10, 11, 16, 17, 18, 19, 20, 21, 22, 28], 50);
}

#[test]
fn valid_questions_are_valid_up_to_32_parts() {
    let mut random = Random::new(45);
    for parts in (1..=33).cycle().take(3300) {
        let kind = random::legal_kind(&mut random);
        let part = questions::valid(&mut random, kind, parts);
        assert_eq!(part.parts(), parts);
        let expected = if parts > 32 { 20 } else { 0 };
        assert_eq!(common::compiled_part(kind, &part).0, expected);
    }
}

#[test]
fn step_lists_and_runs() {
    let mut random = Random::new(46);
    let (mut met, mut answered) = (Met::new(), 0);
    for _ in 0..6000 {
        let kind = random::kind(&mut random);
        let (lanes, count) = match random.below(3) {
            0 => tables::any(&mut random, kind),
            _ => tables::small(&mut random, kind, 9),
        };
        let (records, step_count) = lists::any(&mut random, kind);
        let allowed = lists::allowed(&mut random);
        let (terms, anns) = lists::answer_lengths(&mut random);
        let (mut terms, mut anns) = (vec![7; terms], vec![7; anns]);
        let ran =
            steps::run(kind, &lanes, count, &records, step_count, allowed, &mut terms, &mut anns);
        meet(&mut met, ran.number);
        answered += usize::from(ran.answers > 0);
        assert!(ran.looks <= allowed && (ran.number != 24 || ran.looks == allowed));
        assert!(terms.iter().skip(16 * ran.answers).all(|term| *term == 7));
        assert!(anns.iter().skip(8 * ran.answers).all(|ann| *ann == 7));
    }
    assert_met(&met, &[0, 4, 8, 9, 10, 11, 12, 14, 15, 23, 24, 28], 5);
    assert!(answered > 500, "{answered}");
}

#[test]
fn legal_step_lists_are_legal() {
    let mut random = Random::new(47);
    for _ in 0..2000 {
        let kind = random::legal_kind(&mut random);
        for list in [lists::legal(&mut random, kind), lists::forks(&mut random, kind)] {
            assert!(steps::check(kind, &list, list.len()).done(), "{list:?}");
        }
    }
}

#[test]
fn closings_meet_the_room_exactly_and_miss_it_by_one() {
    let mut random = Random::new(48);
    let mut met = [Met::new(), Met::new()];
    let (mut exact, mut full, mut brim, mut unknown) = ([0, 0], [0, 0], [0, 0], 0);
    for _ in 0..4000 {
        let (kind, rules, mut lanes, count) = closings::any(&mut random);
        let room = lanes.subj.len();
        let out = closing::close(kind, rules, &mut lanes, count);
        unknown += usize::from(out.number == 36);
        let Some(at) = [1, 2].iter().position(|set| *set == rules) else {
            assert!([4, 36].contains(&out.number));
            continue;
        };
        meet(&mut met[at], out.number);
        let grown = out.number == 0 && out.count > count;
        exact[at] += usize::from(grown && out.count == room);
        full[at] += usize::from(grown && out.count > 500);
        brim[at] += usize::from(out.number == 0 && out.count >= 1023);
    }
    for at in [0, 1] {
        assert!(exact[at] > 200 && full[at] > 20 && brim[at] > 20, "{exact:?} {full:?} {brim:?}");
        assert!(met[at][&12] > 150, "{met:?}");
        assert!([0, 4, 8, 9, 10, 11, 14, 15, 28].iter().all(|number| met[at].contains_key(number)));
    }
    assert!(unknown > 100, "{unknown}");
}

/// Every make of the books made to be slow, in every kind.
#[test]
fn slow_books_are_dealt_in_every_kind() {
    let mut random = Random::new(50);
    for kind in [1, 3, 4, 5] {
        let mut sizes = std::collections::BTreeSet::new();
        for _ in 0..200 {
            let rows = slow::small(&mut random, kind);
            let lanes = common::lanes(&rows, rows.len());
            assert!(table::check(kind, &lanes, rows.len()).done());
            assert!(closing::closure(kind, 2, &rows, 600).is_some());
            sizes.insert(rows.len());
        }
        assert!(sizes.len() > 20, "{kind}: {sizes:?}");
    }
}

#[test]
fn counters_deal_books_and_questions() {
    let mut random = Random::new(49);
    let mut lines = BTreeMap::new();
    for _ in 0..1_500 {
        let text = programs::counter_program(&counters::input(&mut random));
        for line in text.lines().filter(|line| line.starts_with(|first| first > '9')) {
            let words: Vec<&str> = line.split(' ').collect();
            *lines.entry((words[0].to_string(), words[1].to_string())).or_insert(0) += 1;
        }
    }
    let met = |word: &str, number: &str| {
        lines.get(&(word.to_string(), number.to_string())).copied().unwrap_or(0)
    };
    assert!(met("asked", "0") > 150 && met("asked", "16") > 50, "{lines:?}");
    assert!(met("refused", "1") > 20 && met("asked", "12") > 2, "{lines:?}");
}

#[test]
fn files_meet_every_number() {
    let mut random = Random::new(61);
    let (mut met, mut exact) = (Met::new(), 0);
    let (mut most, mut longest, mut full) = (BTreeMap::new(), BTreeMap::new(), 0);
    for _ in 0..12_000 {
        let case = files::reading(&mut random);
        let (mut lanes, mut names) = (case.lanes.clone(), case.names.clone());
        let out = ntriples::read_triples(case.kind, case.ann, &case.file, &mut lanes, &mut names);
        meet(&mut met, out.number);
        *longest.entry(case.file.len()).or_insert(0) += 1;
        if out.number == 0 {
            *most.entry(out.names).or_insert(0) += 1;
            full += usize::from(out.count == 1024);
            let end = names.ends.get(out.names.wrapping_sub(1)).copied().unwrap_or(0);
            let fits = out.names == names.room() && usize::from(end) == names.text.len();
            exact += usize::from(fits && out.count > 0 && out.count == lanes.room());
            *longest.entry(100_000 + usize::from(end)).or_insert(0) += 1;
        }
    }
    assert_met(&met, &[0, 4, 10, 11, 12, 13, 26, 27, 28], 60);
    assert!(exact > 400 && full > 5, "{exact} {full}");
    // Files, lists and texts at their limits.
    for length in [65_534, 65_535, 65_536, 65_537, 132_767, 132_768] {
        assert!(longest.get(&length).is_some_and(|times| *times > 5), "{length} {longest:?}");
    }
    assert!(most[&511] > 5 && most[&512] > 5 && most.keys().max() == Some(&512), "{most:?}");
}

/// Which of the limits of a list a file goes over by one.
#[test]
fn files_go_over_each_limit_of_the_list_by_one() {
    let mut random = Random::new(62);
    let mut met = BTreeMap::new();
    for _ in 0..400 {
        for file in [files::many_names(&mut random), files::much_text(&mut random)] {
            let (mut lanes, mut names) = (Lanes::zero(1024), Names::zero(512, names::MOST_TEXT));
            let out = ntriples::read_triples(1, 1, &file, &mut lanes, &mut names);
            let end = names.ends.get(out.names.wrapping_sub(1)).copied().unwrap_or(0);
            *met.entry((out.number, out.names.max(100), end.max(30_000))).or_insert(0) += 1;
        }
    }
    for limit in [(0, 511, 30_000), (0, 512, 30_000), (0, 100, 32_767), (0, 100, 32_768)] {
        assert!(met[&limit] > 30, "{met:?}");
    }
    assert!(met[&(27, 100, 30_000)] > 200, "{met:?}");
}

#[test]
fn writings_meet_every_number() {
    let mut random = Random::new(63);
    let (mut met, mut of_list) = (Met::new(), Met::new());
    let (mut exact, mut short, mut first) = (0, 0, 0);
    for _ in 0..24_000 {
        let case = written::writing(&mut random);
        let written::Writing { kind, lanes, count, names, listed, out } = &case;
        let mut bytes = out.clone();
        let done = ntriples::write_triples(*kind, lanes, *count, names, *listed, &mut bytes);
        meet(&mut met, done.number);
        if table::check(*kind, lanes, *count).done() {
            meet(&mut of_list, done.number);
        }
        let needed = ntriples::writing::judge(*kind, lanes, *count, names, *listed);
        let needed = needed.map_or(0, |bytes| bytes.len());
        exact += usize::from(done.number == 0 && needed > 0 && out.len() == needed);
        short += usize::from(done.number == 12 && out.len() + 1 == needed);
        first += usize::from(done.number == 39 && done.place > 0);
        assert_eq!(bytes[done.length..], out[done.length..]);
    }
    assert_met(&met, &[0, 4, 8, 9, 10, 11, 12, 14, 15, 28, 39], 90);
    assert_met(&of_list, &[0, 11, 12, 14, 39], 400);
    assert!(exact > 2000 && short > 1000 && first > 1000, "{exact} {short} {first}");
}

/// Why a term has no text.
fn cause(names: &Names, listed: usize, number: u16) -> &'static str {
    let at = names.terms.iter().take(listed).position(|term| *term == number);
    match (at, at.and_then(|at| names.entry(at))) {
        (None, _) => "no entry",
        (Some(at), None) if usize::from(names.ends[at]) > names.text.len() => "end past the text",
        (Some(_), None) => "falling end",
        (Some(_), Some(_)) => "text not legal",
    }
}

#[test]
fn writings_meet_every_cause_of_39() {
    let mut random = Random::new(64);
    let mut met = BTreeMap::new();
    let mut count_one = |word: &'static str| *met.entry(word).or_insert(0) += 1;
    for _ in 0..16_000 {
        let case = written::writing(&mut random);
        let written::Writing { kind, lanes, count, names, listed, out } = &case;
        let mut bytes = out.clone();
        let done = ntriples::write_triples(*kind, lanes, *count, names, *listed, &mut bytes);
        let rows = table::rows(lanes, *count);
        let twice = |number: &u16| names.terms.iter().filter(|term| *term == number).count() > 1;
        if let (39, Some(((subj, pred, obj), _))) = (done.number, rows.get(done.place as usize)) {
            let missing = |number: &u16| names.text_of(*listed, *number).is_none();
            match [*subj, *pred, *obj].into_iter().find(missing) {
                Some(number) => count_one(cause(names, *listed, number)),
                None => count_one("literal subject"),
            }
        } else if done.number == 0 && done.length > 0 {
            let used = rows.iter().flat_map(|((subj, pred, obj), _)| [*subj, *pred, *obj]);
            let used: Vec<u16> = used.collect();
            if used.iter().any(twice) {
                count_one("done, a number listed twice");
            }
            if used.iter().any(|number| *number < 5 && names.terms[..*listed].contains(number)) {
                count_one("done, one of the five listed");
            }
            if (0..*listed).any(|at| names.entry(at).is_none()) {
                count_one("done, an entry unfit that no row needs");
            }
        }
    }
    assert_eq!(met.len(), 8, "{met:?}");
    assert!(met.values().all(|times| *times > 100), "{met:?}");
}
