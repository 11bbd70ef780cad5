//! Inputs for the counter's program with the output that document 01 gives for them, worked out by
//! hand from the tables beside.

use crate::stored::{p1, SHEETS_0_AND_1, SHEET_0, SHEET_1};
use crate::stored_questions::{ann, con, holder, lamp, least, longest, only, p11, terms, triple};
use crate::stored_questions::{var, BOTH, EITHER};

fn behind_length(bytes: &[u8]) -> Vec<u8> {
    [&(bytes.len() as u16).to_be_bytes()[..], bytes].concat()
}

fn input(book: &[u8], questions: &[Vec<u8>]) -> Vec<u8> {
    let questions = questions.iter().map(|bytes| behind_length(bytes)).collect::<Vec<_>>();
    [behind_length(book), questions.concat()].concat()
}

/// An answer's line: these terms and annotations first, the rest unbound.
fn line(terms: &[u16], anns: &[u64]) -> String {
    let mut numbers: Vec<String> =
        (0..16).map(|at| terms.get(at).copied().unwrap_or(65_535).to_string()).collect();
    numbers.extend((0..8).map(|at| anns.get(at).copied().unwrap_or(0).to_string()));
    numbers.join(" ") + "\n"
}

/// 257 lamps of one class, each in the base year.
fn many_lamps() -> Vec<u8> {
    let head = vec![1, 0, 4, 1, 1, 7, 208];
    let lamp = |at: u16| {
        [&[3, 0, 14][..], &at.to_be_bytes(), &[0, 2, 0, 11], &1u64.to_be_bytes()].concat()
    };
    [head, (100..357).flat_map(lamp).collect()].concat()
}

/// Lamp 10 is of class 11, and has a text and 500 mA for a limit.
fn limits() -> Vec<u8> {
    let row = |pred: u16, obj: u16| {
        let terms = [10, pred, obj].map(u16::to_be_bytes).concat();
        [&[3, 0, 14][..], &terms, &7u64.to_be_bytes()].concat()
    };
    [&[1, 0, 4, 1, 1, 7, 208][..], &row(20, 49_652), &row(20, 32_768), &row(2, 11)].concat()
}

/// (10 type 11) on sheet 0 and (11 sc 12) on sheet 1: closed, (10 type 12) by both together.
fn two_sheets() -> Vec<u8> {
    let head = vec![1, 0, 4, 1, 5, 0, 0];
    let class = [&[3, 0, 14, 0, 10, 0, 2, 0, 11][..], &SHEET_0.to_be_bytes()].concat();
    let within = [&[3, 0, 14, 0, 11, 0, 1, 0, 12][..], &SHEET_1.to_be_bytes()].concat();
    [head, class, within].concat()
}

/// P1's table is, closed: (10 type 11):120, (10 type 12):96, (11 sc 12):2016.
pub fn countings() -> Vec<(&'static str, Vec<u8>, String)> {
    let either = holder(EITHER, &[&lamp(0, 0), &triple(var(0), con(2), con(12), &ann(1, 0))]);
    let both_ways = line(&[10], &[120]) + &line(&[10], &[96]);
    let p11_asked = "asked 0 0 1 6\n".to_string() + &line(&[10], &[96]);
    let within_12 = triple(var(0), var(1), con(12), &ann(1, 0));
    let not_lamp_10 = only(&within_12, &terms(1, var(0), con(10)));
    let typed = triple(var(0), con(2), var(1), &ann(1, 0));
    let all_of_0x18 = only(&typed, &least(0, 0x18));
    let within = holder(BOTH, &[&typed, &triple(var(1), con(1), var(2), &ann(1, 1))]);
    let chain = holder(BOTH, &[&within, &triple(var(0), con(2), var(2), &ann(1, 2))]);
    let anything = triple(var(0), var(1), var(2), &ann(1, 0));
    let lamps = triple(var(0), con(2), con(11), &ann(0, 1));
    let first_256: String = (100..356).map(|lamp| line(&[lamp], &[])).collect();
    let limit = triple(con(10), con(20), var(0), &ann(1, 0));
    let mut cut = input(&p1(), &[p11()]);
    cut.push(0);
    let short = [input(&p1(), &[p11()]), vec![0, 5, 16, 0]].concat();
    let on_12 = |annotation| triple(var(0), con(2), con(12), &ann(0, annotation));
    let asked_sheets = [on_12(SHEETS_0_AND_1), on_12(SHEET_0), on_12(8)];
    vec![
        (
            "a combination of sheets that is enough, one that is not, and 28",
            input(&two_sheets(), &asked_sheets),
            "asked 0 0 1 3\n".to_string() + &line(&[10], &[]) + "asked 0 0 0 3\nasked 28 0 0 0\n",
        ),
        ("P11", input(&p1(), &[p11()]), p11_asked.clone()),
        ("either", input(&p1(), &[either]), "asked 0 0 2 6\n".to_string() + &both_ways),
        (
            "only, unequal",
            input(&p1(), &[not_lamp_10]),
            "asked 0 0 1 3\n".to_string() + &line(&[11, 1], &[2016]),
        ),
        (
            "only, at least: 120 has the bits of 24 and 96 has not",
            input(&p1(), &[all_of_0x18]),
            "asked 0 0 1 3\n".to_string() + &line(&[10, 11], &[120]),
        ),
        (
            "both in both: 3 looks, 2 times 3, then 3",
            input(&p1(), &[chain]),
            "asked 0 0 1 12\n".to_string() + &line(&[10, 11, 12], &[120, 2016, 96]),
        ),
        (
            "the question of 48 steps (C-14): 16 TRIPLEs, 3 looks each",
            input(&p1(), &[longest()]),
            "asked 0 0 16 48\n".to_string() + &line(&[10], &[120]).repeat(16),
        ),
        (
            "C-17: the limits of lamp 10, a text and 500 mA, and which is 500 mA",
            input(&limits(), &[limit.clone(), only(&limit, &terms(0, var(0), con(49_652)))]),
            "asked 0 0 2 3\n".to_string()
                + &line(&[32_768], &[7])
                + &line(&[49_652], &[7])
                + "asked 0 0 1 3\n"
                + &line(&[49_652], &[7]),
        ),
        ("an empty table", input(&p1()[..7], &[anything]), "asked 0 0 0 0\n".to_string()),
        (
            "257 answers and room for 256",
            input(&many_lamps(), &[lamps]),
            "asked 12 0 256 257\n".to_string() + &first_256,
        ),
        (
            "a refused question among good ones",
            input(&p1(), &[p11(), vec![], p11()]),
            p11_asked.clone() + "asked 16 0 0 0\n" + &p11_asked,
        ),
        ("cut in a length", cut, p11_asked.clone() + "refused 1 0\n"),
        ("cut in a question", short, p11_asked + "refused 1 0\n"),
        ("no question", input(&p1(), &[]), String::new()),
        ("nothing", vec![], "refused 1 0\n".to_string()),
        ("a lone byte", vec![0], "refused 1 0\n".to_string()),
        ("a book of length 0", vec![0, 0], "refused 2 0\n".to_string()),
        ("a cut book", vec![0, 9, 1, 0, 4], "refused 1 0\n".to_string()),
        ("a refused book", input(&p1()[..40], &[p11()]), "refused 1 24\n".to_string()),
    ]
}
