//! The readings under "Programs and the exported call", in their order.

mod common;
use common::*;
use trial::programs::{close_book_program, counter_program};
use trial::question::bytes_of;
use trial::random::{books, counters, Random};
use trial::{book, export};

fn p11() -> Vec<u8> {
    bytes_of(&both(triple(v(0), c(TYPE), c(11), va(0)), triple(v(0), c(TYPE), c(12), va(0))))
}

const P11_TEXT: &str = "asked 0 0 1 6\n10 65535 65535 65535 65535 65535 65535 65535 65535 65535 \
     65535 65535 65535 65535 65535 65535 96 0 0 0 0 0 0 0\n";

/// A book, then questions, each behind a length.
fn counter(book: &[u8], questions: &[&[u8]]) -> Vec<u8> {
    let mut input = behind_length(book);
    for question in questions {
        input.extend(behind_length(question));
    }
    input
}

#[test]
fn the_closing_program() {
    assert_eq!(close_book_program(&[]), "refused 2 0\n");
    assert_eq!(close_book_program(&vec![1; 65_536]), "refused 13 0\n");
    assert_eq!(close_book_program(&P1[..40]), "refused 1 24\n");
    assert_eq!(close_book_program(&book::head(1, 4, 0)), "closed 4 0 0\n");
    let chain: Vec<_> = (0..45).map(|at| row(100 + at, SC, 101 + at, 7)).collect();
    assert_eq!(close_book_program(&book::bytes_of(3, 0, 1, &chain)), "refused 12 0\n");
    let many: Vec<_> = (0..1025).map(|at| row(at, 20, 1, 7)).collect();
    let text = format!("refused 12 {}\n", 7 + 17 * 1024);
    assert_eq!(close_book_program(&book::bytes_of(3, 0, 1, &many)), text);
    let text = close_book_program(&book::bytes_of(3, 0, 1, &many[1..]));
    assert!(text.starts_with("closed 3 0 1024\n1 20 1 7\n") && text.lines().count() == 1025);
}

#[test]
fn the_counter_cut_short() {
    for input in [&[][..], &[0], &[0, 1], &[0, 5, 1, 0, 4, 1], &[255, 255, 1]] {
        assert_eq!(counter_program(input), "refused 1 0\n");
    }
    assert_eq!(counter_program(&[0, 0]), "refused 2 0\n");
    let whole = counter(&P1, &[&p11()]);
    // The book alone prints nothing; from there on a cut question is seen.
    assert_eq!(counter_program(&whole[..43]), "");
    for end in 44..whole.len() {
        assert_eq!(counter_program(&whole[..end]), "refused 1 0\n");
    }
    assert_eq!(counter_program(&whole), P11_TEXT);
    // After what was printed before.
    let text = format!("{P11_TEXT}refused 1 0\n");
    assert_eq!(counter_program(&[&whole[..], &[0]].concat()), text);
    assert_eq!(counter_program(&[&whole[..], &[0, 9, 1]].concat()), text);
}

#[test]
fn the_counters_refusals() {
    assert_eq!(counter_program(&counter(&P1[..40], &[&p11()])), "refused 1 24\n");
    // A book that does not close: nothing if not asked, a cut question first, then 12.
    let chain: Vec<_> = (0..45).map(|at| row(100 + at, SC, 101 + at, 7)).collect();
    let long = book::bytes_of(3, 0, 1, &chain);
    assert_eq!(counter_program(&counter(&long, &[])), "");
    let cut = [&counter(&long, &[])[..], &[0, 9]].concat();
    assert_eq!(counter_program(&cut), "refused 1 0\n");
    assert_eq!(counter_program(&counter(&long, &[&p11(), &p11()])), "refused 12 0\n");
}

#[test]
fn the_counters_questions() {
    assert_eq!(counter_program(&counter(&P1, &[&[]])), "asked 16 0 0 0\n");
    // A refused question never ends the program; places count from its own first byte.
    let bad = bytes_of(&both(plain(), triple(v(0), c(65_535), v(1), va(0))));
    let text = format!("asked 8 24 0 0\n{P11_TEXT}asked 16 0 0 0\n");
    assert_eq!(counter_program(&counter(&P1, &[&bad, &p11(), &[]])), text);
    // 12 from a run: the 256 answers given are printed.
    let rows: Vec<_> = (0..257).map(|at| row(at, 20, 1, 7)).collect();
    let input = counter(&book::bytes_of(3, 0, 1, &rows), &[&bytes_of(&plain())]);
    let text = counter_program(&input);
    assert!(text.starts_with("asked 12 0 256 257\n0 20 1 65535"));
    assert_eq!(text.lines().count(), 257);
    assert!(text.lines().skip(1).all(|line| line.split(' ').count() == 24));
    assert!(text.ends_with(" 7 0 0 0 0 0 0 0\n"));
    let input = counter(&book::bytes_of(3, 0, 1, &rows[1..]), &[&bytes_of(&plain())]);
    assert!(counter_program(&input).starts_with("asked 0 0 256 256\n1 20 1 65535"));
}

#[test]
fn the_exported_call() {
    let mut out = vec![9; 100];
    assert_eq!(export::close_book(&P1, &mut out), 58);
    assert_eq!(out[..58], book::bytes_of(1, 2000, 1, &P1_CLOSED));
    assert!(out[58..].iter().all(|byte| *byte == 9));
    let mut out = vec![9; 57];
    assert_eq!(export::close_book(&P1, &mut out), 12 << 32);
    assert_eq!(export::close_book(&[], &mut out), 2 << 32);
    assert_eq!(export::close_book(&P1[..40], &mut out), (1 << 32) + 24);
    assert_eq!(export::close_book(&vec![0; 65_536], &mut out), 13 << 32);
    assert!(out.iter().all(|byte| *byte == 9));
}

/// The exported call and the closing program say the same of any book.
#[test]
fn the_two_ways_of_closing_a_book_agree() {
    let mut random = Random::new(31);
    for _ in 0..300 {
        let bytes = books::any(&mut random);
        let mut out = vec![9; 7 + 17 * 1024];
        let answer = export::close_book(&bytes, &mut out);
        let text = close_book_program(&bytes);
        let (number, low) = (answer >> 32, answer & 0xFFFF_FFFF);
        if number != 0 {
            assert_eq!(text, format!("refused {number} {low}\n"));
            assert!(out.iter().all(|byte| *byte == 9));
            continue;
        }
        assert!(text.starts_with("closed "));
        assert_eq!(text.lines().count() as u64, 1 + (low - 7) / 17);
        assert_eq!(close_book_program(&out[..low as usize]), text);
    }
}

#[test]
fn the_counter_ends_on_any_input() {
    let mut random = Random::new(32);
    let (mut asked, mut refused) = (0, 0);
    for _ in 0..400 {
        let text = counter_program(&counters::input(&mut random));
        assert!(text.is_empty() || text.ends_with('\n'));
        asked += usize::from(text.starts_with("asked 0 "));
        refused += usize::from(text.contains("refused "));
    }
    assert!(asked > 50 && refused > 50, "{asked} {refused}");
}
