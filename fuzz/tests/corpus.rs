//! The kept corpus again, with no fuzzer: through the programs as processes, and the exported calls
//! from the static library, each as it is handed out.

mod common;
use common::{corpus, here};
use fuzz::triples::{self, Calls};
use fuzz::{exported, inputs, programs};
use std::io::{Read, Write};
use std::path::Path;
use std::process::{Command, Stdio};
use std::time::{Duration, Instant};

#[link(name = "trackvesper", kind = "static")]
extern "C" {
    fn trackvesper_close_book(book: *const u8, length: usize, out: *mut u8, room: usize) -> u64;

    fn trackvesper_read_triples(
        kind: u8,
        annotation: u64,
        file: *const u8,
        file_length: usize,
        subj: *mut u16,
        subj_length: usize,
        pred: *mut u16,
        pred_length: usize,
        obj: *mut u16,
        obj_length: usize,
        ann: *mut u64,
        ann_length: usize,
        terms: *mut u16,
        terms_length: usize,
        ends: *mut u16,
        ends_length: usize,
        text: *mut u8,
        text_length: usize,
    ) -> u64;

    fn trackvesper_write_triples(
        kind: u8,
        subj: *const u16,
        subj_length: usize,
        pred: *const u16,
        pred_length: usize,
        obj: *const u16,
        obj_length: usize,
        ann: *const u64,
        ann_length: usize,
        count: usize,
        terms: *const u16,
        terms_length: usize,
        ends: *const u16,
        ends_length: usize,
        text: *const u8,
        text_length: usize,
        names: usize,
        out: *mut u8,
        out_length: usize,
    ) -> u64;
}

const CALLS: Calls = Calls { read: trackvesper_read_triples, write: trackvesper_write_triples };

const LIMIT: Duration = Duration::from_secs(20);

/// The programs that are there to be fuzzed.
fn listed() -> Vec<String> {
    let text = std::fs::read_to_string(here().join("programs")).unwrap();
    text.lines().map(str::to_string).filter(|line| !line.is_empty()).collect()
}

/// Runs a program to its end, which must come within the limit and be no crash.
fn run(program: &Path, input: &[u8]) -> Vec<u8> {
    let mut child = Command::new(program)
        .stdin(Stdio::piped())
        .stdout(Stdio::piped())
        .spawn()
        .unwrap_or_else(|_| panic!("{} is built by rt", program.display()));
    let mut stdin = child.stdin.take().unwrap();
    let mut stdout = child.stdout.take().unwrap();
    let reader = std::thread::spawn(move || {
        let mut output = Vec::new();
        stdout.read_to_end(&mut output).map(|_| output)
    });
    // A program that has read enough may end before it has read all.
    let _ = stdin.write_all(input);
    drop(stdin);
    let begun = Instant::now();
    let status = loop {
        if let Some(status) = child.try_wait().unwrap() {
            break status;
        }
        if begun.elapsed() > LIMIT {
            child.kill().unwrap();
            panic!("{} does not end", program.display());
        }
        std::thread::sleep(Duration::from_micros(200));
    };
    assert!(status.success(), "{}: {status}", program.display());
    reader.join().unwrap().unwrap()
}

#[test]
fn the_programs_end_and_print_what_they_must() {
    for name in listed() {
        let program = programs::named(&name).unwrap_or_else(|| panic!("no judge of {name}"));
        let binary = here().join("../target/bin").join(&name);
        for (file, input) in corpus(&name) {
            let output = run(&binary, &input);
            program.judge(&input, &output).unwrap_or_else(|fault| panic!("{name}/{file}: {fault}"));
        }
    }
}

#[test]
fn the_exported_call_gives_what_it_must() {
    for (file, input) in corpus("exported") {
        exported::judge(trackvesper_close_book, &input)
            .unwrap_or_else(|fault| panic!("exported/{file}: {fault}"));
    }
}

#[test]
fn the_calls_for_makers_lists_give_what_they_must() {
    for (file, input) in corpus("read_triples") {
        triples::judge_reading(CALLS, &input)
            .unwrap_or_else(|fault| panic!("read_triples/{file}: {fault}"));
    }
    for (file, input) in corpus("write_triples") {
        triples::judge_writing(CALLS, &input)
            .unwrap_or_else(|fault| panic!("write_triples/{file}: {fault}"));
    }
}

/// Reading that leaves a byte in the last place of the text lane.
unsafe extern "C" fn leaves_a_byte(
    kind: u8,
    annotation: u64,
    file: *const u8,
    file_length: usize,
    subj: *mut u16,
    subj_length: usize,
    pred: *mut u16,
    pred_length: usize,
    obj: *mut u16,
    obj_length: usize,
    ann: *mut u64,
    ann_length: usize,
    terms: *mut u16,
    terms_length: usize,
    ends: *mut u16,
    ends_length: usize,
    text: *mut u8,
    text_length: usize,
) -> u64 {
    let answer = trackvesper_read_triples(
        kind,
        annotation,
        file,
        file_length,
        subj,
        subj_length,
        pred,
        pred_length,
        obj,
        obj_length,
        ann,
        ann_length,
        terms,
        terms_length,
        ends,
        ends_length,
        text,
        text_length,
    );
    if text_length > 0 {
        *text.add(text_length - 1) ^= 1;
    }
    answer
}

/// Writing that changes the last byte of the output, written or not.
unsafe extern "C" fn changes_a_byte(
    kind: u8,
    subj: *const u16,
    subj_length: usize,
    pred: *const u16,
    pred_length: usize,
    obj: *const u16,
    obj_length: usize,
    ann: *const u64,
    ann_length: usize,
    count: usize,
    terms: *const u16,
    terms_length: usize,
    ends: *const u16,
    ends_length: usize,
    text: *const u8,
    text_length: usize,
    names: usize,
    out: *mut u8,
    out_length: usize,
) -> u64 {
    let answer = trackvesper_write_triples(
        kind,
        subj,
        subj_length,
        pred,
        pred_length,
        obj,
        obj_length,
        ann,
        ann_length,
        count,
        terms,
        terms_length,
        ends,
        ends_length,
        text,
        text_length,
        names,
        out,
        out_length,
    );
    if out_length > 0 {
        *out.add(out_length - 1) ^= 1;
    }
    answer
}

/// Every fault planted between the judge and a call is seen.
#[test]
fn the_judges_of_makers_lists_see_a_changed_lane() {
    let read = Calls { read: leaves_a_byte, ..CALLS };
    let write = Calls { write: changes_a_byte, ..CALLS };
    for (file, input) in corpus("read_triples") {
        if inputs::reading(&input).names.text.is_empty() {
            continue;
        }
        assert!(triples::judge_reading(read, &input).is_err(), "read_triples/{file}");
    }
    for (file, input) in corpus("write_triples") {
        if inputs::writing(&input).out.is_empty() {
            continue;
        }
        assert!(triples::judge_writing(write, &input).is_err(), "write_triples/{file}");
    }
}
