//! What the harnesses in C call. A fault is printed and ends the process, and the fuzzer keeps the input.

use crate::exported::{self, Call};
use crate::programs::{self, Program};
use crate::triples::{self, Calls, Read, Write};
use crate::Fault;
use std::ffi::{c_char, c_int, CStr};

fn settle(judged: Result<(), Fault>) {
    if let Err(fault) = judged {
        eprintln!("fault: {fault}");
        std::process::abort();
    }
}

/// # Safety
/// `bytes` are `length` bytes.
unsafe fn lent<'a>(bytes: *const u8, length: usize) -> &'a [u8] {
    if length == 0 {
        return &[];
    }
    std::slice::from_raw_parts(bytes, length)
}

/// # Safety
/// `name` ends in a zero byte.
unsafe fn program(name: *const c_char) -> &'static Program {
    let name = CStr::from_ptr(name).to_str().unwrap_or_default();
    programs::named(name).expect("the harness is built for one of the programs")
}

/// # Safety
/// `input` are `length` bytes, and `name` ends in a zero byte.
#[no_mangle]
pub unsafe extern "C" fn fuzz_ends_soon(
    name: *const c_char,
    input: *const u8,
    length: usize,
) -> c_int {
    c_int::from((program(name).ends_soon)(lent(input, length)))
}

/// # Safety
/// `input` and `output` are as many bytes as said, and `name` ends in a zero byte.
#[no_mangle]
pub unsafe extern "C" fn fuzz_judge_program(
    name: *const c_char,
    input: *const u8,
    length: usize,
    output: *const u8,
    written: usize,
) {
    settle(program(name).judge(lent(input, length), lent(output, written)));
}

/// # Safety
/// `call` is the exported call, and `input` are `length` bytes.
#[no_mangle]
pub unsafe extern "C" fn fuzz_judge_exported(call: Call, input: *const u8, length: usize) {
    settle(exported::judge(call, lent(input, length)));
}

/// # Safety
/// `read` and `write` are the exported calls, and `input` are `length` bytes.
#[no_mangle]
pub unsafe extern "C" fn fuzz_judge_reading(
    read: Read,
    write: Write,
    input: *const u8,
    length: usize,
) {
    settle(triples::judge_reading(Calls { read, write }, lent(input, length)));
}

/// # Safety
/// `read` and `write` are the exported calls, and `input` are `length` bytes.
#[no_mangle]
pub unsafe extern "C" fn fuzz_judge_writing(
    read: Read,
    write: Write,
    input: *const u8,
    length: usize,
) {
    settle(triples::judge_writing(Calls { read, write }, lent(input, length)));
}
