//! The exported call: an input is the output's length in two bytes, high byte first, then the book.

use crate::programs::REFUSALS;
use crate::{must, Fault};
use trial::export;

/// The call itself, as C sees it.
pub type Call = unsafe extern "C" fn(*const u8, usize, *mut u8, usize) -> u64;

/// The longest closed book: 8 + 17 * 1,024 bytes, in rule set 2.
const LONGEST: usize = 17_416;

/// Calls it on a book and an output of exactly their own lengths.
fn close(call: Call, book: &[u8], out: &mut [u8]) -> u64 {
    // The two are as long as said and do not overlap: all that the call asks for.
    unsafe { call(book.as_ptr(), book.len(), out.as_mut_ptr(), out.len()) }
}

/// Bytes that no closed book is likely to hold in the same order.
fn pattern(length: usize) -> Vec<u8> {
    (0..length).map(|at| (at * 151 + 77) as u8).collect()
}

/// The length of the head that a written book begins with: edition 1, or edition 2 with rule set 2.
fn head_length(written: &[u8]) -> Option<usize> {
    match written {
        [1, 0, 4, 1, ..] => Some(7),
        [1, 0, 5, 2, _, _, _, 2, ..] => Some(8),
        _ => None,
    }
}

/// Hands the input over and judges what comes back.
pub fn judge(call: Call, input: &[u8]) -> Result<(), Fault> {
    let (room, book) = match input {
        [high, low, book @ ..] => (usize::from(*high) * 256 + usize::from(*low), book),
        _ => (LONGEST, input),
    };
    // A block of its own, so that a byte read past its end is seen.
    let book = book.to_vec().into_boxed_slice();
    let before = pattern(room);
    let mut out = before.clone().into_boxed_slice();
    let answer = close(call, &book, &mut out);
    let (number, rest) = (answer >> 32, (answer & 0xFFFF_FFFF) as usize);
    let said = || format!("answer {number} * 2^32 + {rest}, output of {room} bytes");

    if number != 0 {
        must(REFUSALS.contains(&number), || format!("no such refusal: {}", said()))?;
        must(rest == 0 || rest < book.len(), || format!("place outside the book: {}", said()))?;
        must(out[..] == before[..], || format!("refused, and output changed: {}", said()))?;
    } else {
        must(rest <= room && rest <= LONGEST, || format!("no length of a book: {}", said()))?;
        let head = head_length(&out[..rest]).ok_or_else(|| format!("no head: {}", said()))?;
        must(rest >= head && (rest - head) % 17 == 0, || {
            format!("no length of a book: {}", said())
        })?;
        must(out[rest..] == before[rest..], || format!("changed past the length: {}", said()))?;
        // What was written is a book, and closed: it comes back as it is.
        let written = out[..rest].to_vec().into_boxed_slice();
        let mut again = vec![0; rest].into_boxed_slice();
        let answer = close(call, &written, &mut again);
        must(answer == rest as u64 && again == written, || {
            format!("its own output closes to something else, {answer}: {}", said())
        })?;
    }

    let mut model_out = before.clone();
    let model = export::close_book(&book, &mut model_out);
    must(model == answer, || {
        format!("model {} * 2^32 + {}: {}", model >> 32, model as u32, said())
    })?;
    must(model_out[..] == out[..], || format!("the model's output differs: {}", said()))
}
