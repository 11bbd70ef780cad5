//! The call exported to the tester's C host.

use crate::table::Lanes;
use crate::{book, closing};

/// The rows there is room for.
pub const ROOM: usize = 1024;

/// Takes a book and writes it closed under its rule set: the length written, or number x 2^32 +
/// place with the output untouched.
pub fn close_book(book: &[u8], out: &mut [u8]) -> u64 {
    let mut lanes = Lanes::zero(ROOM);
    let read = book::read(book, &mut lanes);
    if read.number != 0 {
        return refused(read.number, read.place);
    }
    let closed = closing::close(read.kind, read.rules, &mut lanes, read.count);
    if closed.number != 0 {
        return refused(closed.number, closed.place);
    }
    let written = book::write(read.kind, read.base, read.rules, &lanes, closed.count, out);
    if written.number != 0 {
        return refused(written.number, written.place);
    }
    written.length as u64
}

fn refused(number: u32, place: u64) -> u64 {
    (u64::from(number) << 32) | (place & 0xFFFF_FFFF)
}
