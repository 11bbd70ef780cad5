//! Cases on which the two once differed, kept after the difference was settled, and the corners
//! that no random table should be trusted to meet.

use trial::table::{Lanes, Row};

/// A kind, lanes, a count and a row to add.
pub type Adding = (u8, Lanes, usize, Row);

/// Lanes with these rows in front and room for so many.
pub fn lanes(rows: &[Row], room: usize) -> Lanes {
    let mut lanes = Lanes::zero(room);
    for (at, row) in rows.iter().enumerate() {
        lanes.put(at, *row);
    }
    lanes
}

/// A line on sheet 0 alone, on sheet 1 alone, and what needs both.
pub const SHEET_0: u64 = 0xAAAA_AAAA_AAAA_AAAA;
pub const SHEET_1: u64 = 0xCCCC_CCCC_CCCC_CCCC;
pub const SHEETS_0_AND_1: u64 = 0x8888_8888_8888_8888;

pub fn addings() -> Vec<Adding> {
    let lamp = (10, 2, 11);
    vec![
        // P2: two runs of years stay two.
        (1, lanes(&[(lamp, 7)], 1), 1, (lamp, 224)),
        // An equal triple joins on a full table, another finds no room.
        (1, lanes(&[(lamp, 7)], 1), 1, ((10, 2, 12), 224)),
        // Room 0.
        (1, lanes(&[], 0), 0, (lamp, 1)),
        // The largest terms and annotation that are legal.
        (5, lanes(&[], 1), 0, ((65_534, 16_383, 65_534), u64::MAX)),
        // A value as predicate is 9, beside 65,535 it is 8 (C-17).
        (3, lanes(&[], 1), 0, ((10, 49_152, 11), 800)),
        (3, lanes(&[], 1), 0, ((10, 49_152, 65_535), 800)),
        // Kind 2 is gone; in kind 5 10 before 28, and both before 12.
        (2, lanes(&[], 1), 0, (lamp, 1)),
        (5, lanes(&[], 0), 0, (lamp, 0)),
        (5, lanes(&[], 0), 0, (lamp, 2)),
        (5, lanes(&[], 0), 0, (lamp, SHEET_0)),
        (5, lanes(&[(lamp, SHEET_0)], 1), 1, (lamp, SHEET_1)),
        // 8 before 9 before 10, wherever 65,535 stands.
        (3, lanes(&[], 1), 0, ((10, 16_384, 65_535), 0)),
        (3, lanes(&[], 1), 0, ((10, 16_384, 11), 1001)),
        (4, lanes(&[], 1), 0, ((10, 2, 11), 1001)),
    ]
}

/// The document's listing: a lamp of class 11 in some years, class 11 within 12 in others.
pub fn p1() -> Vec<u8> {
    [head(1, 1, 2000), field(10, 2, 11, 0x78), field(11, 1, 12, 0x7E0)].concat()
}

fn head(edition: u8, kind: u8, base: u16) -> Vec<u8> {
    [&[1, 0, 4, edition, kind][..], &base.to_be_bytes()].concat()
}

/// Edition 2's, with the rule set.
fn long_head(edition: u8, kind: u8, base: u16, rules: u8) -> Vec<u8> {
    [&[1, 0, 5, edition, kind][..], &base.to_be_bytes(), &[rules]].concat()
}

fn field(s: u16, p: u16, o: u16, a: u64) -> Vec<u8> {
    let terms = [s, p, o].map(u16::to_be_bytes).concat();
    [&[3, 0, 14][..], &terms, &a.to_be_bytes()].concat()
}

/// A name, the bytes, the room lent, and the number and place that reading must give.
pub type Book = (&'static str, Vec<u8>, usize, u32, u64);

pub fn books() -> Vec<Book> {
    let good = head(1, 1, 2000);
    let one = field(10, 2, 11, 1);
    let behind = |bytes: &[&[u8]]| [&good[..], &bytes.concat()].concat();
    vec![
        ("P1", p1(), 2, 0, 0),
        ("a head alone, no room", good.clone(), 0, 0, 0),
        ("1: 40 bytes of P1", p1()[..40].to_vec(), 2, 1, 24),
        ("1: one byte", vec![1], 2, 1, 0),
        ("1: cut in the head's value", good[..6].to_vec(), 2, 1, 0),
        ("1: cut before the tag is judged", behind(&[&[9, 0, 1]]), 2, 1, 7),
        ("1: two bytes behind a field", behind(&[&one, &[3, 0]]), 2, 1, 24),
        ("2: empty", vec![], 2, 2, 0),
        ("2: a triple first", one.clone(), 2, 2, 0),
        ("2: a head of length 5", vec![1, 0, 5, 1, 1, 7, 208, 0], 2, 2, 0),
        ("2: a second head", behind(&[&one, &good]), 2, 2, 24),
        ("2: a second head of another length", behind(&[&[1, 0, 0]]), 2, 2, 7),
        ("3: edition 3", head(3, 1, 2000), 2, 3, 0),
        ("3 before 4 and 5", head(0, 9, 1), 2, 3, 0),
        ("4: kind 0", head(1, 0, 0), 2, 4, 0),
        ("4: kind 2", head(1, 2, 0), 2, 4, 0),
        ("4: kind 6", head(1, 6, 2000), 2, 4, 0),
        ("5: 2000 in kind 5", head(1, 5, 2000), 2, 5, 0),
        ("10: bottom in kind 5", book(5, &[(10, 2, 11, 0)]), 2, 10, 7),
        ("28: sheet 0 and not sheets 0 and 1", book(5, &[(10, 2, 11, 2)]), 2, 28, 7),
        ("28: no sheet, and not every other", book(5, &[(10, 2, 11, 1)]), 2, 28, 7),
        ("all six sheets", book(5, &[(10, 2, 11, 1 << 63)]), 2, 0, 0),
        ("any one sheet", book(5, &[(10, 2, 11, u64::MAX - 1)]), 2, 0, 0),
        ("8 before 28", book(5, &[(10, 2, 65_535, 2)]), 2, 8, 7),
        ("28 before 12", book(5, &[(10, 2, 11, SHEET_0), (10, 2, 12, 2)]), 1, 28, 24),
        ("5: 1899 in kind 1", head(1, 1, 1899), 2, 5, 0),
        ("5: 2101 in kind 1", head(1, 1, 2101), 2, 5, 0),
        ("5: 2000 in kind 3", head(1, 3, 2000), 2, 5, 0),
        ("6: tag 2", behind(&[&one, &[2, 0, 0]]), 2, 6, 24),
        ("6: unknown tag with a wrong length", behind(&[&[255, 0, 1, 0]]), 2, 6, 7),
        ("7: length 13", behind(&[&one, &[3, 0, 13], &[0; 13]]), 2, 7, 24),
        ("8: subject", behind(&[&field(65_535, 2, 11, 1)]), 2, 8, 7),
        ("8: predicate", behind(&[&field(10, 65_535, 11, 1)]), 2, 8, 7),
        (
            "9 before the object's 8, in byte order",
            behind(&[&field(10, 16_384, 65_535, 1)]),
            2,
            9,
            7,
        ),
        ("8: object, before the annotation", behind(&[&field(10, 2, 65_535, 0)]), 2, 8, 7),
        ("10: bottom", behind(&[&one, &field(10, 2, 12, 0)]), 2, 10, 24),
        ("C-17: a limit of 500 mA", book(3, &[(10, 20, 49_652, 800)]), 8, 0, 0),
        ("C-17: the ends of the values", book(3, &[(65_534, 20, 49_152, 800)]), 8, 0, 0),
        (
            "C-17: a value as predicate, before the object",
            book(3, &[(10, 49_152, 65_535, 800)]),
            8,
            9,
            7,
        ),
        ("C-17: 65,535 as predicate", book(3, &[(10, 65_535, 11, 800)]), 8, 8, 7),
        ("C-17: 65,535 as object, not 10", book(3, &[(10, 20, 65_535, 0)]), 8, 8, 7),
        ("12: no room", behind(&[&one, &field(10, 2, 12, 1)]), 1, 12, 24),
        (
            "12 before a fault in a later field",
            behind(&[&one, &field(10, 2, 12, 1), &[9, 0, 0]]),
            1,
            12,
            24,
        ),
        ("an equal triple joins on a full table", behind(&[&one, &field(10, 2, 11, 2)]), 1, 0, 0),
    ]
}

/// Books of edition 2, and heads on the way to it (C-23).
pub fn books_of_edition_2() -> Vec<Book> {
    let good = long_head(2, 1, 2000, 2);
    let one = field(10, 2, 11, 1);
    let behind = |bytes: &[&[u8]]| [&good[..], &bytes.concat()].concat();
    vec![
        ("rule set 2", good.clone(), 0, 0, 0),
        ("rule set 1", long_head(2, 1, 2000, 1), 0, 0, 0),
        ("36: rule set 3", long_head(2, 1, 2000, 3), 2, 36, 0),
        ("36: rule set 0", long_head(2, 5, 0, 0), 2, 36, 0),
        ("36: rule set 255", long_head(2, 3, 0, 255), 2, 36, 0),
        ("2: length 5 in edition 1", long_head(1, 1, 2000, 1), 2, 2, 0),
        ("2: length 4 in edition 2", head(2, 1, 2000), 2, 2, 0),
        ("3: length 5 in edition 3", long_head(3, 1, 2000, 2), 2, 3, 0),
        ("3: length 5 in edition 0", long_head(0, 1, 2000, 2), 2, 3, 0),
        ("2: length 6 in edition 3", vec![1, 0, 6, 3, 1, 7, 208, 2, 0], 2, 2, 0),
        ("2: length 6 in edition 2", vec![1, 0, 6, 2, 1, 7, 208, 2, 0], 2, 2, 0),
        ("2: length 3", vec![1, 0, 3, 2, 1, 7], 2, 2, 0),
        ("2: a length that does not suit, before 4", long_head(1, 2, 2000, 9), 2, 2, 0),
        ("2: the same in edition 2", head(2, 2, 1), 2, 2, 0),
        ("4 before 36", long_head(2, 2, 2000, 3), 2, 4, 0),
        ("5 before 36", long_head(2, 1, 0, 3), 2, 5, 0),
        ("5: 2000 in kind 5", long_head(2, 5, 2000, 2), 2, 5, 0),
        ("1: cut before the rule set", good[..7].to_vec(), 2, 1, 0),
        ("2: another tag", [&[2][..], &good[1..]].concat(), 2, 2, 0),
        ("1: one byte behind the head", behind(&[&[3]]), 2, 1, 8),
        (
            "36 before a fault behind the head",
            [&long_head(2, 1, 2000, 3)[..], &[9]].concat(),
            2,
            36,
            0,
        ),
        ("2: a second head at 8", behind(&[&good]), 2, 2, 8),
        ("2: edition 1's as the second", behind(&[&one, &head(1, 1, 2000)]), 2, 2, 25),
        ("6: at 8", behind(&[&[2, 0, 0]]), 2, 6, 8),
        ("7: at 25", behind(&[&one, &[3, 0, 13], &[0; 13]]), 2, 7, 25),
        ("8: at 8", behind(&[&field(65_535, 2, 11, 1)]), 2, 8, 8),
        ("10: at 25", behind(&[&one, &field(10, 2, 12, 0)]), 2, 10, 25),
        ("12: at 25", behind(&[&one, &field(10, 2, 12, 1)]), 1, 12, 25),
        ("28: at 8", [long_head(2, 5, 0, 2), field(10, 2, 11, 2)].concat(), 2, 28, 8),
    ]
}

fn book(kind: u8, rows: &[(u16, u16, u16, u64)]) -> Vec<u8> {
    let base = if kind == 1 { 2000 } else { 0 };
    let fields = rows.iter().map(|(s, p, o, a)| field(*s, *p, *o, *a));
    [head(1, kind, base), fields.collect::<Vec<_>>().concat()].concat()
}

/// The same in edition 2 with rule set 2.
fn book_2(kind: u8, rows: &[(u16, u16, u16, u64)]) -> Vec<u8> {
    let one = book(kind, rows);
    let base = u16::from_be_bytes([one[5], one[6]]);
    [&long_head(2, kind, base, 2)[..], &one[7..]].concat()
}

/// A name, a book, and what the closing program must write for it.
pub type Listing = (&'static str, Vec<u8>, &'static str);

pub fn listings() -> Vec<Listing> {
    let top = 1000;
    vec![
        ("P1", p1(), "closed 1 2000 3\n10 2 11 120\n10 2 12 96\n11 1 12 2016\n"),
        ("P2", book(1, &[(10, 2, 11, 7), (10, 2, 11, 224)]), "closed 1 2000 1\n10 2 11 231\n"),
        (
            "P3",
            book(1, &[(10, 2, 11, 7), (11, 1, 12, 224)]),
            "closed 1 2000 2\n10 2 11 7\n11 1 12 224\n",
        ),
        (
            "P4, kind 3",
            book(3, &[(10, 2, 11, 700), (11, 1, 12, 500)]),
            "closed 3 0 3\n10 2 11 700\n10 2 12 500\n11 1 12 500\n",
        ),
        (
            "P4, kind 4",
            book(4, &[(10, 2, 11, 700), (11, 1, 12, 500)]),
            "closed 4 0 3\n10 2 11 700\n10 2 12 200\n11 1 12 500\n",
        ),
        (
            "P5",
            book(4, &[(10, 2, 11, 400), (11, 1, 12, 600)]),
            "closed 4 0 2\n10 2 11 400\n11 1 12 600\n",
        ),
        (
            "P6",
            book(4, &[(10, 2, 11, 900), (11, 1, 13, 800), (10, 2, 12, 1000), (12, 1, 13, 600)]),
            "closed 4 0 5\n10 2 11 900\n10 2 12 1000\n10 2 13 700\n11 1 13 800\n12 1 13 600\n",
        ),
        (
            "P7",
            book(3, &[(20, 0, 16_384, top), (16_384, 3, 12, 900), (10, 20, 30, 800)]),
            "closed 3 0 4\n10 2 12 800\n10 20 30 800\n20 0 16384 1000\n16384 3 12 900\n",
        ),
        (
            "P8",
            book(3, &[(0, 0, 40, top), (20, 0, 21, top)]),
            "closed 3 0 4\n0 0 40 1000\n0 40 40 1000\n20 0 21 1000\n20 40 21 1000\n",
        ),
        (
            "P9",
            book(3, &[(5, 1, 6, 600), (6, 1, 5, 400)]),
            "closed 3 0 4\n5 1 5 400\n5 1 6 600\n6 1 5 400\n6 1 6 400\n",
        ),
        (
            "P10",
            book(3, &[(20, 4, 12, top), (10, 20, 32_769, top)]),
            "closed 3 0 3\n10 20 32769 1000\n20 4 12 1000\n32769 2 12 1000\n",
        ),
        (
            "C-17: the range of a value",
            book(3, &[(20, 4, 12, 900), (10, 20, 49_652, 800)]),
            "closed 3 0 3\n10 20 49652 800\n20 4 12 900\n49652 2 12 800\n",
        ),
        (
            "C-17: P7 through a value",
            book(3, &[(20, 0, 49_152, top), (49_152, 3, 12, 900), (10, 20, 30, 800)]),
            "closed 3 0 4\n10 2 12 800\n10 20 30 800\n20 0 49152 1000\n49152 3 12 900\n",
        ),
        (
            "two sheets prove a line together",
            book(5, &[(10, 2, 11, SHEET_0), (11, 1, 12, SHEET_1)]),
            "closed 5 0 3\n10 2 11 12297829382473034410\n10 2 12 9838263505978427528\n\
             11 1 12 14757395258967641292\n",
        ),
        (
            "or a third does",
            book(
                5,
                &[(10, 2, 11, SHEET_0), (11, 1, 12, SHEET_1), (10, 2, 12, 0xF0F0_F0F0_F0F0_F0F0)],
            ),
            "closed 5 0 3\n10 2 11 12297829382473034410\n10 2 12 17940362863843014904\n\
             11 1 12 14757395258967641292\n",
        ),
        ("28", book(5, &[(10, 2, 11, 2)]), "refused 28 7\n"),
        ("nothing", vec![], "refused 2 0\n"),
        ("40 bytes of P1", p1()[..40].to_vec(), "refused 1 24\n"),
        ("too long", vec![0; 65_536], "refused 13 0\n"),
        ("a head alone", head(1, 5, 0), "closed 5 0 0\n"),
        ("a head of kind 2", head(1, 2, 0), "refused 4 0\n"),
    ]
}

/// P1's book in edition 2 with rule set 2.
pub fn p1_in_rule_set_2() -> Vec<u8> {
    book_2(1, &[(10, 2, 11, 0x78), (11, 1, 12, 0x7E0)])
}

/// In rule set 2 (C-23), and edition 2 with rule set 1 beside it.
pub fn listings_of_rule_set_2() -> Vec<Listing> {
    let top = 1000;
    vec![
        (
            "P1",
            p1_in_rule_set_2(),
            "closed 1 2000 8\n0 0 0 2040\n1 0 1 2040\n2 0 2 120\n10 2 11 120\n10 2 12 96\n\
             11 1 11 2040\n11 1 12 2016\n12 1 12 2016\n",
        ),
        (
            "P1 in edition 2, rule set 1",
            [&long_head(2, 1, 2000, 1)[..], &p1()[7..]].concat(),
            "closed 1 2000 3\n10 2 11 120\n10 2 12 96\n11 1 12 2016\n",
        ),
        (
            "two blanks",
            book_2(3, &[(16_384, 0, 16_385, 600)]),
            "closed 3 0 4\n0 0 0 600\n16384 0 16384 600\n16384 0 16385 600\n16385 0 16385 600\n",
        ),
        (
            "P9",
            book_2(3, &[(5, 1, 6, 600), (6, 1, 5, 400)]),
            "closed 3 0 6\n0 0 0 600\n1 0 1 600\n5 1 5 600\n5 1 6 600\n6 1 5 400\n6 1 6 600\n",
        ),
        (
            "a domain",
            book_2(3, &[(20, 3, 12, 700)]),
            "closed 3 0 6\n0 0 0 700\n1 0 1 700\n3 0 3 700\n12 1 12 700\n20 0 20 700\n20 3 12 700\n",
        ),
        (
            "a use, in strict degrees",
            book_2(4, &[(10, 20, 30, 400)]),
            "closed 4 0 3\n0 0 0 400\n10 20 30 400\n20 0 20 400\n",
        ),
        (
            "a class that is a value, of a sheet",
            book_2(5, &[(10, 2, 49_152, SHEETS_0_AND_1)]),
            "closed 5 0 5\n0 0 0 9838263505978427528\n1 0 1 9838263505978427528\n\
             2 0 2 9838263505978427528\n10 2 49152 9838263505978427528\n\
             49152 1 49152 9838263505978427528\n",
        ),
        (
            "a range, and sp of its own",
            book_2(3, &[(20, 4, 32_768, top), (0, 0, 40, top)]),
            "closed 3 0 14\n0 0 0 1000\n0 0 40 1000\n0 40 0 1000\n0 40 40 1000\n1 0 1 1000\n\
             1 40 1 1000\n4 0 4 1000\n4 40 4 1000\n20 0 20 1000\n20 4 32768 1000\n20 40 20 1000\n\
             40 0 40 1000\n40 40 40 1000\n32768 1 32768 1000\n",
        ),
        ("a head alone", long_head(2, 5, 0, 2), "closed 5 0 0\n"),
        ("36", long_head(2, 5, 0, 3), "refused 36 0\n"),
        ("2", long_head(1, 5, 0, 2), "refused 2 0\n"),
        ("3", long_head(3, 5, 0, 2), "refused 3 0\n"),
    ]
}
