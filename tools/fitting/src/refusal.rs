//! The numbers given back: what each means for a text, and the document's words for it.

use crate::calls::Refusal;
use crate::head::Head;
use crate::text::Text;

/// What was refused.
#[derive(Clone, Copy, Debug, PartialEq, Eq)]
pub enum Refused {
    /// The book of a text, in reading or closing.
    Book,
    /// A book that is bytes, in reading.
    Bytes,
    Question,
    /// A makers' list.
    List,
}

/// The document's words for a number.
pub fn words(number: u32) -> &'static str {
    match number {
        0 => "done",
        1 => "book ends inside a field",
        2 => "no head first (empty book included), length neither 4 nor 5 or not the edition's, second head",
        3 => "edition",
        4 => "kind",
        5 => "base year",
        6 => "tag neither 1 nor 3 after the head",
        7 => "length not 14",
        8 => "the term 65,535",
        9 => "predicate not a name",
        10 => "annotation illegal",
        11 => "lanes unequal or too long; answer lanes unfit; under 48 records lent",
        12 => "no room",
        13 => "book over 65,535 bytes",
        14 => "count over lane length",
        15 => "row not above the one before",
        16 => "question field doesn't fit its holder; a part or test missing; bytes left over in a holder",
        17 => "tag not allowed there",
        18 => "wrong length, slot mark or test mark",
        19 => "variable number too large",
        20 => "a 33rd part",
        21 => "test names a variable not surely bound by its own part",
        22 => "test's annotation variable also stands in a TRIPLE outside that part",
        23 => "step count 0, over 48 or over the records lent; else the first step illegal for the kind, or the last not GIVE",
        24 => "looks used up: a look is due and none is left",
        26 => "line not N-Triples",
        27 => "names or text full",
        28 => "annotation misses a larger combination",
        36 => "rule set unknown",
        39 => "a row with a literal subject or a term without a text",
        _ => "a number that the document does not have",
    }
}

/// The document's word for the place of a number, if it gives it one in what was refused.
pub fn place_word(refused: Refused, refusal: Refusal) -> Option<&'static str> {
    match (refused, refusal.number) {
        // Reading's 12 is at its field, which is never the head; closing's has no place.
        (Refused::Book | Refused::Bytes, 12) if refusal.place > 0 => Some("field"),
        (Refused::Book | Refused::Bytes, 1..=10 | 28 | 36) => Some("field"),
        (Refused::Question, 8..=10 | 17..=20 | 28) => Some("field"),
        (Refused::Question, 16) => Some("field or holder"),
        (Refused::Question, 21 | 22) => Some("ONLY field"),
        (Refused::List, 12 | 26 | 27) => Some("line"),
        _ => None,
    }
}

/// What a refusal means for someone who wrote a text, or who has bytes.
pub fn advice(refused: Refused, refusal: Refusal) -> Option<&'static str> {
    let advice = match (refused, refusal.number) {
        (Refused::Bytes, _) => return of_bytes(refusal),
        (Refused::Book, 2) => "a text has one line that says the kind, and it comes first: kind years from 2000",
        (Refused::Book, 5) => "the first year of a book is from 1900 to 2100",
        (Refused::Book | Refused::Question, 9) => "the relation is a name, not a quoted text or a blank",
        (_, 10) => "degrees are from 1 to 1000",
        (_, 28) => "where some sheets are enough, so are more of them: the bytes leave out a larger combination",
        (Refused::Book, 12) if refusal.place > 0 => "there is room for 1,024 rows, and this line would be one more",
        (Refused::Book, 12) => "there is room for 1,024 rows, and more than that follow from this book: write a book for each maker, or fewer classes",
        (Refused::Book, 36) => "there are two rule sets, 1 and 2: write rules 2 behind the kind, or leave it out for rule set 1",
        (Refused::Book, 13) => "a book has room for 3,854 lines; the same line written twice counts twice",
        (Refused::Question, 12) => "there are more than 256 answers; these are the first 256",
        (_, 19) => "a question has at most 16 variables for names and 8 that say when",
        (_, 20) => "a part is each SUBJECT RELATION OBJECT WHEN, each `and` or `or` between them, and each test; there are at most 32",
        (_, 21) => "a variable of the test stands nowhere before its `where`, or on one side of an `or` only",
        (_, 22) => "a variable tested by `covers` or `>=` stands also outside the parentheses that the test is in: test it at the end of the question, or use another variable there",
        (_, 24) => "the looks allowed are used up, and there may be more answers: allow more (--looks N), or ask more narrowly",
        (Refused::List, 12) => "a makers' list has room for 1,024 rows, and this line would be one more",
        (Refused::List, 13) => "a line of a makers' list is over 65,535 bytes",
        (Refused::List, 26) => "this line is not N-Triples",
        (Refused::List, 27) => "the texts of this line are over 32,768 bytes",
        (Refused::List, 39) => "a quoted text is no subject in N-Triples",
        _ => return None,
    };
    Some(advice)
}

/// The same for a book that is bytes: no line of a text can be written otherwise there.
fn of_bytes(refusal: Refusal) -> Option<&'static str> {
    let advice = match refusal.number {
        1 => "the bytes of the book are cut short",
        2 if refusal.place > 0 => "a book has one head, and this is a second",
        2 => "a book begins with its head (tag 1), which is 4 long in edition 1 and 5 long in edition 2",
        3 => "there are two editions of books, 1 and 2, and the head says another",
        4 | 6 | 7 | 8 => "these are not the bytes of a book",
        5 => "the first year of a book is from 1900 to 2100, and 0 in a kind without years",
        9 => "the relation is a name, not a quoted text or a blank",
        10 => "a row holds to a degree from 1 to 1000, or in at least one year or combination of sheets",
        12 => "there is room for 1,024 rows, and this row would be one more",
        13 => "a book is at most 65,535 bytes long",
        28 => "where some sheets are enough, so are more of them: the bytes leave out a larger combination",
        36 => "there are two rule sets, 1 and 2, and the head says another",
        _ => return None,
    };
    Some(advice)
}

/// What is added to the advice where the book has `rules 2`. In reading nothing follows yet.
fn of_reflexive_lines(refused: Refused, refusal: Refusal) -> Option<&'static str> {
    match (refused, refusal.number, refusal.place) {
        (Refused::Book, 12, 0) => {
            Some("; with `rules 2` reflexive lines (A within A, A implies A) take rows too")
        }
        (Refused::Question, 12, _) => {
            Some("; with `rules 2` reflexive lines (A within A, A implies A) can answer too")
        }
        _ => None,
    }
}

/// A refusal for a person: what to do, the line it is about, and the document's number with its
/// words. The head is that of the text, where there is one.
pub fn written(
    file: &str,
    line: Option<usize>,
    source: Option<&str>,
    head: Option<Head>,
    refused: Refused,
    refusal: Refusal,
) -> String {
    let Refusal { number, place } = refusal;
    let at = line.map_or(file.to_string(), |line| format!("{file}:{line}"));
    let what = advice(refused, refusal).unwrap_or("this is refused");
    let by_rules = head.filter(|head| head.is_reflexive());
    let more = by_rules.and_then(|_| of_reflexive_lines(refused, refusal)).unwrap_or_default();
    let mut shown = format!("{at}: {what}{more}\n");
    if let Some(source) = source.filter(|source| !source.trim().is_empty()) {
        shown += &format!("    {}\n", source.trim_start());
    }
    let byte = place_word(refused, refusal)
        .map_or(String::new(), |word| format!(", {word} at byte {place}"));
    shown + &format!("    (refused {number}{byte}: {})\n", words(number))
}

/// A refusal of a text's book, at the line that wrote the field.
pub fn of_book(file: &str, text: &Text, refusal: Refusal) -> String {
    let place = place_word(Refused::Book, refusal).map(|_| refusal.place);
    let line = place.and_then(|place| text.book.line_at(place));
    let source = line.map(|line| text.lines.line(line));
    written(file, line, source, text.head, Refused::Book, refusal)
}
