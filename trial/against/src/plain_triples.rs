//! Makers' lists in plain Rust with hash maps, to measure the proved calls beside: the same checks
//! and the same results, an allocation wherever one is handy.

use std::borrow::Cow;
use std::collections::{HashMap, HashSet};
use trial::ntriples::character::{echar, in_iri, pn_chars, pn_chars_u};
use trial::ntriples::text::{FIVE, XSD_STRING};
use trial::ntriples::{Names, ReadOut, Sort, WriteOut};
use trial::table::{self, Lanes, Triple};
use trial::{annotation, book};

/// A line, and how many of its bytes are taken.
struct Cursor<'a> {
    line: &'a str,
    at: usize,
}

/// A term as it stands in the line: its sort and its text.
type Term<'a> = (Sort, Cow<'a, str>);

impl<'a> Cursor<'a> {
    fn peek(&self) -> Option<u8> {
        self.line.as_bytes().get(self.at).copied()
    }

    fn skip(&mut self, wanted: &[u8]) -> Option<()> {
        self.line.as_bytes()[self.at..].starts_with(wanted).then(|| self.at += wanted.len())
    }

    fn blanks(&mut self) {
        while matches!(self.peek(), Some(b' ' | b'\t')) {
            self.at += 1;
        }
    }

    /// The end of the line, a comment before it or none.
    fn ends(&mut self) -> bool {
        self.blanks();
        matches!(self.peek(), None | Some(b'#'))
    }

    fn triple(&mut self) -> Option<[Term<'a>; 3]> {
        let subject = self.subject()?;
        self.blanks();
        let predicate = self.iri()?;
        self.blanks();
        let object = match self.peek()? {
            b'"' => self.literal()?,
            _ => self.subject()?,
        };
        self.blanks();
        self.skip(b".")?;
        self.ends().then_some([subject, (Sort::Name, predicate), object])
    }

    fn subject(&mut self) -> Option<Term<'a>> {
        match self.peek()? {
            b'_' => Some((Sort::Blank, Cow::Borrowed(self.label()?))),
            _ => Some((Sort::Name, self.iri()?)),
        }
    }

    fn label(&mut self) -> Option<&'a str> {
        self.skip(b"_:")?;
        let size = label_size(&self.line[self.at..])?;
        let label = &self.line[self.at..self.at + size];
        self.at += size;
        Some(label)
    }

    fn iri(&mut self) -> Option<Cow<'a, str>> {
        self.skip(b"<")?;
        let start = self.at;
        let mut unescaped: Option<String> = None;
        loop {
            let one = self.peek()?;
            match one {
                b'>' => break,
                b'\\' => {
                    let before = &self.line[start..self.at];
                    let so_far = unescaped.get_or_insert_with(|| before.to_string());
                    self.at += 1;
                    so_far.push(uchar(self.line, &mut self.at).filter(|one| in_iri(*one))?);
                }
                _ if !in_iri(char::from(one)) => return None,
                _ => {
                    let from = self.at;
                    self.at += 1;
                    while !self.line.is_char_boundary(self.at) {
                        self.at += 1;
                    }
                    if let Some(so_far) = &mut unescaped {
                        so_far.push_str(&self.line[from..self.at]);
                    }
                }
            }
        }
        let iri = unescaped.map_or(Cow::Borrowed(&self.line[start..self.at]), Cow::Owned);
        self.at += 1;
        absolute(&iri).then_some(iri)
    }

    fn literal(&mut self) -> Option<Term<'a>> {
        let mut text = self.string()?;
        self.blanks();
        match self.peek() {
            Some(b'@') => {
                let size = tag_size(&self.line[self.at..])?;
                text.push_str(&self.line[self.at..self.at + size]);
                self.at += size;
            }
            Some(b'^') => {
                self.skip(b"^^")?;
                self.blanks();
                let datatype = self.iri()?;
                if datatype != XSD_STRING {
                    text.extend(["^^<", &datatype, ">"]);
                }
            }
            _ => {}
        }
        Some((Sort::Literal, Cow::Owned(text)))
    }

    /// The string with its quotes, in canonical form.
    fn string(&mut self) -> Option<String> {
        self.skip(b"\"")?;
        let mut text = String::from("\"");
        loop {
            let rest = &self.line[self.at..];
            let raw = rest.find(['"', '\\', '\n', '\r'])?;
            text.push_str(&rest[..raw]);
            self.at += raw + 1;
            match rest.as_bytes()[raw] {
                b'"' => {
                    text.push('"');
                    return Some(text);
                }
                b'\\' => {}
                _ => return None,
            }
            match self.escape()? {
                '"' => text.push_str("\\\""),
                '\\' => text.push_str("\\\\"),
                '\n' => text.push_str("\\n"),
                '\r' => text.push_str("\\r"),
                one => text.push(one),
            }
        }
    }

    /// What stands behind a backslash in a string.
    fn escape(&mut self) -> Option<char> {
        match self.peek()? {
            b'u' | b'U' => uchar(self.line, &mut self.at),
            letter => {
                self.at += 1;
                echar(char::from(letter))
            }
        }
    }
}

/// What stands behind the backslash of a UCHAR.
fn uchar(line: &str, at: &mut usize) -> Option<char> {
    let digits = match line.as_bytes().get(*at)? {
        b'u' => 4,
        b'U' => 8,
        _ => return None,
    };
    let hex = line.as_bytes().get(*at + 1..*at + 1 + digits)?;
    *at += 1 + digits;
    let value = hex.iter().try_fold(0, |value, digit| {
        char::from(*digit).to_digit(16).map(|digit| value * 16 + digit)
    });
    char::from_u32(value?)
}

/// How many bytes the label at the start of this takes.
fn label_size(text: &str) -> Option<usize> {
    let first = text.chars().next().filter(|one| pn_chars_u(*one) || one.is_ascii_digit())?;
    let rest = &text[first.len_utf8()..];
    let run = rest.find(|one| !(pn_chars(one) || one == '.')).unwrap_or(rest.len());
    Some(first.len_utf8() + rest[..run].trim_end_matches('.').len())
}

/// How many bytes the tag at the start of this takes, its mark included.
fn tag_size(text: &str) -> Option<usize> {
    let bytes = text.as_bytes();
    let run = |from: usize, of: fn(&u8) -> bool| {
        let size = bytes[from..].iter().take_while(|byte| of(byte)).count();
        (size > 0).then_some(from + size)
    };
    let mut end = run(1, u8::is_ascii_alphabetic)?;
    while bytes.get(end) == Some(&b'-') {
        end = run(end + 1, u8::is_ascii_alphanumeric)?;
    }
    Some(end)
}

fn absolute(iri: &str) -> bool {
    let inner = |byte: &u8| byte.is_ascii_alphanumeric() || matches!(byte, b'+' | b'-' | b'.');
    let bytes = iri.as_bytes();
    let scheme = bytes.iter().take_while(|byte| inner(byte)).count();
    bytes.first().is_some_and(u8::is_ascii_alphabetic) && bytes.get(scheme) == Some(&b':')
}

/// The texts met so far, by sort.
struct Listed {
    numbers: [HashMap<Vec<u8>, u16>; 3],
    next: [u16; 3],
    terms: Vec<u16>,
    ends: Vec<usize>,
    text: Vec<u8>,
}

impl Listed {
    fn new() -> Listed {
        let five = FIVE.iter().enumerate().map(|(at, iri)| (iri.as_bytes().to_vec(), at as u16));
        Listed {
            numbers: [five.collect(), HashMap::new(), HashMap::new()],
            next: Sort::ALL.map(Sort::first),
            terms: Vec::new(),
            ends: Vec::new(),
            text: Vec::new(),
        }
    }

    fn number(&mut self, (sort, text): &Term) -> u16 {
        let sort = *sort as usize;
        if let Some(number) = self.numbers[sort].get(text.as_bytes()) {
            return *number;
        }
        let number = self.next[sort];
        self.next[sort] += 1;
        self.numbers[sort].insert(text.as_bytes().to_vec(), number);
        self.text.extend(text.bytes());
        self.terms.push(number);
        self.ends.push(self.text.len());
        number
    }
}

pub fn read(kind: u8, ann: u64, file: &[u8], lanes: &mut Lanes, names: &mut Names) -> ReadOut {
    let (number, place) = refusal(kind, ann, file, lanes, names);
    if number != 11 && number != 13 {
        for lane in
            [&mut lanes.subj, &mut lanes.pred, &mut lanes.obj, &mut names.terms, &mut names.ends]
        {
            lane.fill(0);
        }
        lanes.ann.fill(0);
        names.text.fill(0);
    }
    if number != 0 {
        return ReadOut { number, place, count: 0, names: 0 };
    }
    match read_lines(file, lanes.subj.len(), names.terms.len(), names.text.len()) {
        Err((number, place)) => ReadOut { number, place: place as u64, count: 0, names: 0 },
        Ok((triples, listed)) => {
            for (at, triple) in triples.iter().enumerate() {
                lanes.put(at, (*triple, ann));
            }
            for (at, (term, end)) in listed.terms.iter().zip(&listed.ends).enumerate() {
                names.terms[at] = *term;
                names.ends[at] = *end as u16;
            }
            names.text[..listed.text.len()].copy_from_slice(&listed.text);
            ReadOut { number: 0, place: 0, count: triples.len(), names: listed.terms.len() }
        }
    }
}

fn refusal(kind: u8, ann: u64, file: &[u8], lanes: &Lanes, names: &Names) -> (u32, u64) {
    let number = match () {
        () if !annotation::kind_legal(kind) => 4,
        () if !lanes.fit() || !names.fit() => 11,
        () if file.len() > book::LONGEST => 13,
        () => annotation::judge(kind, ann),
    };
    (number, 0)
}

/// The rows in table order and the list; or a number and a place.
fn read_lines(
    file: &[u8],
    rows: usize,
    entries: usize,
    bytes: usize,
) -> Result<(Vec<Triple>, Listed), (u32, usize)> {
    let mut listed = Listed::new();
    let mut triples: HashSet<Triple> = HashSet::new();
    let mut place = 0;
    for run in file.split(|byte| matches!(byte, b'\r' | b'\n')) {
        let line = std::str::from_utf8(run).map_err(|_| (26, place))?;
        let mut cursor = Cursor { line, at: 0 };
        if !cursor.ends() {
            let [subj, pred, obj] = cursor.triple().ok_or((26, place))?;
            let triple = (listed.number(&subj), listed.number(&pred), listed.number(&obj));
            if listed.terms.len() > entries || listed.text.len() > bytes {
                return Err((27, place));
            }
            triples.insert(triple);
            if triples.len() > rows {
                return Err((12, place));
            }
        }
        place += run.len() + 1;
    }
    let mut triples: Vec<Triple> = triples.into_iter().collect();
    triples.sort_unstable();
    Ok((triples, listed))
}

/// Whether reading could give this text for a term of the sort.
fn legal(sort: Sort, text: &[u8]) -> bool {
    let Ok(text) = std::str::from_utf8(text) else {
        return false;
    };
    match sort {
        Sort::Name => text.chars().all(in_iri) && absolute(text),
        Sort::Blank => label_size(text) == Some(text.len()),
        Sort::Literal => {
            let mut cursor = Cursor { line: text, at: 0 };
            let read = if text.starts_with('"') { cursor.literal() } else { None };
            read.is_some_and(|(_, canonical)| canonical == text) && cursor.at == text.len()
        }
    }
}

pub fn write(
    kind: u8,
    lanes: &Lanes,
    count: usize,
    names: &Names,
    listed: usize,
    out: &mut [u8],
) -> WriteOut {
    let refused = |number, place| WriteOut { number, place, length: 0 };
    let verdict = table::check(kind, lanes, count);
    if !verdict.done() {
        return refused(verdict.number, verdict.place);
    }
    if !names.fit() {
        return refused(11, 0);
    }
    if listed > names.terms.len() {
        return refused(14, 0);
    }
    match lines_of(lanes, count, &texts(names, listed)) {
        Err(row) => refused(39, row as u64),
        Ok(bytes) if bytes.len() > out.len() => refused(12, 0),
        Ok(bytes) => {
            out[..bytes.len()].copy_from_slice(&bytes);
            WriteOut { number: 0, place: 0, length: bytes.len() }
        }
    }
}

/// The lines of all rows, or the lowest row that has none.
fn lines_of(
    lanes: &Lanes,
    count: usize,
    texts: &HashMap<u16, Option<&[u8]>>,
) -> Result<Vec<u8>, usize> {
    let mut bytes = Vec::new();
    for at in 0..count {
        if Sort::of(lanes.subj[at]) == Some(Sort::Literal) {
            return Err(at);
        }
        for number in [lanes.subj[at], lanes.pred[at], lanes.obj[at]] {
            let text = texts.get(&number).copied().flatten().ok_or(at)?;
            let (before, behind): (&[u8], &[u8]) = match Sort::of(number) {
                Some(Sort::Name) => (b"<", b"> "),
                Some(Sort::Blank) => (b"_:", b" "),
                _ => (b"", b" "),
            };
            bytes.extend_from_slice(before);
            bytes.extend_from_slice(text);
            bytes.extend_from_slice(behind);
        }
        bytes.extend_from_slice(b".\n");
    }
    Ok(bytes)
}

/// The text of each number of the list, where it has a legal one.
fn texts(names: &Names, listed: usize) -> HashMap<u16, Option<&[u8]>> {
    let five = FIVE.iter().enumerate().map(|(at, iri)| (at as u16, Some(iri.as_bytes())));
    let mut texts: HashMap<u16, Option<&[u8]>> = five.collect();
    let mut from = 0;
    for (number, end) in names.terms.iter().zip(&names.ends).take(listed) {
        let end = usize::from(*end);
        let text = names.text.get(from..end);
        texts.entry(*number).or_insert_with(|| {
            text.filter(|text| Sort::of(*number).is_some_and(|sort| legal(sort, text)))
        });
        from = end;
    }
    texts
}
