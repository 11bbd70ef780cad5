//! The commands, from what was read to what is printed.

use crate::annotation::Kind;
use crate::answers::Asking;
use crate::arguments::{Command, Job};
use crate::calls::{Book, Calls, Row, Table};
use crate::columns::Columns;
use crate::diff::{differences, Held, Holding};
use crate::exchange::{self, Form};
use crate::fields::LONGEST;
use crate::head::Head;
use crate::input::Source;
use crate::listing::{self, is_bare_reflexive, listing, terms};
use crate::refusal::{self, Refused};
use crate::text::{self, Text};
use crate::{namelist, notes, page};
use std::io::{self, Write};

/// Why a command could not be done.
#[derive(Debug)]
pub enum Trouble {
    /// What to print, to its last line end.
    Said(String),
    /// A wrong call.
    Use(String),
    Output(io::Error),
}

impl From<io::Error> for Trouble {
    fn from(why: io::Error) -> Trouble {
        Trouble::Output(why)
    }
}

/// Whether everything was done.
type Done = Result<bool, Trouble>;

/// What a command works with.
struct Bench<'a> {
    job: &'a Job,
    calls: Option<&'a dyn Calls>,
    out: &'a mut dyn Write,
    err: &'a mut dyn Write,
}

/// Does a command over the files that were read.
pub fn execute(
    job: &Job,
    sources: &[Source],
    calls: Option<&dyn Calls>,
    out: &mut dyn Write,
    err: &mut dyn Write,
) -> Done {
    let mut bench = Bench { job, calls, out, err };
    let [source, others @ ..] = sources else {
        return Err(Trouble::Use("a file is wanted".to_string()));
    };
    match job.command {
        Command::Check => bench.check(source),
        Command::Close => bench.close(source),
        Command::Ask => bench.ask(source),
        Command::Page => bench.page(source),
        Command::Diff => bench.diff(source, others),
        Command::Import => bench.import(source),
        Command::Export => bench.export(source),
        Command::Book => bench.book(source),
        Command::Questions => bench.questions(source),
        Command::Names => bench.names(source),
        Command::Text => bench.text(source, others.first()),
    }
}

impl Bench<'_> {
    fn calls(&self) -> Result<&dyn Calls, Trouble> {
        let missing = "fitting: this was built without the proved library, which is made for x86-64 machines only\n";
        self.calls.ok_or_else(|| Trouble::Said(missing.to_string()))
    }

    /// Reads a text, and says what looks like a slip of the pen in it.
    fn read(&mut self, source: &Source) -> Result<Text, Trouble> {
        let text = text::read(&source.bytes)
            .map_err(|faults| Trouble::Said(faults.written(&source.name)))?;
        if !self.job.options.quiet {
            let notes = notes::written(&source.name, &notes::notes(&text));
            // Notes that find no room stop nothing.
            drop(self.err.write_all(notes.as_bytes()));
        }
        Ok(text)
    }

    /// The book as the library reads it.
    fn library_book(&self, source: &Source, text: &Text) -> Result<(Head, Book), Trouble> {
        let refused = |refusal| Trouble::Said(refusal::of_book(&source.name, text, refusal));
        let book = self.calls()?.read(&text.book.bytes).map_err(refused)?;
        let head = text.head.ok_or_else(|| {
            Trouble::Said("fitting: a book without a kind was not refused\n".to_string())
        })?;
        Ok((head, book))
    }

    /// The book's rows with what follows from them by its rule set.
    fn closed(&self, source: &Source, text: &Text) -> Result<(Head, Table), Trouble> {
        let (head, book) = self.library_book(source, text)?;
        let refused = |refusal| Trouble::Said(refusal::of_book(&source.name, text, refusal));
        Ok((head, self.calls()?.close(book.rules, &book.table).map_err(refused)?))
    }

    fn print(&mut self, bytes: &[u8]) -> Done {
        self.out.write_all(bytes)?;
        Ok(true)
    }

    fn check(&mut self, source: &Source) -> Done {
        let text = self.read(source)?;
        let (Head { kind, .. }, table) = self.closed(source, &text)?;
        let mut refused = String::new();
        // No look is allowed: a question that is right stops with 24 at its first, or needs none.
        let asking = Asking {
            calls: self.calls()?,
            file: &source.name,
            text: &text,
            kind,
            table: &table,
            looks: 0,
        };
        for question in &text.questions {
            let asked = asking.asked(question);
            if ![0, 24].contains(&asked.refusal.number) {
                refused += &asking.refused(question, &asked);
            }
        }
        if refused.is_empty() {
            Ok(true)
        } else {
            Err(Trouble::Said(refused))
        }
    }

    fn close(&mut self, source: &Source) -> Done {
        let text = self.read(source)?;
        let (head, table) = self.closed(source, &text)?;
        let (rows, left_out) = self.shown(&text, table.rows);
        let mut shown =
            listing(head, &text.names, &rows, Some(&text.stated)).ok_or_else(strange_term)?;
        match left_out {
            0 => {}
            1 => shown += "# 1 reflexive line is left out\n",
            _ => shown += &format!("# {left_out} reflexive lines are left out\n"),
        }
        self.print(shown.as_bytes())
    }

    /// The rows to print, and how many reflexive ones that follow are left out.
    fn shown(&self, text: &Text, rows: Vec<Row>) -> (Vec<Row>, usize) {
        if !self.job.options.no_reflexive {
            return (rows, 0);
        }
        let count = rows.len();
        let is_shown = |row: &Row| !is_bare_reflexive(row, &text.stated);
        let shown: Vec<Row> = rows.into_iter().filter(is_shown).collect();
        let left_out = count - shown.len();
        (shown, left_out)
    }

    fn ask(&mut self, source: &Source) -> Done {
        let text = self.read(source)?;
        if text.questions.is_empty() {
            let example = "ask ?lamp is led during ?when";
            let words = format!(
                "{}: there is no question here; a question is a line such as: {example}\n",
                source.name
            );
            return Err(Trouble::Said(words));
        }
        let (Head { kind, .. }, table) = self.closed(source, &text)?;
        let (calls, looks) = (self.calls.ok_or_else(strange_term)?, self.job.options.looks);
        let asking = Asking { calls, file: &source.name, text: &text, kind, table: &table, looks };
        Ok(asking.all(self.out)?)
    }

    fn page(&mut self, source: &Source) -> Done {
        let text = self.read(source)?;
        let (Head { kind, rules }, table) = self.closed(source, &text)?;
        let looks = self.job.options.looks;
        let (rows, _) = self.shown(&text, table.rows.clone());
        let asking = Asking {
            calls: self.calls()?,
            file: &source.name,
            text: &text,
            kind,
            table: &table,
            looks,
        };
        let (page, done) = page::page(&asking, rules, &rows);
        self.print(page.as_bytes())?;
        Ok(done)
    }

    fn diff(&mut self, left: &Source, others: &[Source]) -> Done {
        let mut books = Vec::new();
        for source in std::iter::once(left).chain(others) {
            let text = self.read(source)?;
            let (head, table) = self.closed(source, &text)?;
            let held = |row: &Row| {
                let is_bare = is_bare_reflexive(row, &text.stated);
                Some(Held { triple: terms(&text.names, row)?, value: row.value, is_bare })
            };
            let rows = table.rows.iter().map(held).collect::<Option<_>>();
            let rows = rows.ok_or_else(strange_term)?;
            books.push(Holding { file: source.name.clone(), head, rows });
        }
        let [left, right] = &books[..] else {
            return Err(Trouble::Use("diff wants two files".to_string()));
        };
        let shown =
            differences(left, right, self.job.options.no_reflexive).map_err(Trouble::Said)?;
        self.print(shown.as_bytes())
    }

    fn import(&mut self, source: &Source) -> Done {
        let options = &self.job.options;
        let head = options.kind.as_deref().map(exchange::head).transpose();
        let head = head.map_err(|words| Trouble::Use(format!("--kind: {words}")))?;
        let form = options.form.or_else(|| Form::of_file(&source.name));
        let text = match form.ok_or_else(|| {
            Trouble::Use("say the form of the file: --from nt or --from csv".to_string())
        })? {
            Form::Csv => exchange::import_table(source, head),
            Form::NTriples => {
                let (Some(head), Some(said)) = (head, &options.when) else {
                    let words = "a makers' list has no years: say its kind and when its lines hold, as in --kind \"years from 2000\" --when 2001-2005";
                    return Err(Trouble::Use(words.to_string()));
                };
                let value = exchange::when(head.kind, said)
                    .map_err(|words| Trouble::Use(format!("--when: {words}")))?;
                exchange::import_list(self.calls()?, source, head, value, &options.base)
            }
        };
        self.print(text.map_err(Trouble::Said)?.as_bytes())
    }

    fn export(&mut self, source: &Source) -> Done {
        let options = &self.job.options;
        let form = options
            .form
            .ok_or_else(|| Trouble::Use("say the form: --to nt or --to csv".to_string()))?;
        let unsaid = "N-Triples have no years: say which lines, as in --when 2005 (those that hold in 2005) or --when any";
        if form == Form::NTriples && options.when.is_none() {
            return Err(Trouble::Use(unsaid.to_string()));
        }
        if options.no_reflexive && !options.closed {
            let words = "--no-reflexive leaves out lines that follow, and without --closed none is printed: say --closed too";
            return Err(Trouble::Use(words.to_string()));
        }
        let text = self.read(source)?;
        let (head, rows) = match options.closed {
            true => self.closed(source, &text).map(|(head, table)| (head, table.rows))?,
            false => {
                self.library_book(source, &text).map(|(head, book)| (head, book.table.rows))?
            }
        };
        let kind = head.kind;
        let least = match options.when.as_deref() {
            None | Some("any") => 0,
            Some(said) => exchange::when(kind, said)
                .map_err(|words| Trouble::Use(format!("--when: {words}")))?,
        };
        let (rows, _) = self.shown(&text, rows);
        let rows: Vec<Row> = rows.into_iter().filter(|row| kind.covers(row.value, least)).collect();
        match form {
            Form::NTriples => self.export_list(kind, &text, &rows),
            Form::Csv => self.export_table(head, &text, &rows),
        }
    }

    fn export_list(&mut self, kind: Kind, text: &Text, rows: &[Row]) -> Done {
        let base = &self.job.options.base;
        let (bytes, left_out) = exchange::export_list(self.calls()?, kind, &text.names, rows, base)
            .map_err(Trouble::Said)?;
        self.print(&bytes)?;
        for row in &left_out {
            let words = terms(&text.names, row).ok_or_else(strange_term)?.join(" ");
            writeln!(self.err, "left out, N-Triples cannot say it: {words}")?;
        }
        Ok(left_out.is_empty())
    }

    fn export_table(&mut self, head: Head, text: &Text, rows: &[Row]) -> Done {
        let marked: Vec<(Row, listing::Source)> =
            rows.iter().map(|row| (*row, listing::Source::of(row, &text.stated))).collect();
        let (table, formulas) = exchange::export_table(head, &text.names, &marked);
        self.print(table.as_bytes())?;
        for name in formulas {
            writeln!(self.err, "note: a spreadsheet may take {name} for a formula")?;
        }
        Ok(true)
    }

    fn book(&mut self, source: &Source) -> Done {
        let text = self.read(source)?;
        self.print(&text.book.bytes)
    }

    /// The counter's whole input: the book and the questions, each behind its length.
    fn questions(&mut self, source: &Source) -> Done {
        let text = self.read(source)?;
        let questions = text.questions.iter().map(|question| &question.fields);
        let parts = std::iter::once(&text.book).chain(questions);
        let input: Option<Vec<Vec<u8>>> = parts.map(|fields| fields.behind_length()).collect();
        let too_long = format!(
            "{}: the book is over {LONGEST} bytes, too long for the counter\n",
            source.name
        );
        self.print(&input.ok_or(Trouble::Said(too_long))?.concat())
    }

    fn names(&mut self, source: &Source) -> Done {
        let text = self.read(source)?;
        self.print(namelist::written(&text.names).as_bytes())
    }

    fn text(&mut self, source: &Source, names: Option<&Source>) -> Done {
        let list = match names {
            None => namelist::List::default(),
            Some(names) => namelist::read(names)
                .map_err(|faults| Trouble::Said(faults.written(&names.name)))?,
        };
        let refused = |refusal| {
            Trouble::Said(refusal::written(&source.name, None, None, None, Refused::Bytes, refusal))
        };
        let book = self.calls()?.read(&source.bytes).map_err(refused)?;
        let kind = Kind::of(book.table.kind, book.base).ok_or_else(strange_term)?;
        let line = |row: &Row| {
            let mut words = row.triple.map(|term| list.text(term)).to_vec();
            words.push(kind.written(row.value));
            words
        };
        let lines: Vec<Vec<String>> = book.table.rows.iter().map(line).collect();
        let head = Head { kind, rules: book.rules.number() };
        writeln!(self.out, "{}", head.line())?;
        Columns::default()
            .lines(&lines)
            .iter()
            .try_for_each(|line| writeln!(self.out, "{line}"))?;
        Ok(true)
    }
}

fn strange_term() -> Trouble {
    Trouble::Said("fitting: the library gave back a term that is not in the text\n".to_string())
}
