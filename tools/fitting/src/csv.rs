//! Tables of a spreadsheet: cells behind commas, semicolons or tabs, in quotes where they hold one.

/// A line of a table, and where it begins.
#[derive(Clone, Debug, PartialEq, Eq)]
pub struct Record {
    pub line: usize,
    pub cells: Vec<String>,
}

/// What may stand between two cells.
const MARKS: [char; 3] = [',', ';', '\t'];

/// A line with more cells is no line of a book's table.
const MOST_CELLS: usize = 256;

/// What is wrong with a table, and in which line.
pub type Wrong = (usize, String);

/// The lines of a table, one after another; the mark between its cells is the one that its first
/// line has most of.
pub fn read(text: &str) -> Reader<'_> {
    let first = text.lines().next().unwrap_or("");
    let count = |mark: &char| first.matches(*mark).count();
    let mark = MARKS.into_iter().rev().max_by_key(count).unwrap_or(',');
    Reader { rest: text, line: 1, mark }
}

/// A table that is being read.
pub struct Reader<'a> {
    rest: &'a str,
    line: usize,
    mark: char,
}

impl Iterator for Reader<'_> {
    type Item = Result<Record, Wrong>;

    /// The next line that has something in its cells; a wrong one is the last.
    fn next(&mut self) -> Option<Result<Record, Wrong>> {
        while !self.rest.is_empty() {
            let line = self.line;
            match self.record() {
                Ok(cells) if cells.iter().all(String::is_empty) => {}
                Ok(cells) => return Some(Ok(Record { line, cells })),
                Err(wrong) => {
                    self.rest = "";
                    return Some(Err(wrong));
                }
            }
        }
        None
    }
}

impl Reader<'_> {
    /// The cells up to the end of the line, without the blanks around them.
    fn record(&mut self) -> Result<Vec<String>, Wrong> {
        let mut cells = Vec::new();
        loop {
            if cells.len() == MOST_CELLS {
                return Err((self.line, format!("a line has at most {MOST_CELLS} cells")));
            }
            cells.push(self.cell()?);
            let Some(next) = self.rest.chars().next() else {
                return Ok(cells);
            };
            self.rest = &self.rest[next.len_utf8()..];
            match next {
                '\r' => {
                    self.rest = self.rest.strip_prefix('\n').unwrap_or(self.rest);
                    self.line += 1;
                    return Ok(cells);
                }
                '\n' => {
                    self.line += 1;
                    return Ok(cells);
                }
                _ => {}
            }
        }
    }

    fn cell(&mut self) -> Result<String, Wrong> {
        let mark = self.mark;
        let blank = |letter: char| letter == ' ' || letter == '\t' && mark != '\t';
        let rest = self.rest.trim_start_matches(blank);
        if let Some(quoted) = rest.strip_prefix('"') {
            self.rest = quoted;
            return self.quoted();
        }
        let end = rest.find([mark, '\r', '\n']).unwrap_or(rest.len());
        let (cell, after) = rest.split_at(end);
        self.rest = after;
        Ok(cell.trim().to_string())
    }

    /// A cell whose opening quote was passed; in it a quote is written twice.
    fn quoted(&mut self) -> Result<String, Wrong> {
        let opened = self.line;
        let mut cell = String::new();
        loop {
            let Some(at) = self.rest.find('"') else {
                return Err((opened, "a cell's quote is opened and not closed".to_string()));
            };
            cell += &self.rest[..at];
            self.line += self.rest[..at].matches('\n').count();
            self.rest = &self.rest[at + 1..];
            match self.rest.strip_prefix('"') {
                Some(after) => {
                    cell.push('"');
                    self.rest = after;
                }
                None => break,
            }
        }
        self.rest = self.rest.trim_start_matches(' ');
        if self.rest.is_empty() || self.rest.starts_with([self.mark, '\r', '\n']) {
            return Ok(cell.trim().to_string());
        }
        Err((opened, "something stands behind a cell's closing quote".to_string()))
    }
}

/// Writes lines of cells, commas between them. A file with letters beyond ASCII begins with the
/// mark by which spreadsheets know UTF-8.
pub fn written(records: &[Vec<String>]) -> String {
    let line = |cells: &Vec<String>| {
        cells.iter().map(|cell| written_cell(cell)).collect::<Vec<String>>().join(",")
    };
    let text: String = records.iter().map(|cells| line(cells) + "\r\n").collect();
    let mark = if text.is_ascii() { "" } else { "\u{FEFF}" };
    format!("{mark}{text}")
}

fn written_cell(cell: &str) -> String {
    if cell.contains([',', ';', '\t', '"', '\r', '\n']) {
        return format!("\"{}\"", cell.replace('"', "\"\""));
    }
    cell.to_string()
}

/// Whether a spreadsheet could take a cell for a formula.
pub fn looks_like_formula(cell: &str) -> bool {
    cell.starts_with(['=', '+', '-', '@'])
}

#[cfg(test)]
mod tests {
    use super::*;

    fn cells(text: &str) -> Vec<(usize, Vec<String>)> {
        read(text).map(|record| record.unwrap()).map(|record| (record.line, record.cells)).collect()
    }

    fn wrong(text: &str) -> Wrong {
        read(text).find_map(Result::err).unwrap()
    }

    fn record(line: usize, cells: &[&str]) -> (usize, Vec<String>) {
        (line, cells.iter().map(|cell| cell.to_string()).collect())
    }

    #[test]
    fn commas_semicolons_and_tabs() {
        let two = [record(1, &["a", "b", "c"]), record(2, &["1", "2, 3", "4"])];
        assert_eq!(cells("a,b,c\n1,\"2, 3\",4\n"), two);
        assert_eq!(cells("a;b;c\r\n1;2, 3;4\r\n"), two);
        assert_eq!(cells("a\tb\tc\n1\t2, 3\t4"), two);
        assert_eq!(
            cells(" a , b ,\"c\" \n\n,,\n 1 ,\"2, 3\", 4"),
            [two[0].clone(), record(4, &["1", "2, 3", "4"])]
        );
    }

    #[test]
    fn quotes_and_lines_within_a_cell() {
        assert_eq!(
            cells("a,\"say \"\"hi\"\"\nthere\",b\nc,d,e"),
            [record(1, &["a", "say \"hi\"\nthere", "b"]), record(3, &["c", "d", "e"])]
        );
        assert_eq!(wrong("a,b\n\"open").0, 2);
        assert!(wrong(&",".repeat(1000)).1.starts_with("a line has at most 256 cells"));
        assert!(wrong("\"a\"b,c").1.starts_with("something stands behind"));
    }

    #[test]
    fn what_is_written_reads_back() {
        let rows = vec![vec!["\"van 31\"".to_string(), "a,b".to_string(), "電球".to_string()]];
        let text = written(&rows);
        assert!(text.starts_with('\u{FEFF}'));
        assert_eq!(cells(text.trim_start_matches('\u{FEFF}'))[0].1, rows[0]);
        assert_eq!(written(&[vec!["a".to_string(), "b".to_string()]]), "a,b\r\n");
    }

    #[test]
    fn formulas() {
        assert!(
            looks_like_formula("=1+1") && looks_like_formula("@x") && !looks_like_formula("lamp-7")
        );
    }
}
