//! A book as one HTML page to print or to mail: no script, and no file but itself.

mod combinations;
mod html;
mod strip;

use crate::annotation::Kind;
use crate::answers::{totals, Asking};
use crate::calls::{Answer, Asked, Row};
use crate::head::BASIC;
use crate::question::Question;
use crate::refusal::{place_word, Refused};
use html::{escaped, list, name};
use std::fmt::Write;
use strip::Axis;

const STYLE: &str = include_str!("style.css");

/// What follows is hatched, on paper without colours too.
const HATCH: &str = "<svg width=\"0\" height=\"0\" aria-hidden=\"true\" style=\"position:absolute\"><defs>\
<pattern id=\"hatch\" width=\"4\" height=\"4\" patternUnits=\"userSpaceOnUse\"><rect width=\"4\" height=\"4\" fill=\"#fff\"/>\
<path d=\"M0 4L4 0M-1 1L1 -1M3 5L5 3\" stroke=\"#1f4e79\" stroke-width=\"1\"/></pattern></defs></svg>\n";

/// A subject with more rows may be broken over two printed pages.
const LONG: usize = 24;

/// A page in the making.
struct Page<'a> {
    asking: &'a Asking<'a>,
    rules: u8,
    /// The rows that are shown.
    rows: &'a [Row],
    axis: Axis,
}

/// The page with these of the book's rows, and whether every question was answered in full.
pub fn page(asking: &Asking, rules: u8, rows: &[Row]) -> (String, bool) {
    let axis = Axis::of(asking.kind, asking.table.rows.iter().map(|row| row.value));
    let page = Page { asking, rules, rows, axis };
    let mut shown = page.head();
    shown += "<main>\n";
    for rows in rows.chunk_by(|one, other| one.triple[0] == other.triple[0]) {
        shown += &page.subject(rows);
    }
    let mut done = true;
    for question in &asking.text.questions {
        let asked = asking.asked(question);
        done &= asked.refusal.number == 0;
        shown += &page.answered(question, &asked);
    }
    (shown + "</main>\n</body>\n</html>\n", done)
}

/// The file's name without its folders.
fn title(file: &str) -> &str {
    match file.rsplit(['/', '\\']).next() {
        Some("-") | None => "A fitting book",
        Some(name) => name,
    }
}

fn counted(number: usize, one: &str, more: &str) -> String {
    match number {
        1 => format!("1 {one}"),
        _ => format!("{number} {more}"),
    }
}

fn swatch(class: &str) -> String {
    format!(
        "<svg class=\"strip\" width=\"28\" height=\"14\" aria-hidden=\"true\">\
         <rect class=\"{class}\" x=\"1\" y=\"2\" width=\"26\" height=\"10\"/></svg>"
    )
}

/// A picture and its words, beside it or below, in cells of this name.
fn when(cell: &str, is_narrow: bool, picture: &str, words: &str) -> String {
    let between =
        if is_narrow { String::new() } else { format!("</{cell}><{cell} class=\"said\">") };
    format!("<{cell} class=\"when\">{picture}{between}{words}</{cell}>")
}

impl Page<'_> {
    fn head(&self) -> String {
        let title = escaped(title(self.asking.file));
        let rows = &self.asking.table.rows;
        let stated = rows.iter().filter(|row| self.stated(row) != 0).count();
        let rules = match self.rules {
            BASIC => String::new(),
            rules => format!(" Rule set {rules}."),
        };
        let left_out = match rows.len() - self.rows.len() {
            0 => String::new(),
            number => format!(
                " Of these {number} reflexive {} not shown.",
                if number == 1 { "one is" } else { "ones are" }
            ),
        };
        let kind = match self.asking.kind {
            Kind::Years { base } => format!("Years {base} to {}.", u32::from(base) + 63),
            Kind::Sheets(sheets) => {
                format!("A square for each sheet: {}.", escaped(&sheets.names().join(", ")))
            }
            Kind::Degree => "Degrees from 1 to 1000; the smallest counts.".to_string(),
            Kind::Strict => "Degrees from 1 to 1000; what is lacking adds up.".to_string(),
        };
        format!(
            "<!DOCTYPE html>\n<html lang=\"en\">\n<head>\n<meta charset=\"utf-8\">\n\
             <meta http-equiv=\"Content-Security-Policy\" content=\"default-src 'none'; style-src 'unsafe-inline'\">\n\
             <meta name=\"viewport\" content=\"width=device-width, initial-scale=1\">\n\
             <title>{title}</title>\n<style>\n{STYLE}</style>\n</head>\n<body>\n{HATCH}\
             <header>\n<h1>{title}</h1>\n<p>{kind}{rules} {} in the book, {} from it.{left_out}</p>\n\
             <p class=\"key\"><span>{}in the book</span><span>{}follows</span></p>\n</header>\n",
            counted(stated, "line is", "lines are"),
            counted(rows.len() - stated, "line follows", "lines follow"),
            swatch("stated"),
            swatch("follows"),
        )
    }

    /// What the book's own lines say of a row; 0 is nothing.
    fn stated(&self, row: &Row) -> u64 {
        self.asking.text.stated.get(&row.triple).copied().unwrap_or(0)
    }

    /// A subject with its lines: those of the book, then those that follow.
    fn subject(&self, rows: &[Row]) -> String {
        let long = if rows.len() > LONG { " class=\"long\"" } else { "" };
        let subject = rows.first().map_or(String::new(), |row| self.asking.term(row.triple[0]));
        let mut shown =
            format!("<section{long}>\n<h2>{}</h2>\n<table class=\"lines\">\n", name(&subject));
        let (own, other): (Vec<&Row>, Vec<&Row>) =
            rows.iter().partition(|row| self.stated(row) != 0);
        let mut scale = self.axis.scale();
        for (words, rows) in [("in the book", own), ("follows", other)] {
            if rows.is_empty() {
                continue;
            }
            let over = std::mem::take(&mut scale);
            write!(shown, "<tbody>\n<tr class=\"group\"><th colspan=\"2\">{words}</th><th class=\"when\">{over}</th><th class=\"said\"></th></tr>\n").ok();
            rows.iter().for_each(|row| shown += &self.line(row));
            shown += "</tbody>\n";
        }
        shown + "</table>\n</section>\n"
    }

    fn line(&self, row: &Row) -> String {
        let (kind, said) = (self.asking.kind, self.stated(row));
        let more = match said {
            0 => String::new(),
            _ if said == row.value => String::new(),
            _ => {
                format!("<span class=\"more\">in the book: {}</span>", escaped(&kind.written(said)))
            }
        };
        format!(
            "<tr><td>{}</td><td>{}</td><td class=\"when\">{}</td><td class=\"said\">{}{more}</td></tr>\n",
            name(&self.asking.term(row.triple[1])),
            name(&self.asking.term(row.triple[2])),
            self.axis.strip(row.value, said),
            list(&kind.written(row.value)),
        )
    }

    /// A question under the comment that stands before it, as it was written, and its answers.
    fn answered(&self, question: &Question, asked: &Asked) -> String {
        let refused = asked.refusal.number != 0;
        let lines: Vec<&str> =
            self.asking.text.lines.between(question.first_line, question.last_line).collect();
        let class = if refused { " class=\"refused\"" } else { "" };
        let long = if asked.answers.len() > LONG { " class=\"long\"" } else { "" };
        let mut shown = format!("<section{long}>\n");
        if let Some(words) = self.comment(question) {
            write!(shown, "<h2>{}</h2>\n", escaped(&words)).ok();
        }
        write!(shown, "<pre{class}>{}</pre>\n", escaped(&lines.join("\n"))).ok();
        if !asked.answers.is_empty() {
            shown += &self.answers(question, &asked.answers);
        }
        for note in self.asking.strangers(question) {
            write!(shown, "<p class=\"note\">{}</p>\n", escaped(&note)).ok();
        }
        if refused {
            let words = self.asking.refused(question, asked);
            write!(shown, "<pre class=\"refused\">{}</pre>\n", escaped(words.trim_end())).ok();
        }
        if place_word(Refused::Question, asked.refusal).is_none() {
            write!(shown, "<p class=\"note\">{}</p>\n", totals(asked)).ok();
        }
        shown + "</section>\n"
    }

    /// The comment in the lines right above a question.
    fn comment(&self, question: &Question) -> Option<String> {
        let above = (1..question.first_line)
            .rev()
            .map(|line| self.asking.text.lines.line(line).trim_start());
        let mut words: Vec<&str> =
            above.map_while(|line| line.strip_prefix('#')).map(str::trim).collect();
        words.reverse();
        Some(words.join(" ")).filter(|words| !words.trim().is_empty())
    }

    fn answers(&self, question: &Question, answers: &[Answer]) -> String {
        let variables = &question.variables;
        if variables.terms.is_empty() && variables.anns.is_empty() {
            return "<p>yes</p>\n".repeat(answers.len());
        }
        // Several pictures beside one another leave no room for words beside them: these go below.
        let is_narrow = variables.anns.len() > 1;
        let terms = variables.terms.iter().map(|variable| format!("<th>{}</th>", name(variable)));
        let whens = variables
            .anns
            .iter()
            .map(|variable| when("th", is_narrow, &self.axis.scale(), &name(variable)));
        let head: String = terms.chain(whens).collect();
        let class = if is_narrow { " class=\"narrow\"" } else { "" };
        let mut shown = format!("<table{class}>\n<thead><tr>{head}</tr></thead>\n<tbody>\n");
        for answer in answers {
            shown += "<tr>";
            for term in answer.terms.iter().take(variables.terms.len()) {
                let words = term.map_or("–".to_string(), |term| name(&self.asking.term(term)));
                write!(shown, "<td>{words}</td>").ok();
            }
            for value in answer.anns.iter().take(variables.anns.len()) {
                let picture = value.map_or(String::new(), |value| self.axis.answer(value));
                let words =
                    value.map_or("–".to_string(), |value| list(&self.asking.kind.written(value)));
                shown += &when("td", is_narrow, &picture, &words);
            }
            shown += "</tr>\n";
        }
        shown + "</tbody>\n</table>\n"
    }
}
