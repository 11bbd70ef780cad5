//! When a line holds, as a picture: years as a strip on which a gap is seen as a gap, degrees as a
//! bar, sheets as combinations.

use super::combinations;
use super::html::escaped;
use crate::annotation::{runs, Kind};
use std::fmt::Write;

/// The length of a strip or bar, what it leaves for an arrow, and its height.
const LENGTH: u32 = 250;
const ARROW: u32 = 8;
const HEIGHT: u32 = 14;

/// The last year of a book, counted from its first.
const LAST: u32 = 63;

/// The years that strips show: from the book's first to the last at which something begins or ends.
/// What goes on behind it has an arrow.
#[derive(Clone, Copy, Debug, PartialEq, Eq)]
pub struct Axis {
    kind: Kind,
    count: u32,
}

impl Axis {
    /// The axis for these values.
    pub fn of(kind: Kind, values: impl Iterator<Item = u64>) -> Axis {
        let ends = values.flat_map(runs).flat_map(|(from, to)| [from, to]);
        let last = ends.filter(|end| *end < LAST).max().unwrap_or(0);
        // A year more, so that an end is seen as one; and not too few.
        let count = (last + 2).next_multiple_of(5).clamp(15, LAST + 1);
        Axis { kind, count }
    }

    /// Where a year begins, in tenths.
    fn at(self, year: u32) -> u32 {
        year.min(self.count) * (LENGTH - ARROW) * 10 / self.count
    }

    /// The years that have a mark: every fifth, or every tenth where they are many.
    fn marks(self) -> impl Iterator<Item = u32> {
        let first = u32::from(self.kind.base());
        let step = if self.count > 30 { 10 } else { 5 };
        (0..self.count).filter(move |year| (first + year) % step == 0)
    }

    /// The numbers over the strips.
    pub fn scale(self) -> String {
        if matches!(self.kind, Kind::Sheets(_)) {
            return String::new();
        }
        let mut shown = format!(
            "<svg class=\"strip\" aria-hidden=\"true\" width=\"{LENGTH}\" height=\"12\" viewBox=\"0 0 {LENGTH} 12\">"
        );
        if self.kind.is_set() {
            let first = u32::from(self.kind.base());
            for year in self.marks() {
                let at = tenths(self.at(year));
                write!(shown, "<text x=\"{at}\" y=\"10\">{}</text>", first + year).ok();
            }
        } else {
            let end = LENGTH - ARROW;
            write!(shown, "<text x=\"0\" y=\"10\">0</text><text class=\"end\" x=\"{end}\" y=\"10\">1000</text>").ok();
        }
        shown + "</svg>"
    }

    /// The picture of a value: what the book's own lines say is full, what follows is hatched.
    pub fn strip(self, value: u64, stated: u64) -> String {
        if let Kind::Sheets(sheets) = self.kind {
            let class = |bits: u64| if bits & !stated == 0 { "stated" } else { "follows" };
            return combinations::drawn(sheets, value, LENGTH, class);
        }
        if self.kind.is_set() {
            return self.drawn(value, &[("stated", value & stated), ("follows", value & !stated)]);
        }
        let both = [("stated", 0, stated.min(value)), ("follows", stated.min(value), value)];
        self.bar(value, &both)
    }

    /// The picture of an answer.
    pub fn answer(self, value: u64) -> String {
        if let Kind::Sheets(sheets) = self.kind {
            return combinations::drawn(sheets, value, LENGTH, |_| "answer");
        }
        match self.kind.is_set() {
            true => self.drawn(value, &[("answer", value)]),
            false => self.bar(value, &[("answer", 0, value)]),
        }
    }

    fn opened(self, value: u64) -> String {
        let label = escaped(&self.kind.written(value));
        format!(
            "<svg class=\"strip\" role=\"img\" aria-label=\"{label}\" width=\"{LENGTH}\" height=\"{HEIGHT}\" viewBox=\"0 0 {LENGTH} {HEIGHT}\">"
        )
    }

    fn drawn(self, value: u64, parts: &[(&str, u64)]) -> String {
        let mut shown = self.opened(value) + &self.line();
        for (class, bits) in parts {
            for (from, to) in runs(*bits).into_iter().filter(|(from, _)| *from < self.count) {
                let words = self.kind.written_span(u64::MAX >> (LAST - to) & u64::MAX << from);
                shown += &self.run(class, from, to, &words);
            }
        }
        shown + "</svg>"
    }

    /// A line through the middle, and the marks.
    fn line(self) -> String {
        let mut shown = format!("<path class=\"axis\" d=\"M0 {}H{LENGTH}", HEIGHT / 2);
        for year in self.marks() {
            write!(shown, "M{} 0V{HEIGHT}", tenths(self.at(year))).ok();
        }
        shown + "\"/>"
    }

    /// A run of years; one that goes on behind the axis ends in an arrow.
    fn run(self, class: &str, from: u32, to: u32, words: &str) -> String {
        let (left, right) = (self.at(from), self.at(to + 1));
        let (x, end) = (tenths(left), tenths(right));
        let shape = match to >= self.count {
            true => format!("<path class=\"{class}\" d=\"M{x} 2H{end}L{LENGTH} 7L{end} 12H{x}Z\">"),
            false => {
                let width = tenths(right - left);
                format!(
                    "<rect class=\"{class}\" x=\"{x}\" y=\"2\" width=\"{width}\" height=\"10\">"
                )
            }
        };
        let name = if to >= self.count { "path" } else { "rect" };
        format!("{shape}<title>{words}</title></{name}>")
    }

    /// A bar as long as the degree.
    fn bar(self, value: u64, parts: &[(&str, u64, u64)]) -> String {
        let end = LENGTH - ARROW;
        let length = |degree: u64| (degree.min(1000) as u32) * end * 10 / 1000;
        let mut shown = self.opened(value);
        write!(shown, "<path class=\"axis\" d=\"M0 7H{end}M0 0V{HEIGHT}M{end} 0V{HEIGHT}\"/>").ok();
        for (class, from, to) in parts.iter().filter(|(_, from, to)| from < to) {
            let (left, right) = (length(*from), length(*to));
            let (x, width) = (tenths(left), tenths(right - left));
            write!(
                shown,
                "<rect class=\"{class}\" x=\"{x}\" y=\"2\" width=\"{width}\" height=\"10\"/>"
            )
            .ok();
        }
        shown + "</svg>"
    }
}

/// A number of tenths in digits.
fn tenths(number: u32) -> String {
    match number % 10 {
        0 => (number / 10).to_string(),
        rest => format!("{}.{rest}", number / 10),
    }
}

#[cfg(test)]
mod tests {
    use super::*;

    const YEARS: Kind = Kind::Years { base: 2000 };

    fn axis(values: &[u64]) -> Axis {
        Axis::of(YEARS, values.iter().copied())
    }

    /// 2000-2002 and 2005-2007: two pieces, and nothing drawn over the two years between.
    #[test]
    fn a_gap_is_seen_as_a_gap() {
        let value = 0b1110_0111;
        let axis = axis(&[value]);
        let shown = axis.strip(value, value);
        assert_eq!(shown.matches("<rect").count(), 2);
        let (end, start) = (axis.at(3), axis.at(5));
        assert!(shown.contains(&format!("x=\"0\" y=\"2\" width=\"{}\"", tenths(end))), "{shown}");
        assert!(shown.contains(&format!("x=\"{}\" y=\"2\"", tenths(start))), "{shown}");
        assert!(start - end > 300, "thirty points and more between them");
        assert!(shown.contains("aria-label=\"2000-2002, 2005-2007\""));
    }

    #[test]
    fn what_follows_is_apart_from_what_is_stated() {
        let shown = axis(&[0b111]).strip(0b111, 0b101);
        assert_eq!(shown.matches("class=\"stated\"").count(), 2);
        assert_eq!(shown.matches("class=\"follows\"").count(), 1);
        assert!(shown.contains("<title>2001</title>"), "{shown}");
        assert!(!axis(&[1]).answer(1).contains("stated"));
    }

    /// Of 64 years only those are shown in which something changes; what goes on has an arrow.
    #[test]
    fn the_axis_ends_where_nothing_changes_any_more() {
        let (early, on) = (0b1111, u64::MAX << 2);
        assert_eq!(axis(&[early]).count, 15);
        assert_eq!(axis(&[1 << 20]).count, 25);
        assert_eq!(axis(&[1 << 62]).count, 64);
        assert_eq!(axis(&[u64::MAX]).count, 15);
        let shown = axis(&[early, on]);
        assert!(shown.strip(on, on).contains("<path class=\"stated\""));
        assert!(!shown.strip(early, early).contains("<path class=\"stated\""));
        assert!(axis(&[1 << 62])
            .strip(u64::MAX, 0)
            .contains("<rect class=\"follows\" x=\"0\" y=\"2\" width=\"242\""));
    }

    #[test]
    fn degrees_are_bars() {
        let axis = Axis::of(Kind::Degree, [700].into_iter());
        let shown = axis.strip(700, 500);
        assert!(shown.contains("class=\"stated\" x=\"0\" y=\"2\" width=\"121\""), "{shown}");
        assert!(shown.contains("class=\"follows\" x=\"121\" y=\"2\" width=\"48.4\""), "{shown}");
        assert!(!axis.strip(700, 0).contains("class=\"stated\""));
        assert!(axis.scale().contains(">1000<"));
    }

    #[test]
    fn the_scale_has_every_fifth_year() {
        let shown = Axis::of(Kind::Years { base: 1997 }, [1 << 20].into_iter()).scale();
        for year in [2000, 2005, 2020] {
            assert!(shown.contains(&format!(">{year}<")), "{shown}");
        }
        assert!(!shown.contains(">1997<"));
    }
}
