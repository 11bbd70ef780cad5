//! Which sheets are enough, as a picture: for each smallest combination a row of squares, one for
//! each sheet of the book, full where the sheet is needed.

use super::html::escaped;
use crate::sheets::{enough, smallest, Sheets, MOST};
use std::fmt::Write;

/// A square with the space behind it, the space between two combinations, and a line's height.
const SQUARE: u32 = 12;
const SPACE: u32 = 10;
const HEIGHT: u32 = 14;

/// The picture of a value, `length` wide; `class` says how a combination is drawn.
pub fn drawn(
    sheets: Sheets,
    value: u64,
    length: u32,
    class: impl Fn(u64) -> &'static str,
) -> String {
    let found = smallest(value);
    let used = found.iter().fold(0, |all, combination| all | combination);
    // Bytes can speak of sheets that the book does not name.
    let count = (sheets.count() as u32).max(u32::BITS - used.leading_zeros()).min(MOST as u32);
    let width = count * SQUARE + SPACE;
    let in_line = ((length + SPACE) / width).max(1);
    let height = (found.len() as u32).div_ceil(in_line).max(1) * HEIGHT;
    let label = escaped(&sheets.written(value));
    let mut shown = format!(
        "<svg class=\"strip\" role=\"img\" aria-label=\"{label}\" width=\"{length}\" height=\"{height}\" viewBox=\"0 0 {length} {height}\">"
    );
    for (at, combination) in (0..).zip(&found) {
        let (x, y) = (at % in_line * width, at / in_line * HEIGHT + 2);
        let words = escaped(&sheets.written(enough(*combination)));
        let class = class(enough(*combination));
        write!(shown, "<g><title>{words}</title>").ok();
        for sheet in 0..count {
            let class = if combination >> sheet & 1 == 1 { class } else { "axis" };
            let x = x + sheet * SQUARE + 1;
            write!(
                shown,
                "<rect class=\"{class}\" x=\"{x}\" y=\"{y}\" width=\"10\" height=\"10\"/>"
            )
            .ok();
        }
        shown += "</g>";
    }
    shown + "</svg>"
}

#[cfg(test)]
mod tests {
    use super::*;

    /// Workshop alone, or maker and importer together: two combinations of three squares.
    #[test]
    fn a_square_for_each_sheet() {
        let sheets = Sheets::of(&["maker", "importer", "workshop"]).unwrap();
        let value = 0xF8F8_F8F8_F8F8_F8F8;
        let shown = drawn(sheets, value, 250, |bits| {
            if bits & !0x8888_8888_8888_8888 == 0 {
                "follows"
            } else {
                "stated"
            }
        });
        assert_eq!(shown.matches("<g>").count(), 2);
        assert_eq!(shown.matches("<rect").count(), 6);
        assert_eq!(
            (shown.matches("\"stated\"").count(), shown.matches("\"follows\"").count()),
            (1, 2)
        );
        assert!(
            shown.contains("<title>workshop</title>")
                && shown.contains("<title>maker + importer</title>")
        );
        assert!(shown.contains("aria-label=\"workshop, maker + importer\""), "{shown}");
    }

    #[test]
    fn nothing_is_needed_for_what_always_holds() {
        let sheets = Sheets::of(&["maker"]).unwrap();
        let shown = drawn(sheets, u64::MAX, 250, |_| "stated");
        assert!(
            !shown.contains("\"stated\"") && shown.contains("aria-label=\"always\""),
            "{shown}"
        );
    }

    #[test]
    fn many_combinations_go_on_in_the_next_line() {
        let sheets = Sheets::numbered();
        let value = (0..6).fold(0, |bits, sheet| bits | enough(1 << sheet));
        assert!(drawn(sheets, value, 250, |_| "stated").contains("height=\"28\""));
    }
}
