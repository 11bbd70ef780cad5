//! Measured values: currents in milliamps as a text writes them.

mod common;
use common::*;
use fitting::text::read;

/// The rows' bytes of a book of degrees: (10 20 500 mA), as the document has it but for the names' numbers.
#[test]
fn the_bytes_of_a_value() {
    let text = "kind degree\nlamp limit 500 mA 800\n16382mA is 0 mA 800\n";
    let bytes = command("book t --quiet", &[text.as_bytes()]).out;
    let hex: String = bytes[7..].iter().map(|byte| format!("{byte:02X}")).collect();
    assert_eq!(
        hex,
        "03000E00050006C1F40000000000000320".to_string() + "03000EFFFE0002C0000000000000000320"
    );
}

#[test]
fn values_in_questions() {
    let text = years("led limit 40 mA 2000\nask ?x limit 40 mA ?w where ?x != 60 mA\n");
    let question = &read(text.as_bytes()).ok().unwrap().questions[0];
    let values: Vec<u16> = question
        .constants
        .iter()
        .map(|constant| constant.term)
        .filter(|term| *term >= 0xC000)
        .collect();
    assert_eq!(values, [0xC000 + 40, 0xC000 + 60]);
}

fn fault(line: &str) -> String {
    let faults = read(years(&format!("{line}\n")).as_bytes()).err().unwrap();
    assert_eq!(faults.count(), 1, "{line}");
    faults.kept()[0].words.clone()
}

#[test]
fn what_is_no_value() {
    let over = "20000 mA is over 16,382 mA, the largest value there is: write 16382 mA, or a text in quotes: \"20000 mA\"";
    assert_eq!(fault("led limit 20000 mA 2000"), over);
    assert_eq!(fault("led limit 0.5 A 2000"), "0.5 A: write 500 mA, a whole number of milliamps");
    assert_eq!(fault("led limit 500 ma 2000"), "500 ma: write 500 mA, a whole number of milliamps");
    assert!(fault("led limit 500 2000").starts_with("`500` stands where the object should be"));
    assert_eq!(fault("led limit lamp 500 mA"), "500 mA is too much in this line");
}

/// A cell of a spreadsheet holds a value, and a makers' list has no word for one.
#[test]
fn values_in_and_out() {
    let table = "subject,relation,object,years from 2000\nled,limit,500 mA,2000\n";
    let imported = command("import table.csv", &[table.as_bytes()]);
    assert_eq!(imported.text(), "kind years from 2000\nled  limit  500 mA  2000\n");
}
