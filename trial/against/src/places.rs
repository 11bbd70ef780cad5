//! Where a triple stands, or would go, in rows that ascend, looked for in three ways with every look
//! counted: from the front row by row, as adding did before; behind the last row and then by halving
//! over all rows, as reading did; and from the back, by strides of 1, 2, 4, .. rows and by halving
//! inside the last, as the proved library does for both now.

use trial::random::Random;
use trial::table::{Row, Triple};

/// The place of a triple among the rows; the last number counts the rows looked at.
pub type Search = fn(&[Triple], Triple, &mut usize) -> usize;

pub const SEARCHES: [(&str, Search); 3] =
    [("walk", walk), ("halving", halving), ("strides", strides)];

/// The orders in which rows come.
pub const ORDERS: [&str; 4] = ["sorted", "nearly", "shuffled", "backwards"];

fn below(rows: &[Triple], at: usize, key: Triple, looks: &mut usize) -> bool {
    *looks += 1;
    rows[at] < key
}

pub fn walk(rows: &[Triple], key: Triple, looks: &mut usize) -> usize {
    let mut at = 0;
    while at < rows.len() && below(rows, at, key, looks) {
        at += 1;
    }
    at
}

fn halve(
    rows: &[Triple],
    key: Triple,
    mut low: usize,
    mut high: usize,
    looks: &mut usize,
) -> usize {
    while low < high {
        let middle = low + (high - low) / 2;
        if below(rows, middle, key, looks) {
            low = middle + 1;
        } else {
            high = middle;
        }
    }
    low
}

/// Where the last row is not below the triple, it is looked at once more, as it was then.
pub fn halving(rows: &[Triple], key: Triple, looks: &mut usize) -> usize {
    let count = rows.len();
    if count == 0 || below(rows, count - 1, key, looks) {
        return count;
    }
    if !below(rows, 0, key, looks) {
        return 0;
    }
    *looks += 1;
    halve(rows, key, 0, count, looks)
}

/// Where the last row is not below the triple, it is looked at once more: the strides begin there.
pub fn strides(rows: &[Triple], key: Triple, looks: &mut usize) -> usize {
    let count = rows.len();
    if count == 0 || below(rows, count - 1, key, looks) {
        return count;
    }
    let mut high = count;
    while count - high < high {
        let at = high - (count - high) - 1;
        if below(rows, at, key, looks) {
            return halve(rows, key, at + 1, high, looks);
        }
        high = at;
    }
    halve(rows, key, 0, high, looks)
}

/// All rows put in one after another, an equal triple once; gives them in table order, and the looks.
pub fn placed(rows: &[Row], search: Search) -> (Vec<Triple>, usize) {
    let (mut table, mut looks) = (Vec::with_capacity(rows.len()), 0);
    for (triple, _) in rows {
        let at = search(&table, *triple, &mut looks);
        if table.get(at) != Some(triple) {
            table.insert(at, *triple);
        }
    }
    (table, looks)
}

/// Sorted rows in another order; nearly sorted is every tenth row out of place.
pub fn in_order(order: &str, sorted: &[Row]) -> Vec<Row> {
    let mut rows = sorted.to_vec();
    let mut random = Random::new(12);
    match order {
        "nearly" => {
            for at in (9..rows.len()).step_by(10) {
                let row = rows.remove(at);
                rows.insert(random.below(rows.len() + 1), row);
            }
        }
        "shuffled" => {
            for at in (1..rows.len()).rev() {
                rows.swap(at, random.below(at + 1));
            }
        }
        "backwards" => rows.reverse(),
        _ => {}
    }
    rows
}
