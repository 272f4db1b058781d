//! Archives with their axes in another order, written from document 02, W-212. The letters stand for
//! the orders, and no list is sorted: each record goes to the place that those before it leave.

use super::calls::{self, Archive, Record};
use super::Point;

/// "The six orders of three axes are numbered 0 to 5 [...], the letters naming which old axis comes
/// first, second and third."
pub const ORDERS: [&str; 6] = ["xyz", "xzy", "yxz", "yzx", "zxy", "zyx"];

/// The point with its axes in this order.
pub fn rearranged(letters: &str, point: Point) -> Point {
    let axis = |letter: char| "xyz".find(letter).expect("an axis");
    let mut coordinates = letters.chars().map(|letter| point[axis(letter)]);
    [0; 3].map(|_| coordinates.next().expect("three letters"))
}

/// Whether one record stands before another.
fn before(one: &Record, other: &Record) -> bool {
    for axis in [2, 1, 0] {
        if one.point[axis] != other.point[axis] {
            return one.point[axis] < other.point[axis];
        }
    }
    one.number < other.number
}

/// "The archive, reference and trials rearranged": numbers, contributions, total and front as they are.
pub fn in_order(archive: &Archive, letters: &str) -> Archive {
    let turned: Vec<Record> = archive
        .records
        .iter()
        .map(|record| Record { point: rearranged(letters, record.point), ..record.clone() })
        .collect();
    let mut records = turned.clone();
    for record in &turned {
        let place = turned.iter().filter(|other| before(other, record)).count();
        records[place] = record.clone();
    }
    Archive { reference: rearranged(letters, archive.reference), records, ..archive.clone() }
}

/// "Rows 1 to 3 of the source, 22 for an order above 5, 13 where the audit says no, 1 for a short
/// second slice."
pub fn rearrange(words: &[u64], order: u64, second: &mut [u64]) -> Result<(), u64> {
    let archive = calls::read(words)?;
    if order > 5 {
        return Err(22);
    }
    if !calls::audit(words)? {
        return Err(13);
    }
    let own = in_order(&archive, ORDERS[order as usize]).words();
    second.get_mut(..own.len()).ok_or(1_u64)?.copy_from_slice(&own);
    Ok(())
}
