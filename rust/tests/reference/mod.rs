//! Document 01, with the requests of document 02 that have landed, written out once more, plainly,
//! to compare the library with. Nothing here is shared with the library, and the cells are counted
//! by other means: one by one where the box is small, in blocks of a compressed grid where it is
//! not.

pub mod axes;
pub mod blocks;
pub mod book;
pub mod calls;
pub mod cards;
pub mod cells;
pub mod figures;
pub mod four;
pub mod volume;

/// x, y, z.
pub type Point = [u64; 3];

/// Cells within a box, by how many of some points dominate them.
#[derive(Clone, Debug, PartialEq, Eq)]
pub struct Counts {
    /// Cells that at least one of the points dominates.
    pub covered: u64,
    /// For each point, the cells that it dominates and no other of them does.
    pub alone: Vec<u64>,
}

pub const MAX_REFERENCE: u64 = 1_048_576;
/// "Coordinates up to 1,048,576 whatever the reference" (document 02, W-201).
pub const MAX_COORDINATE: u64 = 1_048_576;
pub const MAX_CAPACITY: u64 = 512;
pub const MAX_NUMBER: u64 = 9_999_999;

/// Boxes up to this size are counted cell by cell.
const SMALL_BOX: u64 = 150;

pub fn box_of(reference: Point) -> u64 {
    reference.iter().product()
}

/// Counts the cells that `corner` dominates.
fn count(points: &[Point], corner: Point, reference: Point) -> Counts {
    if box_of(reference) <= SMALL_BOX {
        cells::count(points, corner, reference)
    } else {
        blocks::count(points, corner, reference)
    }
}

/// How many of the trials are on the front: "those for which no other trial is at most equal on all
/// axes and smaller on at least one" (document 02, W-209). All pairs.
pub fn front(trials: &[Point]) -> u64 {
    let at_most = |p: &Point, q: &Point| (0..3).all(|axis| p[axis] <= q[axis]);
    let smaller = |p: &Point, q: &Point| (0..3).any(|axis| p[axis] < q[axis]);
    let beaten = |q: &&Point| trials.iter().any(|p| at_most(p, q) && smaller(p, q));
    trials.iter().filter(|q| !beaten(q)).count() as u64
}

/// The total and every contribution.
pub fn totals(trials: &[Point], reference: Point) -> Counts {
    count(trials, [0; 3], reference)
}

/// The gain of a point over the trials, and its joint contribution with each of them.
pub fn gain_and_joints(point: Point, trials: &[Point], reference: Point) -> (u64, Vec<u64>) {
    let counts = count(trials, point, reference);
    let edge = |axis| if point[axis] < reference[axis] { reference[axis] - point[axis] } else { 0 };
    let own: u64 = (0..3).map(edge).product();
    (own - counts.covered, counts.alone)
}
