//! Counting cell by cell, straight from the definitions.

use super::{Counts, Point};

fn dominates(point: &Point, cell: &Point) -> bool {
    (0..3).all(|axis| point[axis] <= cell[axis])
}

/// Counts the cells that `corner` dominates.
pub fn count(points: &[Point], corner: Point, reference: Point) -> Counts {
    let mut counts = Counts { covered: 0, alone: vec![0; points.len()] };
    for i in corner[0]..reference[0] {
        for j in corner[1]..reference[1] {
            for k in corner[2]..reference[2] {
                let mut dominators =
                    (0..points.len()).filter(|&t| dominates(&points[t], &[i, j, k]));
                if let Some(first) = dominators.next() {
                    counts.covered += 1;
                    if dominators.next().is_none() {
                        counts.alone[first] += 1;
                    }
                }
            }
        }
    }
    counts
}
