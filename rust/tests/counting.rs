//! The reference's two ways of counting against each other.

use crate::reference::{blocks, cells, Point};
use crate::rng::{scenes, Rng};

/// A point, on some axes at the reference or beyond it.
fn point(rng: &mut Rng, reference: Point) -> Point {
    reference.map(|r| rng.within(0..=r + 2))
}

#[test]
fn cells_and_blocks_agree() {
    scenes(1, |rng| {
        let reference = [0; 3].map(|_: u64| rng.within(1..=9));
        let points: Vec<Point> = (0..rng.within(0..=12)).map(|_| point(rng, reference)).collect();
        for corner in [[0; 3], point(rng, reference)] {
            let plain = cells::count(&points, corner, reference);
            assert_eq!(blocks::count(&points, corner, reference), plain, "{points:?} {corner:?}");
        }
        1
    });
}
