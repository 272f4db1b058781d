//! Counting in blocks: the coordinates that occur cut the box into a grid of blocks, and all
//! cells of a block have the same dominators. Layer by layer in z, prefix sums over the grid say
//! how many points dominate a block, and the sum of their indices says which one where it is
//! alone.

use super::{Counts, Point};

/// The places where blocks begin on an axis, and the reference behind them.
fn cuts(points: &[Point], corner: Point, reference: Point, axis: usize) -> Vec<u64> {
    let mut cuts: Vec<u64> = points.iter().map(|p| p[axis].max(corner[axis])).collect();
    cuts.push(corner[axis]);
    cuts.retain(|&c| c < reference[axis]);
    cuts.sort_unstable();
    cuts.dedup();
    cuts.push(reference[axis]);
    cuts
}

/// Where `value` stands among the cuts.
fn place(cuts: &[u64], value: u64) -> usize {
    cuts.partition_point(|&c| c < value)
}

/// Counts the cells that `corner` dominates.
pub fn count(points: &[Point], corner: Point, reference: Point) -> Counts {
    let mut counts = Counts { covered: 0, alone: vec![0; points.len()] };
    let [xs, ys, zs] = [0, 1, 2].map(|axis| cuts(points, corner, reference, axis));
    let (across, along) = (xs.len() - 1, ys.len() - 1);

    // Dominators that begin in a block's column so far, and the sum of their indices.
    let mut begun = vec![(0_usize, 0_usize); across * along];
    let mut prefix = vec![(0_usize, 0_usize); along];
    for layer in 0..zs.len() - 1 {
        for (index, p) in points.iter().enumerate() {
            let (i, j) = (place(&xs, p[0]), place(&ys, p[1]));
            let here = p[2].max(corner[2]) == zs[layer];
            if here && i < across && j < along {
                let cell = &mut begun[i * along + j];
                *cell = (cell.0 + 1, cell.1 + index);
            }
        }
        let height = zs[layer + 1] - zs[layer];
        prefix.fill((0, 0));
        for i in 0..across {
            let mut row = (0, 0);
            for j in 0..along {
                let cell = begun[i * along + j];
                row = (row.0 + cell.0, row.1 + cell.1);
                prefix[j] = (prefix[j].0 + row.0, prefix[j].1 + row.1);
                let (dominators, indices) = prefix[j];
                let volume = (xs[i + 1] - xs[i]) * (ys[j + 1] - ys[j]) * height;
                if dominators > 0 {
                    counts.covered += volume;
                }
                if dominators == 1 {
                    counts.alone[indices] += volume;
                }
            }
        }
    }
    counts
}
