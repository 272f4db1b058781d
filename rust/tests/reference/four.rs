//! Figures on four axes, written from document 02, W-211. The cells are counted in slices; three other
//! ways stand beside that one, for few points, few different coordinates or a small box.

use super::Counts;

/// x, y, z, w.
pub type Point4 = [u64; 4];

/// "A reference of four numbers, each 1 to 32,768"; "four coordinates a point, each 0 to 32,768".
pub const MOST: u64 = 32_768;
const MAX_POINTS: usize = 512;

/// "4 for the reference, then 17 for a length not a multiple of four, 20, 6 for a coordinate above
/// 32,768, and 16 for an output below points + 1 words."
fn read(reference: Point4, coords: &[u64], out_len: usize) -> Result<Vec<Point4>, u64> {
    if reference.iter().any(|&number| number == 0 || number > MOST) {
        return Err(4);
    }
    if coords.len() % 4 != 0 {
        return Err(17);
    }
    if coords.len() / 4 > MAX_POINTS {
        return Err(20);
    }
    if coords.iter().any(|&coordinate| coordinate > MOST) {
        return Err(6);
    }
    if out_len < coords.len() / 4 + 1 {
        return Err(16);
    }
    Ok(coords.chunks(4).map(|p| [p[0], p[1], p[2], p[3]]).collect())
}

/// "Total, then contributions in input order, words behind them untouched."
pub fn count4(reference: Point4, coords: &[u64], out: &mut [u64]) -> Result<(), u64> {
    let points = read(reference, coords, out.len())?;
    let counts = in_slices(&points, reference);
    out[0] = counts.covered;
    out[1..=points.len()].copy_from_slice(&counts.alone);
    Ok(())
}

/// The places below the reference's where points begin on an axis, and the reference's behind them.
fn cuts(points: &[&(usize, Point4)], axis: usize, end: u64) -> Vec<u64> {
    let mut cuts: Vec<u64> = points.iter().map(|(_, p)| p[axis]).filter(|&c| c < end).collect();
    cuts.push(end);
    cuts.sort_unstable();
    cuts.dedup();
    cuts
}

/// Slices along w, slices of these along z, and in each the steps of the points that reach it, which
/// stand in ascending x. A column is covered from the least y so far on; up to the second least one
/// by that point alone.
pub fn in_slices(points: &[Point4], reference: Point4) -> Counts {
    let [rx, ry, rz, rw] = reference;
    let mut counts = Counts { covered: 0, alone: vec![0; points.len()] };
    let mut ascending: Vec<(usize, Point4)> = points.iter().copied().enumerate().collect();
    ascending.retain(|(_, p)| p[0] < rx && p[1] < ry);
    ascending.sort_unstable_by_key(|(_, p)| p[0]);
    let all: Vec<&(usize, Point4)> = ascending.iter().collect();
    for slice in cuts(&all, 3, rw).windows(2) {
        let slab: Vec<_> = all.iter().copied().filter(|(_, p)| p[3] <= slice[0]).collect();
        for layer in cuts(&slab, 2, rz).windows(2) {
            let depth = (slice[1] - slice[0]) * (layer[1] - layer[0]);
            let (mut from, mut least, mut second, mut lowest) = (0, ry, ry, None);
            let mut column = |until: u64, least: u64, second: u64, lowest: Option<usize>| {
                counts.covered += (until - from) * (ry - least) * depth;
                if let Some(index) = lowest {
                    counts.alone[index] += (until - from) * (second - least) * depth;
                }
                from = until;
            };
            for &&(index, [x, y, _, _]) in slab.iter().filter(|(_, p)| p[2] <= layer[0]) {
                column(x, least, second, lowest);
                if y < least {
                    (least, second, lowest) = (y, least, Some(index));
                } else {
                    second = second.min(y);
                }
            }
            column(rx, least, second, lowest);
        }
    }
    counts
}

/// Cell by cell, straight from the definitions.
pub fn by_cells(points: &[Point4], reference: Point4) -> Counts {
    let mut counts = Counts { covered: 0, alone: vec![0; points.len()] };
    let [rx, ry, rz, rw] = reference;
    for cell in 0..rx * ry * rz * rw {
        let cell = [cell % rx, cell / rx % ry, cell / (rx * ry) % rz, cell / (rx * ry * rz)];
        let dominates = |p: &Point4| (0..4).all(|axis| p[axis] <= cell[axis]);
        let mut dominators = (0..points.len()).filter(|&index| dominates(&points[index]));
        if let Some(first) = dominators.next() {
            counts.covered += 1;
            if dominators.next().is_none() {
                counts.alone[first] += 1;
            }
        }
    }
    counts
}

/// The cells that all of the points dominate.
fn joint(points: impl Iterator<Item = Point4>, reference: Point4) -> i128 {
    let corner = points.fold([0; 4], |corner: Point4, p| [0, 1, 2, 3].map(|a| corner[a].max(p[a])));
    (0..4).map(|axis| i128::from(reference[axis].saturating_sub(corner[axis]))).product()
}

/// The cells that some of the points dominate: those of each one, less those of each two, and so on.
fn union(points: &[Point4], reference: Point4) -> i128 {
    let signed = |subset: u32| {
        let of_it = (0..points.len()).filter(|index| subset >> index & 1 == 1);
        let cells = joint(of_it.map(|index| points[index]), reference);
        cells * if subset.count_ones() % 2 == 1 { 1 } else { -1 }
    };
    (1..1 << points.len()).map(signed).sum()
}

/// By inclusion and exclusion, for few points.
pub fn by_inclusion(points: &[Point4], reference: Point4) -> Counts {
    let whole = union(points, reference);
    let without = |index: usize| {
        let mut others = points.to_vec();
        others.remove(index);
        (whole - union(&others, reference)) as u64
    };
    Counts { covered: whole as u64, alone: (0..points.len()).map(without).collect() }
}

/// In blocks between the coordinates that occur, for at most 64 points: on each axis, which points
/// have begun at a block is a set of bits, and the points that dominate it are in all four sets.
pub fn in_blocks(points: &[Point4], reference: Point4) -> Counts {
    let mut counts = Counts { covered: 0, alone: vec![0; points.len()] };
    let axis = |axis: usize| -> Vec<(u64, u64)> {
        let mut cuts: Vec<u64> = points.iter().map(|p| p[axis].min(reference[axis])).collect();
        cuts.extend([0, reference[axis]]);
        cuts.sort_unstable();
        cuts.dedup();
        let begun = |cut: u64| (0..points.len()).filter(move |&index| points[index][axis] <= cut);
        let bits = |cut: u64| begun(cut).map(|index| 1 << index).sum();
        cuts.windows(2).map(|pair| (pair[1] - pair[0], bits(pair[0]))).collect()
    };
    let [xs, ys, zs, ws] = [0, 1, 2, 3].map(axis);
    for &(w, in_w) in &ws {
        for &(z, in_z) in &zs {
            for &(y, in_y) in &ys {
                let (side, among) = (w * z * y, in_w & in_z & in_y);
                for &(x, in_x) in &xs {
                    let dominators: u64 = among & in_x;
                    if dominators != 0 {
                        counts.covered += side * x;
                    }
                    if dominators.is_power_of_two() {
                        counts.alone[dominators.trailing_zeros() as usize] += side * x;
                    }
                }
            }
        }
    }
    counts
}
