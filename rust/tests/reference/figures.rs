//! Figures over repeated runs, written from document 02, W-213.

use super::box_of;
use super::calls::{self, Archive};

/// The whole number of millionths next to total ÷ cells. Two are as near in a tie alone: then the even
/// one.
fn millionths(total: u64, cells: u64) -> u64 {
    let (exact, cells) = (u128::from(total) * 1_000_000, u128::from(cells));
    let near = |number: &u128| 2 * (number * cells).abs_diff(exact) <= cells;
    let mut nearest: Vec<u128> = (exact / cells..=exact / cells + 1).filter(near).collect();
    if nearest.len() == 2 {
        nearest.retain(|number| number % 2 == 0);
    }
    nearest[0] as u64
}

/// "23 where the number is 0 or above 15, then rows 1 to 3 of each archive in turn, then 23 where a
/// reference differs from the first's": the archives, or the row.
pub fn archives(words: &[u64], number: u64) -> Result<Vec<Archive>, u64> {
    if !(1..=15).contains(&number) {
        return Err(23);
    }
    let mut archives = Vec::new();
    let mut rest = words;
    for _ in 0..number {
        let archive = calls::read(rest)?;
        rest = &rest[8 + 5 * archive.capacity as usize..];
        archives.push(archive);
    }
    if archives.iter().any(|archive| archive.reference != archives[0].reference) {
        return Err(23);
    }
    Ok(archives)
}

/// Sum, least, greatest, median, share and audits of archives that were read.
pub fn of(archives: &[Archive], audited: bool) -> [u64; 6] {
    let mut totals: Vec<u64> = archives.iter().map(|archive| archive.total).collect();
    let sum: u128 = totals.iter().map(|&total| u128::from(total)).sum();
    totals.sort_unstable();
    let median = totals[(totals.len() - 1) / 2];
    [
        u64::try_from(sum).expect("at most 15 × 2^60"),
        totals[0],
        totals[totals.len() - 1],
        median,
        millionths(median, box_of(archives[0].reference)),
        u64::from(audited),
    ]
}

pub fn figures(words: &[u64], number: u64) -> Result<[u64; 6], u64> {
    let archives = archives(words, number)?;
    Ok(of(&archives, archives.iter().all(Archive::audit)))
}
