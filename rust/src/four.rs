//! Figures on four axes.

use crate::refusal::Refusal;
use crate::words;

/// The cells of points on four axes.
#[derive(Clone, Debug, PartialEq, Eq, Hash)]
pub struct Counts4 {
    /// The cells that at least one point dominates.
    pub total: u64,
    /// For each point, in the order given, the cells that it dominates and no other point does.
    pub contributions: Vec<u64>,
}

/// Counts the cells of at most 512 points on four axes x, y, z, w.
///
/// Reference numbers are 1 to 32,768, coordinates 0 to 32,768 whatever the reference. A point
/// dominates the cell (i, j, k, l) below the reference where x ≤ i, y ≤ j, z ≤ k and w ≤ l: none
/// where it is at the reference or beyond it on any axis. Equal points are several points: each of
/// them contributes 0.
///
/// Refused by [`Refusal::BadStart`] for the reference, then [`Refusal::TooManyPoints`], then
/// [`Refusal::BadCoordinate`].
///
/// ```
/// use trial_archive::{count4, Refusal};
///
/// # fn main() -> Result<(), Refusal> {
/// // On a flat fourth axis the figures are those of an archive.
/// let points = [[1, 2, 2, 0], [2, 1, 2, 0], [2, 2, 1, 0], [1, 1, 3, 0]];
/// let flat = count4([4, 4, 4, 1], &points)?;
/// assert_eq!(flat.total, 21);
/// assert_eq!(flat.contributions, [2, 2, 4, 1]);
///
/// // The last point is the only one with a cell below 2 on the fourth axis.
/// let points = [[1, 2, 2, 2], [2, 1, 2, 2], [2, 2, 1, 2], [1, 1, 3, 0]];
/// let counts = count4([4, 4, 4, 5], &points)?;
/// assert_eq!(counts.total, 81);
/// assert_eq!(counts.contributions, [6, 6, 12, 21]);
/// assert_eq!(count4([4, 4, 4, 32_769], &points), Err(Refusal::BadStart));
/// # Ok(())
/// # }
/// ```
pub fn count4(reference: [u64; 4], points: &[[u64; 4]]) -> Result<Counts4, Refusal> {
    let mut out = vec![0; words::count4_needed(points.len())];
    words::count4(reference, points.as_flattened(), &mut out)?;
    let contributions = out.split_off(1);
    Ok(Counts4 { total: out[0], contributions })
}
