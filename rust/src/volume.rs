//! The volume in doubles.

use crate::refusal::Refusal;
use crate::words;

/// The volume of at most 512 points in double precision, to stand beside the figures of codes that
/// compute in doubles.
///
/// All doubles are whole: the reference's 1 to 1,048,576, the points' 0 to 1,048,576 whatever the
/// reference. Minus zero counts as zero. Points at the reference or past it are allowed and dominate
/// nothing.
///
/// The sum starts at zero. For each distinct z below the reference's, of any point given, also of
/// one past the reference on x or y, ascending, area × height is added to it. The area is the number
/// of cells of layer z that some point dominates; the height runs to the next such z, or to the
/// reference's. Product and sum are rounded once each.
///
/// The volume is a whole number. Where the box is at most 2^53, it equals the number of cells that
/// some point dominates; otherwise it lies within 192 × points of that number.
///
/// Refused by [`Refusal::TooManyPoints`], then [`Refusal::BadDouble`].
///
/// ```
/// use trial_archive::{volume, Archive, Refusal};
///
/// # fn main() -> Result<(), Refusal> {
/// let points = [[1.0, 2.0, 2.0], [2.0, 1.0, 2.0], [2.0, 2.0, 1.0], [1.0, 1.0, 3.0]];
/// assert_eq!(volume([4.0, 4.0, 4.0], &points)?, 21.0);
/// assert_eq!(volume([4.0, 4.0, 0.5], &points), Err(Refusal::BadDouble));
///
/// // In the largest box an archive counts every cell; doubles here have steps of 128.
/// let largest = 1_048_576.0;
/// let near = [[1.0, 0.0, 0.0], [0.0, 1.0, 0.0], [0.0, 0.0, 1.0]];
/// let mut archive = Archive::start([1_048_576; 3], 3)?;
/// archive.insert_grid(&[[1, 1, 0, 0], [2, 0, 1, 0], [3, 0, 0, 1]])?;
/// assert_eq!(archive.total(), (1 << 60) - 1);
/// assert_eq!(volume([largest; 3], &near)?, (1_u64 << 60) as f64);
/// # Ok(())
/// # }
/// ```
pub fn volume(reference: [f64; 3], points: &[[f64; 3]]) -> Result<f64, Refusal> {
    words::volume(reference, points.as_flattened())
}
