//! Figures over repeated runs.

use crate::refusal::Refusal;
use crate::words;
use crate::Archive;

const MAX_RUNS: usize = 15;

/// The figures of repeated runs: of 1 to 15 archives that have one reference.
///
/// They are of the totals as kept. Whether these are the counts is said by `audits`.
///
/// ```
/// use trial_archive::{Archive, Figures, Refusal};
///
/// # fn main() -> Result<(), Refusal> {
/// let mut runs = Vec::new();
/// for point in [[1, 2, 2], [2, 2, 2], [0, 1, 2], [3, 3, 3]] {
///     let mut run = Archive::start([4, 4, 4], 8)?;
///     run.insert(1, point)?;
///     runs.push(run);
/// }
/// // The totals are 12, 8, 24 and 1: of the middle two, 8 and 12, the median is the lower.
/// let figures = Figures::of(&runs)?;
/// assert_eq!((figures.sum, figures.least, figures.greatest), (45, 1, 24));
/// assert_eq!((figures.median, figures.share), (8, 125_000));
/// assert!(figures.audits);
///
/// let elsewhere = Archive::start([4, 4, 5], 8)?;
/// assert_eq!(Figures::of([&runs[0], &elsewhere]), Err(Refusal::BadRuns));
/// assert_eq!(Figures::of(&[]), Err(Refusal::BadRuns));
/// # Ok(())
/// # }
/// ```
#[derive(Clone, Copy, Debug, PartialEq, Eq, Hash)]
pub struct Figures {
    /// The sum of the totals: at most 15 × 2^60.
    pub sum: u64,
    /// The least total.
    pub least: u64,
    /// The greatest total.
    pub greatest: u64,
    /// The median of the totals; of an even number of them the lower of the middle two.
    pub median: u64,
    /// The median in millionths of the box, rounded to the nearest; a tie goes to the even number.
    pub share: u64,
    /// Whether every archive's audit says yes.
    pub audits: bool,
}

impl Figures {
    /// The figures of these archives, whose capacities may differ.
    ///
    /// Refused by [`Refusal::BadRuns`] alone: where there is no archive, where there are more than 15,
    /// or where a reference differs from the first one's.
    pub fn of<'a>(archives: impl IntoIterator<Item = &'a Archive>) -> Result<Figures, Refusal> {
        // One too many is turned down whatever the words, so no more are asked for.
        let archives: Vec<&[u64]> =
            archives.into_iter().take(MAX_RUNS + 1).map(Archive::words).collect();
        words::figures(&archives.concat(), archives.len() as u64)
    }
}
