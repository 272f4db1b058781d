//! The calls on lent memory: an archive is a slice of words that the caller owns.
//!
//! The slice may hold anything and may be longer than the archive; words from
//! 8 + 5 × capacity on are neither read nor written. The crate's documentation has the layout.
//! [`figures`] takes several archives in one slice. [`volume`] takes doubles and no archive,
//! [`count4`] points of four words and none either.

use crate::refusal::{CardRefusal, Refusal};
use crate::sys;
use crate::{AxisOrder, Contribution, Figures, Filled, TieRule};

/// The words that an archive of this capacity takes: 8 + 5 × capacity.
pub const fn needed(capacity: usize) -> usize {
    8 + 5 * capacity
}

/// The words that the log of a reduction from `count` to `k` trials takes: 2 × (count − k).
pub const fn log_needed(count: usize, k: usize) -> usize {
    2 * count.saturating_sub(k)
}

/// The bytes that the card of `count` trials takes: 33 × (count + 1).
pub const fn card_needed(count: usize) -> usize {
    33 * (count + 1)
}

/// The bytes that the report on `count` trials takes: 53 × (count + 1).
pub const fn report_needed(count: usize) -> usize {
    53 * (count + 1)
}

/// The words that the figures of `points` points on four axes take: points + 1.
pub const fn count4_needed(points: usize) -> usize {
    points + 1
}

/// Writes an empty archive; what the words held before does not matter.
pub fn start(words: &mut [u64], reference: [u32; 3], capacity: u64) -> Result<(), Refusal> {
    let [rx, ry, rz] = reference.map(u64::from);
    // SAFETY: pointer and length are those of one slice borrowed for the call.
    let number = unsafe { sys::ta_start(words.as_mut_ptr(), words.len(), rx, ry, rz, capacity) };
    Refusal::check(number)
}

/// Inserts a trial.
pub fn insert(words: &mut [u64], number: u64, point: [u32; 3]) -> Result<(), Refusal> {
    let [x, y, z] = point.map(u64::from);
    // SAFETY: pointer and length are those of one slice borrowed for the call.
    Refusal::check(unsafe { sys::ta_insert(words.as_mut_ptr(), words.len(), number, x, y, z) })
}

/// Inserts a whole grid of trials, each a number and a point, one by one up to the first that is
/// turned down; earlier ones stay.
pub fn insert_grid(words: &mut [u64], grid: &[[u64; 4]]) -> Result<Filled, Refusal> {
    let grid = grid.as_flattened();
    // SAFETY: pointers and lengths are those of two slices borrowed for the call, the first
    // mutably, which therefore share no memory.
    let answer =
        unsafe { sys::ta_insert_grid(words.as_mut_ptr(), words.len(), grid.as_ptr(), grid.len()) };
    Refusal::check(answer.refusal)?;
    Ok(Filled { inserted: answer.inserted, stop: Refusal::check(answer.stop).err() })
}

/// Removes a trial.
pub fn remove(words: &mut [u64], number: u64) -> Result<(), Refusal> {
    // SAFETY: pointer and length are those of one slice borrowed for the call.
    Refusal::check(unsafe { sys::ta_remove(words.as_mut_ptr(), words.len(), number) })
}

/// The trial whose kept contribution is least; among equals by the tie rule.
pub fn least(words: &[u64], rule: TieRule) -> Result<Contribution, Refusal> {
    // SAFETY: pointer and length are those of one slice borrowed for the call.
    let answer = unsafe { sys::ta_least(words.as_ptr(), words.len(), rule.number()) };
    Refusal::check(answer.refusal)?;
    Ok(Contribution { number: answer.number, contribution: answer.contribution })
}

/// Drops the least contributor, among equals by the tie rule, until `k` trials are held and answers
/// the count of drops; each drop puts its number and its contribution at that moment into the log.
pub fn reduce(words: &mut [u64], k: u64, rule: TieRule, log: &mut [u64]) -> Result<u64, Refusal> {
    // SAFETY: pointers and lengths are those of two slices borrowed mutably for the call, which
    // therefore share no memory.
    value(unsafe {
        let (words, len) = (words.as_mut_ptr(), words.len());
        sys::ta_reduce(words, len, k, rule.number(), log.as_mut_ptr(), log.len())
    })
}

/// The cells that both trials dominate and no third does.
pub fn joint(words: &[u64], first: u64, second: u64) -> Result<u64, Refusal> {
    // SAFETY: pointer and length are those of one slice borrowed for the call.
    value(unsafe { sys::ta_joint(words.as_ptr(), words.len(), first, second) })
}

/// The cells that the point dominates and no trial does.
pub fn gain(words: &[u64], point: [u32; 3]) -> Result<u64, Refusal> {
    let [x, y, z] = point.map(u64::from);
    // SAFETY: pointer and length are those of one slice borrowed for the call.
    value(unsafe { sys::ta_gain(words.as_ptr(), words.len(), x, y, z) })
}

/// What replacing the trial by the point would change: the counted total afterwards less the counted
/// total before. The archive is not touched.
pub fn replace_effect(words: &[u64], number: u64, point: [u32; 3]) -> Result<i64, Refusal> {
    let [x, y, z] = point.map(u64::from);
    // SAFETY: pointer and length are those of one slice borrowed for the call.
    let answer = unsafe { sys::ta_replace_effect(words.as_ptr(), words.len(), number, x, y, z) };
    Refusal::check(answer.refusal)?;
    Ok(answer.difference)
}

/// The kept total in millionths of the box, rounded to the nearest; a tie goes to the even number.
pub fn share(words: &[u64]) -> Result<u64, Refusal> {
    // SAFETY: pointer and length are those of one slice borrowed for the call.
    value(unsafe { sys::ta_share(words.as_ptr(), words.len()) })
}

/// Whether the kept total, the kept front and all kept contributions equal their counts.
pub fn audit(words: &[u64]) -> Result<bool, Refusal> {
    // SAFETY: pointer and length are those of one slice borrowed for the call.
    value(unsafe { sys::ta_audit(words.as_ptr(), words.len()) }).map(|yes| yes == 1)
}

/// Loads a card as its start and insertions would, and answers the count of trials loaded.
pub fn load_card(words: &mut [u64], card: &[u8]) -> Result<u64, CardRefusal> {
    // SAFETY: pointers and lengths are those of two slices borrowed for the call, the first
    // mutably, which therefore share no memory.
    let answer =
        unsafe { sys::ta_card_load(words.as_mut_ptr(), words.len(), card.as_ptr(), card.len()) };
    CardRefusal::check(answer.refusal, answer.line)?;
    Ok(answer.count)
}

/// Writes the card, its trials in archive order, and answers its length in bytes. No audit is
/// asked: total, front and contributions do not show on a card.
pub fn write_card(words: &[u64], out: &mut [u8]) -> Result<u64, Refusal> {
    // SAFETY: pointers and lengths are those of two slices borrowed for the call, the second
    // mutably, which therefore share no memory.
    value(unsafe { sys::ta_card_write(words.as_ptr(), words.len(), out.as_mut_ptr(), out.len()) })
}

/// Writes the report and answers its length in bytes.
pub fn report(words: &[u64], out: &mut [u8]) -> Result<u64, Refusal> {
    // SAFETY: pointers and lengths are those of two slices borrowed for the call, the second
    // mutably, which therefore share no memory.
    value(unsafe { sys::ta_report(words.as_ptr(), words.len(), out.as_mut_ptr(), out.len()) })
}

/// Writes the archive with its axes in another order, reference and trials, into the first
/// 8 + 5 × capacity words of the second slice; what these held before does not matter. Words behind
/// them are not written, and none is where the call is turned down: by the checks of the archive, then
/// by [`Refusal::Miscount`] where the audit says no, then by [`Refusal::SliceShort`] for the second
/// slice.
pub fn rearrange(words: &[u64], order: AxisOrder, second: &mut [u64]) -> Result<(), Refusal> {
    // SAFETY: pointers and lengths are those of two slices borrowed for the call, the second
    // mutably, which therefore share no memory.
    Refusal::check(unsafe {
        let (words, len) = (words.as_ptr(), words.len());
        sys::ta_rearrange(words, len, order.number(), second.as_mut_ptr(), second.len())
    })
}

/// The figures of so many archives, as [`Figures`] has them, from a slice in which they lie one behind
/// the other: each takes [`needed`] words for its own capacity, and the next one begins right behind.
/// Words behind the last are not read.
///
/// Turned down by [`Refusal::BadRuns`] where the number is 0 or above 15, whatever the slice; then by the
/// checks of each archive in turn, for which the slice is the rest of it from where the archive begins;
/// then by [`Refusal::BadRuns`] where a reference differs from the first archive's.
///
/// ```
/// use trial_archive::{words, Refusal};
///
/// # fn main() -> Result<(), Refusal> {
/// let (first, second) = (words::needed(8), words::needed(20));
/// let mut runs = vec![0; first + second];
/// words::start(&mut runs[..first], [4, 4, 4], 8)?;
/// words::start(&mut runs[first..], [4, 4, 4], 20)?;
/// words::insert(&mut runs[first..], 1, [1, 2, 2])?;
/// let figures = words::figures(&runs, 2)?;
/// assert_eq!((figures.sum, figures.median), (12, 0));
/// assert_eq!(words::figures(&runs, 3), Err(Refusal::SliceShort));
/// # Ok(())
/// # }
/// ```
pub fn figures(words: &[u64], number: u64) -> Result<Figures, Refusal> {
    // SAFETY: pointer and length are those of one slice borrowed for the call.
    let answer = unsafe { sys::ta_figures(words.as_ptr(), words.len(), number) };
    Refusal::check(answer.refusal)?;
    let sys::FiguresAnswer { sum, least, greatest, median, share, audits, .. } = answer;
    Ok(Figures { sum, least, greatest, median, share, audits: audits == 1 })
}

/// The volume of points in double precision, as [`crate::volume()`] gives it, from a slice with three
/// doubles to a point. A length that is not a multiple of three is [`Refusal::BadLength`].
pub fn volume(reference: [f64; 3], points: &[f64]) -> Result<f64, Refusal> {
    let [x, y, z] = reference;
    let reference = sys::Corner { x, y, z };
    // SAFETY: pointer and length are those of one slice borrowed for the call.
    let answer = unsafe { sys::ta_volume(reference, points.as_ptr(), points.len()) };
    Refusal::check(answer.refusal)?;
    Ok(answer.volume)
}

/// The figures of points on four axes, as [`crate::count4()`] gives them, from a slice with four words
/// to a point into another: the total, then each point's contribution, in the order of the points.
/// Words behind these points + 1 are not written, and none is where the call is turned down. A length
/// of `coords` that is not a multiple of four is [`Refusal::BadLength`], fewer than points + 1 words of
/// `out` are [`Refusal::OutputShort`].
pub fn count4(reference: [u64; 4], coords: &[u64], out: &mut [u64]) -> Result<(), Refusal> {
    let [rx, ry, rz, rw] = reference;
    // SAFETY: pointers and lengths are those of two slices borrowed for the call, the second
    // mutably, which therefore share no memory.
    Refusal::check(unsafe {
        let (coords, len) = (coords.as_ptr(), coords.len());
        sys::ta_count4(rx, ry, rz, rw, coords, len, out.as_mut_ptr(), out.len())
    })
}

fn value(answer: sys::Answer) -> Result<u64, Refusal> {
    Refusal::check(answer.refusal)?;
    Ok(answer.value)
}
