//! The trial archive: scored trials under a reference point, with their hypervolume and each
//! trial's contribution, counted in unit cells.
//!
//! A point is three whole numbers x, y, z, each 0 to 1,048,576; lower is better. It dominates the
//! cell (i, j, k) below the reference where x ≤ i, y ≤ j and z ≤ k: none where it is at the
//! reference or beyond it on any axis. The *total* is the number of cells that some trial
//! dominates, a *contribution* the number that this trial dominates and no other does. Equal trials
//! are several trials. A trial is on the *front* where no other trial is at most equal on all axes
//! and smaller on at least one.
//!
//! ```
//! use trial_archive::{Archive, Refusal};
//!
//! # fn main() -> Result<(), Refusal> {
//! let mut archive = Archive::start([4, 4, 4], 8)?;
//! archive.insert(1, [1, 2, 2])?;
//! archive.insert(2, [2, 1, 2])?;
//! archive.insert(3, [2, 2, 1])?;
//! assert_eq!(archive.total(), 20);
//! assert_eq!(archive.gain([1, 1, 1])?, 7);
//! assert_eq!(archive.insert(3, [0, 0, 0]), Err(Refusal::NumberHeld));
//!
//! let dropped = archive.reduce(2)?;
//! assert_eq!((dropped[0].number, dropped[0].contribution), (1, 4));
//!
//! let card = archive.write_card()?;
//! assert_eq!(card.lines().nth(1), Some("       3       2       2       1"));
//! assert_eq!(Archive::load_card(card.as_bytes()), Ok(archive));
//! # Ok(())
//! # }
//! ```
//!
//! [`Archive`] owns its memory. The functions of [`words`] work on memory that the caller lends,
//! and [`sys`] is the bare C interface. [`volume()`] is the figure in double precision, to stand
//! beside those of codes that compute in doubles, and [`count4()`] has the figures of points with a
//! fourth score; neither needs an archive.
//!
//! # Building and testing
//!
//! The library itself is `libtrial_archive.a`. It is sought in `target/staticlib` of the
//! repository, where `tools/build trial_archive` writes it, or in the folder that the variable
//! `TRIAL_ARCHIVE_LIB_DIR` names. Run the tests by `cargo test --release`: they make hundreds of
//! thousands of calls, which take seconds then and a minute or two in a debug build.
//!
//! # The archive's words
//!
//! Word 0: count of trials. 1: capacity, 1 to 512. 2, 3, 4: the reference, each number 1 to
//! 1,048,576. 5: total. 6: how many trials are on the front. 7: zero. From word 8 come records of
//! five words: trial number (1 to 9,999,999), x, y, z (each 0 to 1,048,576), contribution, in
//! ascending order of z, then y, then x, then trial number. Words of unused records are zero.
//!
//! # Cards
//!
//! A card is text of 33 bytes a line: four decimal numbers, each right-justified behind spaces in
//! eight bytes, and byte 10. Line 1: capacity and reference. Each further line: trial number, x, y,
//! z. Total, front and contributions do not show on it; loading counts them anew. So the card that
//! [`Archive::write_card`] gives loads to the same words where the audit says yes. A card that is
//! loaded and written again has its trials in archive order, and is the same byte for byte exactly
//! where they stood in that order.
//!
//! # Orders of the axes
//!
//! [`Archive::rearranged`] gives the archive with its axes in another order, reference and trials: the
//! one that a fresh archive of the rearranged trials would be. Total and front are the same, and each
//! trial number keeps its contribution. There are six orders, see [`AxisOrder`]; the
//! [`AxisOrder::inverse`] of one restores every word.
//!
//! # Repeated runs
//!
//! [`Figures::of`] takes 1 to 15 archives that have one reference and gives the sum of their totals,
//! the least, the greatest, the median, the median's share of the box, and whether every audit says
//! yes. In lent memory they lie one behind the other, for [`words::figures`].
//!
//! ```
//! use trial_archive::{Archive, Figures, Refusal};
//!
//! # fn main() -> Result<(), Refusal> {
//! let mut runs = vec![Archive::start([4, 4, 4], 8)?; 3];
//! runs[0].insert(1, [1, 2, 2])?;
//! runs[1].insert(1, [2, 2, 2])?;
//! runs[2].insert(1, [0, 1, 2])?;
//! let figures = Figures::of(&runs)?;
//! assert_eq!((figures.sum, figures.median, figures.share), (44, 12, 187_500));
//! assert!(figures.audits);
//! # Ok(())
//! # }
//! ```

mod archive;
mod axes;
mod figures;
mod four;
mod refusal;
mod rule;
pub mod sys;
mod volume;
pub mod words;

pub use archive::{Archive, Contribution, Filled, Trial};
pub use axes::AxisOrder;
pub use figures::Figures;
pub use four::{count4, Counts4};
pub use refusal::{CardRefusal, Refusal};
pub use rule::TieRule;
pub use volume::volume;

/// Judges a card without an archive, as [`Archive::load_card`] would.
pub fn check_card(card: &[u8]) -> Result<(), CardRefusal> {
    // SAFETY: pointer and length are those of one slice borrowed for the call.
    let packed = unsafe { sys::ta_card_check(card.as_ptr(), card.len()) };
    CardRefusal::check(packed / 65_536, packed % 65_536)
}
