//! An archive that owns its memory.

use crate::refusal::{CardRefusal, Refusal};
use crate::words;
use crate::{AxisOrder, TieRule};

const MAX_CAPACITY: usize = 512;

/// A trial number and the contribution of that trial.
#[derive(Clone, Copy, Debug, PartialEq, Eq, Hash)]
pub struct Contribution {
    pub number: u64,
    pub contribution: u64,
}

/// What a grid came to: how many of its trials went in, and what stopped it, if anything did.
#[derive(Clone, Copy, Debug, PartialEq, Eq, Hash)]
pub struct Filled {
    pub inserted: u64,
    pub stop: Option<Refusal>,
}

/// A trial held, with its kept contribution.
#[derive(Clone, Copy, Debug, PartialEq, Eq, Hash)]
pub struct Trial {
    pub number: u64,
    pub point: [u32; 3],
    pub contribution: u64,
}

/// Scored trials under a reference point.
///
/// Its words have always passed the checks of [`Refusal::SliceShort`], [`Refusal::BadHeader`] and
/// [`Refusal::BadRecords`], so no method answers these three.
#[derive(Clone, Debug, PartialEq, Eq, Hash)]
pub struct Archive {
    words: Vec<u64>,
}

impl Archive {
    /// An empty archive.
    pub fn start(reference: [u32; 3], capacity: u64) -> Result<Archive, Refusal> {
        // A capacity out of range is turned down whatever the slice, so none is allocated for it.
        let capacity_held = usize::try_from(capacity).unwrap_or(0);
        let allowed = (1..=MAX_CAPACITY).contains(&capacity_held);
        let mut memory = vec![0; if allowed { words::needed(capacity_held) } else { 0 }];
        words::start(&mut memory, reference, capacity)?;
        Ok(Archive { words: memory })
    }

    /// The archive that a card describes.
    pub fn load_card(card: &[u8]) -> Result<Archive, CardRefusal> {
        let mut memory = vec![0; words::needed(MAX_CAPACITY)];
        words::load_card(&mut memory, card)?;
        Ok(Archive::trimmed(memory))
    }

    /// An archive from words kept elsewhere, as [`Archive::words`] gives them; words behind the
    /// archive are dropped. Whether total, front and contributions are right is [`Archive::audit`]'s
    /// to say.
    pub fn from_words(words: Vec<u64>) -> Result<Archive, Refusal> {
        // Share is turned down by the checks of the words and by nothing else.
        words::share(&words)?;
        Ok(Archive::trimmed(words))
    }

    fn trimmed(mut words: Vec<u64>) -> Archive {
        let capacity = words[1] as usize;
        words.truncate(words::needed(capacity));
        Archive { words }
    }

    /// Inserts a trial.
    pub fn insert(&mut self, number: u64, point: [u32; 3]) -> Result<(), Refusal> {
        words::insert(&mut self.words, number, point)
    }

    /// Inserts a whole grid of trials, each a number and a point, one by one up to the first that is
    /// turned down; earlier ones stay. Three to four times as fast as that many insertions.
    pub fn insert_grid(&mut self, grid: &[[u64; 4]]) -> Result<Filled, Refusal> {
        words::insert_grid(&mut self.words, grid)
    }

    /// Removes a trial; its number may be used again.
    pub fn remove(&mut self, number: u64) -> Result<(), Refusal> {
        words::remove(&mut self.words, number)
    }

    /// The trial whose contribution is least; among equals the lowest trial number.
    pub fn least(&self) -> Result<Contribution, Refusal> {
        self.least_by(TieRule::default())
    }

    /// The trial whose contribution is least; among equals by the tie rule.
    pub fn least_by(&self, rule: TieRule) -> Result<Contribution, Refusal> {
        words::least(&self.words, rule)
    }

    /// Drops the least contributor, among equals the lowest trial number, until `k` trials are held.
    /// Answers the drops in turn, each with its contribution at that moment.
    pub fn reduce(&mut self, k: u64) -> Result<Vec<Contribution>, Refusal> {
        self.reduce_by(k, TieRule::default())
    }

    /// As [`Archive::reduce`], with ties settled by this rule.
    pub fn reduce_by(&mut self, k: u64, rule: TieRule) -> Result<Vec<Contribution>, Refusal> {
        let drops = (self.count() as u64).saturating_sub(k) as usize;
        let mut log = vec![0; 2 * drops];
        words::reduce(&mut self.words, k, rule, &mut log)?;
        let pair = |p: &[u64]| Contribution { number: p[0], contribution: p[1] };
        Ok(log.chunks_exact(2).map(pair).collect())
    }

    /// The cells that both trials dominate and no third does.
    pub fn joint(&self, first: u64, second: u64) -> Result<u64, Refusal> {
        words::joint(&self.words, first, second)
    }

    /// The cells that the point dominates and no trial does.
    pub fn gain(&self, point: [u32; 3]) -> Result<u64, Refusal> {
        words::gain(&self.words, point)
    }

    /// What replacing the trial by the point would change: the counted total afterwards less the
    /// counted total before.
    pub fn replace_effect(&self, number: u64, point: [u32; 3]) -> Result<i64, Refusal> {
        words::replace_effect(&self.words, number, point)
    }

    /// The total in millionths of the box, rounded to the nearest; a tie goes to the even number.
    pub fn share(&self) -> Result<u64, Refusal> {
        words::share(&self.words)
    }

    /// Whether the total, the front and all contributions equal their counts. It can be false only
    /// after [`Archive::from_words`].
    pub fn audit(&self) -> Result<bool, Refusal> {
        words::audit(&self.words)
    }

    /// The card: a line of capacity and reference, then a line for each trial, in archive order.
    /// [`Archive::load_card`] makes this archive of it again, with total, front and contributions
    /// counted anew.
    pub fn write_card(&self) -> Result<String, Refusal> {
        let mut out = vec![0; words::card_needed(self.count())];
        let length = words::write_card(&self.words, &mut out)?;
        out.truncate(length as usize);
        Ok(String::from_utf8(out).expect("a card has digits, spaces and line ends only"))
    }

    /// The report: a line of count, reference and total, then a line for each trial.
    pub fn report(&self) -> Result<String, Refusal> {
        let mut out = vec![0; words::report_needed(self.count())];
        let length = words::report(&self.words, &mut out)?;
        out.truncate(length as usize);
        Ok(String::from_utf8(out).expect("a report has digits, spaces and line ends only"))
    }

    /// The archive with its axes in another order, reference and trials. Total and front are the same,
    /// and each trial number keeps its contribution. Refused by [`Refusal::Miscount`] where the audit
    /// says no.
    pub fn rearranged(&self, order: AxisOrder) -> Result<Archive, Refusal> {
        let mut memory = vec![0; self.words.len()];
        words::rearrange(&self.words, order, &mut memory)?;
        Ok(Archive { words: memory })
    }

    /// The count of trials held.
    pub fn count(&self) -> usize {
        self.words[0] as usize
    }

    /// The count of trials that it can hold.
    pub fn capacity(&self) -> usize {
        self.words[1] as usize
    }

    /// The reference point.
    pub fn reference(&self) -> [u32; 3] {
        point(&self.words[2..5])
    }

    /// The kept total.
    pub fn total(&self) -> u64 {
        self.words[5]
    }

    /// The kept size of the front: how many trials no other trial beats, being at most equal on
    /// all axes and smaller on at least one.
    pub fn front(&self) -> usize {
        self.words[6] as usize
    }

    /// The trials held, in archive order.
    pub fn trials(&self) -> impl ExactSizeIterator<Item = Trial> + '_ {
        let records = self.words[8..words::needed(self.count())].chunks_exact(5);
        records.map(|r| Trial { number: r[0], point: point(&r[1..4]), contribution: r[4] })
    }

    /// The archive's words.
    pub fn words(&self) -> &[u64] {
        &self.words
    }

    /// The archive's words, given up.
    pub fn into_words(self) -> Vec<u64> {
        self.words
    }
}

/// Three words that have passed the checks, so that each fits.
fn point(words: &[u64]) -> [u32; 3] {
    [words[0] as u32, words[1] as u32, words[2] as u32]
}
