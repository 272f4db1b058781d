//! The trial book of document 01: it is fed arguments and the lengths of lent slices, and never
//! sees a word.

use super::calls::{Archive, Record};
use super::{front, totals, Point, MAX_NUMBER};

#[derive(Clone, Debug)]
pub struct Book {
    reference: Point,
    capacity: u64,
    /// Number and point of the surviving trials, in the order in which they were entered.
    trials: Vec<(u64, Point)>,
}

impl Book {
    /// The book after a start that is done.
    pub fn start(reference: Point, capacity: u64) -> Book {
        Book { reference, capacity, trials: Vec::new() }
    }

    pub fn trials(&self) -> &[(u64, Point)] {
        &self.trials
    }

    pub fn insert(&mut self, len: usize, number: u64, point: Point) -> u64 {
        if self.too_short(len) {
            return 1;
        }
        if !(1..=MAX_NUMBER).contains(&number) {
            return 5;
        }
        // Document 02, W-201: "Row 6 is given only above 1,048,576."
        if point[0] > 1_048_576 || point[1] > 1_048_576 || point[2] > 1_048_576 {
            return 6;
        }
        if self.held(number) {
            return 7;
        }
        if self.trials.len() as u64 == self.capacity {
            return 8;
        }
        self.trials.push((number, point));
        0
    }

    pub fn remove(&mut self, len: usize, number: u64) -> u64 {
        if self.too_short(len) {
            return 1;
        }
        if !self.held(number) {
            return 9;
        }
        self.trials.retain(|t| t.0 != number);
        0
    }

    /// The numbers struck out, each with its count at that moment, or a refusal.
    pub fn reduce(
        &mut self,
        len: usize,
        k: u64,
        rule: u64,
        log_len: usize,
    ) -> Result<Vec<(u64, u64)>, u64> {
        if self.too_short(len) {
            return Err(1);
        }
        if rule != 0 && rule != 1 {
            return Err(18);
        }
        let count = self.trials.len() as u64;
        if k > count {
            return Err(11);
        }
        if (log_len as u64) < 2 * (count - k) {
            return Err(12);
        }
        let mut notes = Vec::new();
        while self.trials.len() as u64 > k {
            let counts = totals(&self.points(), self.reference).alone;
            let least = *counts.iter().min().expect("a trial is held");
            let among = self.trials.iter().zip(&counts).filter(|(_, &count)| count == least);
            let mut numbers: Vec<u64> = among.map(|(trial, _)| trial.0).collect();
            numbers.sort_unstable();
            // "The lowest trial number now goes"; "0 the default, 1 the highest".
            let number = numbers[if rule == 1 { numbers.len() - 1 } else { 0 }];
            self.trials.retain(|t| t.0 != number);
            notes.push((number, least));
        }
        Ok(notes)
    }

    /// The words of a fresh archive that holds the surviving trials, counted from nothing.
    pub fn fresh(&self) -> Vec<u64> {
        let mut trials = self.trials.clone();
        trials.sort_by_key(|&(number, [x, y, z])| (z, y, x, number));
        let points: Vec<Point> = trials.iter().map(|t| t.1).collect();
        let counts = totals(&points, self.reference);
        let records = trials.iter().zip(counts.alone);
        let records = records
            .map(|(&(number, point), contribution)| Record { number, point, contribution })
            .collect();
        let (capacity, reference, total) = (self.capacity, self.reference, counts.covered);
        Archive { capacity, reference, total, front: front(&points), records }.words()
    }

    fn too_short(&self, len: usize) -> bool {
        (len as u64) < 8 + 5 * self.capacity
    }

    fn held(&self, number: u64) -> bool {
        self.trials.iter().any(|t| t.0 == number)
    }

    fn points(&self) -> Vec<Point> {
        self.trials.iter().map(|t| t.1).collect()
    }
}

/// The words of a fresh archive of these trials, all of which it takes.
pub fn words_of(reference: Point, capacity: u64, trials: &[(u64, Point)]) -> Vec<u64> {
    let mut book = Book::start(reference, capacity);
    for &(number, point) in trials {
        assert_eq!(book.insert(usize::MAX, number, point), 0);
    }
    book.fresh()
}
