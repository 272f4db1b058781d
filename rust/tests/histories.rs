//! Long lists of insertions, grids, removals and reductions from a start, refused ones and parts of the
//! words included, against the trial book of document 01.

use crate::lend::{self, narrow};
use crate::reference::book::Book;
use crate::reference::{Point, MAX_COORDINATE, MAX_NUMBER, MAX_REFERENCE};
use crate::rng::{scenes, Rng};
use crate::scenes::{part, wide, Shape, Size};
use trial_archive::{words, Refusal, TieRule};

struct History {
    shape: Shape,
    words: Vec<u64>,
    needed: usize,
    behind: Vec<u64>,
    book: Book,
}

impl History {
    /// A start that is done, whatever the slice held.
    fn start(rng: &mut Rng, size: Size) -> History {
        let shape = Shape::random(rng, size);
        let needed = 8 + 5 * shape.capacity as usize;
        let mut words: Vec<u64> = (0..needed + rng.index(9)).map(|_| rng.next()).collect();
        let behind = words[needed..].to_vec();
        let reference = narrow(shape.reference).expect("a reference allowed");
        assert_eq!(words::start(&mut words, reference, shape.capacity), Ok(()));
        let book = Book::start(shape.reference, shape.capacity);
        History { shape, words, needed, behind, book }
    }

    /// The words are those of a fresh archive of the book's trials.
    fn check_words(&self) {
        assert_eq!(self.words[..self.needed], self.book.fresh(), "words of a fresh archive");
        assert_eq!(self.words[self.needed..], self.behind, "words behind the archive");
    }

    /// The words' own card loads to them again.
    fn check_card(&self) {
        let mut card = vec![0; words::card_needed(self.book.trials().len())];
        assert_eq!(words::write_card(&self.words, &mut card), Ok(card.len() as u64));
        let mut again = vec![u64::MAX; self.needed];
        assert_eq!(words::load_card(&mut again, &card), Ok(self.words[0]));
        assert_eq!(again, self.words[..self.needed], "words loaded from their card");
    }

    /// How many of the words the next call is lent.
    fn lent(&self, rng: &mut Rng) -> usize {
        if rng.chance(90) {
            self.words.len()
        } else {
            part(rng, &self.words, self.needed)
        }
    }

    fn held(&self) -> Vec<Point> {
        self.book.trials().iter().map(|t| t.1).collect()
    }

    fn number(&self, rng: &mut Rng, held: u64) -> u64 {
        if !self.book.trials().is_empty() && rng.chance(held) {
            return rng.pick(self.book.trials()).0;
        }
        let number = rng.within(1..=3 * self.shape.capacity);
        match rng.within(0..=19) {
            0 => rng.pick(&[0, MAX_NUMBER + 1, u64::MAX]),
            1 => rng.pick(&[MAX_NUMBER, 65_536 + number, 131_072 + number]),
            _ => number,
        }
    }

    /// The kept contribution of a trial held.
    fn contribution(&self, number: u64) -> u64 {
        let count = self.words[0] as usize;
        let mut records = self.words[8..8 + 5 * count].chunks(5);
        records.find(|r| r[0] == number).expect("a trial held")[4]
    }

    fn joint(&self, first: u64, second: u64) -> u64 {
        words::joint(&self.words, first, second).expect("both trials are held")
    }

    fn insert(&mut self, rng: &mut Rng) {
        let number = self.number(rng, 10);
        let mut point = self.shape.point(rng, &self.held());
        if rng.chance(5) {
            let axis = rng.index(3);
            let past = MAX_COORDINATE + rng.within(0..=2);
            point[axis] = if rng.chance(50) { past } else { wide(rng, point[axis]) };
        }
        let lent = self.lent(rng);
        let before = self.some_others(rng, number);
        let answer = lend::insert(&mut self.words[..lent], number, point);
        assert_eq!(answer, self.book.insert(lent, number, point), "insert {number} {point:?}");
        if answer == 0 {
            for (other, was) in before {
                let fell = was - self.contribution(other);
                assert_eq!(fell, self.joint(number, other), "{other} after {number} went in");
            }
        }
    }

    /// A grid: the book enters its trials one by one, up to the first that it refuses.
    fn insert_grid(&mut self, rng: &mut Rng) {
        let mut grid = Vec::new();
        for _ in 0..rng.within(0..=5) {
            let [x, y, z] = self.shape.point(rng, &self.held());
            grid.push([self.number(rng, 10), x, y, z]);
        }
        let lent = self.lent(rng);
        let answer = words::insert_grid(&mut self.words[..lent], &grid);
        if lent < self.needed {
            assert_eq!(answer, Err(Refusal::SliceShort), "insert {grid:?}");
            return;
        }
        let filled = answer.expect("only a stop");
        let rows = grid.iter().map(|&[number, x, y, z]| self.book.insert(lent, number, [x, y, z]));
        let refused = rows.enumerate().find(|&(_, row)| row != 0);
        let (inserted, stop) = refused.unwrap_or((grid.len(), 0));
        assert_eq!(filled.inserted, inserted as u64, "insert {grid:?}");
        assert_eq!(filled.stop.map_or(0, Refusal::number), stop, "insert {grid:?}");
    }

    fn remove(&mut self, rng: &mut Rng) {
        let number = self.number(rng, 80);
        let lent = self.lent(rng);
        let held = self.book.trials().iter().any(|t| t.0 == number);
        let others = if held { self.some_others(rng, number) } else { Vec::new() };
        let joints: Vec<u64> = others.iter().map(|&(other, _)| self.joint(number, other)).collect();
        let answer = words::remove(&mut self.words[..lent], number);
        assert_eq!(row(answer), self.book.remove(lent, number), "remove {number}");
        if answer.is_ok() {
            for ((other, was), joint) in others.into_iter().zip(joints) {
                assert_eq!(self.contribution(other) - was, joint, "{other} after {number} went");
            }
        }
    }

    fn reduce(&mut self, rng: &mut Rng) {
        let count = self.book.trials().len() as u64;
        let k = match rng.within(0..=9) {
            0 => count + 1,
            1 => u64::MAX,
            2 if !matches!(self.shape.size, Size::Full) => 0,
            _ => count - rng.within(0..=count.min(3)),
        };
        let exact = 2 * count.saturating_sub(k) as usize;
        let length = rng.pick(&[exact, exact, exact + 1, exact + 4, exact.saturating_sub(1)]);
        let mut log: Vec<u64> = (0..length).map(|_| rng.next()).collect();
        let mut expected = log.clone();
        let lent = self.lent(rng);
        let total = self.words[5];
        let rule = rng.pick(&[0, 0, 0, 1, 1, 1, 2, u64::MAX]);
        let answer = lend::reduce(&mut self.words[..lent], k, rule, &mut log);
        match self.book.reduce(lent, k, rule, length) {
            Ok(notes) => {
                assert_eq!(answer, Ok(notes.len() as u64), "reduce to {k}");
                let sum: u64 = notes.iter().map(|note| note.1).sum();
                assert_eq!(sum, total - self.words[5], "contributions logged");
                for (pair, note) in expected.chunks_mut(2).zip(notes) {
                    pair.copy_from_slice(&[note.0, note.1]);
                }
            }
            Err(refusal) => assert_eq!(row(answer), refusal, "reduce to {k}"),
        }
        assert_eq!(log, expected, "log of reduce to {k}");
    }

    /// Trials other than this one with their kept contributions: all, or a few of very many.
    fn some_others(&self, rng: &mut Rng, number: u64) -> Vec<(u64, u64)> {
        let numbers = self.book.trials().iter().map(|t| t.0);
        let mut others: Vec<u64> = numbers.filter(|&n| n != number).collect();
        while others.len() > 64 {
            others = (0..8).map(|_| rng.pick(&others)).collect();
        }
        let with_contribution = |other| (other, self.contribution(other));
        others.into_iter().map(with_contribution).collect()
    }
}

fn row<T>(answer: Result<T, Refusal>) -> u64 {
    answer.err().map_or(0, Refusal::number)
}

/// One history; the words are compared after every so many calls and at the end.
fn history(rng: &mut Rng, size: Size, calls: u64, every: u64) -> u64 {
    let mut history = History::start(rng, size);
    history.check_words();
    // Phases of growth and of thinning, so that full and empty archives both occur.
    let mut inserts = 60;
    for at in 1..=calls {
        if rng.chance(2) {
            inserts = rng.pick(&[20, 50, 80, 95]);
            history.check_card();
        }
        match rng.within(1..=100) {
            n if n <= inserts && rng.chance(8) => history.insert_grid(rng),
            n if n <= inserts => history.insert(rng),
            n if n <= 97 => history.remove(rng),
            _ => history.reduce(rng),
        }
        if at % every == 0 {
            history.check_words();
        }
    }
    history.check_words();
    history.check_card();
    calls
}

#[test]
fn tiny_histories() {
    scenes(12, |rng| history(rng, Size::Tiny, 2_000, 1));
}

#[test]
fn middle_histories() {
    scenes(7, |rng| history(rng, Size::Middle, 1_500, 1));
}

#[test]
fn large_histories() {
    scenes(1, |rng| history(rng, Size::Large, 1_000, 10));
}

#[test]
fn full_histories() {
    scenes(1, |rng| history(rng, Size::Full, 2_000, 50));
}

/// 512 trials without a tie: too many blocks to recount after each call, so the words are
/// compared when the archive is full, after removals and after a reduction.
fn full_without_ties(name: &str, point: impl Fn(u64) -> Point) {
    let reference = [MAX_REFERENCE; 3];
    let mut words = vec![u64::MAX; 8 + 5 * 512];
    let lent = words.len();
    let mut book = Book::start(reference, 512);
    assert_eq!(words::start(&mut words, [MAX_REFERENCE as u32; 3], 512), Ok(()));
    for i in 0..512 {
        // 37 is prime to 512, so every trial comes once, in a mixed order.
        let trial = i * 37 % 512;
        let (number, point) = (1 + trial * 19_531, point(trial));
        assert_eq!(lend::insert(&mut words, number, point), 0);
        assert_eq!(book.insert(lent, number, point), 0);
    }
    assert_eq!(words, book.fresh(), "{name}, full");
    assert_eq!(words::audit(&words), Ok(true), "{name}");
    for trial in [0, 511, 256, 100, 101] {
        let number = 1 + trial * 19_531;
        assert_eq!(words::remove(&mut words, number), Ok(()));
        assert_eq!(book.remove(lent, number), 0);
    }
    let mut log = [0; 4];
    assert_eq!(words::reduce(&mut words, 505, TieRule::Lowest, &mut log), Ok(2));
    let notes = book.reduce(lent, 505, 0, 4).expect("two drops");
    assert_eq!(log, [notes[0].0, notes[0].1, notes[1].0, notes[1].1], "{name}");
    assert_eq!(words, book.fresh(), "{name}, reduced");
}

#[test]
fn full_front() {
    full_without_ties("front", |i| {
        [1 + i * 2_000, 1 + i * 331 % 512 * 1_999, 1_040_000 - i * 1_000 - i * 331 % 512 * 999]
    });
}

/// Half of the trials, none of them in the front's way, lie beyond a reference of half the range.
#[test]
fn full_half_beyond() {
    let (half, reference) = (MAX_REFERENCE / 2, [MAX_REFERENCE / 2; 3]);
    let mut words = vec![u64::MAX; 8 + 5 * 512];
    let lent = words.len();
    let mut book = Book::start(reference, 512);
    assert_eq!(words::start(&mut words, [half as u32; 3], 512), Ok(()));
    for i in 0..512 {
        let (number, mut point) =
            (1 + i * 37 % 512, [i * 1_000, 511_000 - i * 1_000, i * 331 % 512]);
        if i % 2 == 1 {
            point[i as usize / 2 % 3] = half + 1 + i * 1_000;
        }
        assert_eq!(lend::insert(&mut words, number, point), 0);
        assert_eq!(book.insert(lent, number, point), 0);
    }
    assert_eq!(words, book.fresh(), "half beyond");
    let mut log = [0; 8];
    assert_eq!(words::reduce(&mut words, 508, TieRule::Highest, &mut log), Ok(4));
    let notes = book.reduce(lent, 508, 1, 8).expect("4 drops");
    assert_eq!(log.to_vec(), notes.iter().flat_map(|n| [n.0, n.1]).collect::<Vec<u64>>());
    assert_eq!(words, book.fresh(), "half beyond, reduced");
}

#[test]
fn full_chain() {
    full_without_ties("chain", |i| [i * 2_000, i * 1_999, i * 1_998]);
}

#[test]
fn full_stairs() {
    full_without_ties("stairs", |i| [i * 2_000, 1_048_000 - i * 1_999, i * 1_001 % 512 * 1_500]);
}
