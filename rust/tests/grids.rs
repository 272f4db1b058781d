//! A whole grid of trials in one call (document 02, W-203): against as many insertions by the library
//! itself, every row that can stop it, and full archives.

use crate::lend::{self, expect, Call, Outcome};
use crate::reference::book::{words_of, Book};
use crate::reference::{MAX_COORDINATE, MAX_NUMBER, MAX_REFERENCE};
use crate::rng::{scenes, Rng};
use crate::scenes::{foreign, Shape, Size};
use trial_archive::{Archive, Filled, Refusal};

fn grid(trials: &[[u64; 4]]) -> Call {
    Call::InsertGrid { grid: trials.concat() }
}

/// A grid that is not refused: how many went in, and what stopped it.
fn filled(words: &[u64], trials: &[[u64; 4]], inserted: u64, stop: u64) -> Outcome {
    let outcome = expect(&grid(trials), words, 0);
    assert_eq!(outcome.answer, [0, inserted, stop], "{trials:?}");
    if inserted == 0 {
        assert_eq!(outcome.words, words, "no trial of {trials:?} went in");
    }
    outcome
}

/// Each row that stops a grid, at its first trial and behind others.
#[test]
fn every_stop() {
    let words = words_of([4, 4, 4], 4, &[(9, [1, 1, 1])]);
    let (one, two) = ([1, 1, 2, 2], [2, 2, 1, 2]);
    let high = (1 << 32) + 1;
    for number in [0, MAX_NUMBER + 1, 1 << 32, high, u64::MAX] {
        filled(&words, &[[number, 0, 0, 0], one], 0, 5);
        filled(&words, &[one, two, [number, MAX_COORDINATE + 1, 0, 0], one], 2, 5);
    }
    for axis in 1..4 {
        for coordinate in [MAX_COORDINATE + 1, 1 << 32, high, u64::MAX] {
            let mut trial = [9, 0, 0, 0];
            trial[axis] = coordinate;
            filled(&words, &[trial], 0, 6);
            filled(&words, &[one, trial, two], 1, 6);
        }
        let mut last = [3, 0, 0, 0];
        last[axis] = MAX_COORDINATE;
        filled(&words, &[one, last, two], 3, 0);
    }
    filled(&words, &[[9, 0, 0, 0]], 0, 7);
    filled(&words, &[one, one], 1, 7);
    filled(&words, &[one, two, [3, 0, 0, 0], [3, 0, 0, 0]], 3, 7);
    filled(&words, &[one, two, [3, 0, 0, 0], [4, 0, 0, 0]], 3, 8);
    let full = words_of([4, 4, 4], 1, &[(9, [1, 1, 1])]);
    filled(&full, &[one], 0, 8);
    filled(&full, &[[9, 1, 1, 1]], 0, 7);
}

/// Row 13 in the midst of a grid on an archive with wrong sums: earlier ones stay, and word 6 is
/// counted anew. At its first trial every word stays, a wrong word 6 too.
#[test]
fn row_13_in_the_midst() {
    let mut words = words_of([4, 4, 4], 4, &[(9, [3, 3, 3])]);
    words[5] = 60;
    words[6] = 0;
    let outcome = filled(&words, &[[1, 4, 4, 4], [2, 0, 0, 0], [3, 4, 4, 4]], 1, 13);
    assert_eq!(outcome.words[..7], [2, 4, 4, 4, 4, 60, 1]);
    filled(&words, &[[2, 0, 0, 0], [1, 4, 4, 4]], 0, 13);
    words[12] = 0;
    filled(&words, &[[1, 2, 2, 2]], 0, 13);
}

/// Row 17 first, then rows 1 to 3, also for an empty grid.
#[test]
fn refusals_of_the_whole_grid() {
    let words = words_of([4, 4, 4], 4, &[(9, [1, 1, 1])]);
    filled(&words, &[], 0, 0);
    let (mut header, mut records) = (words.clone(), words.clone());
    header[7] = 1;
    records[8] = 0;
    for length in [0, 1, 2, 3, 4, 5, 6, 7, 8, 9, 1022, 1023] {
        let call = Call::InsertGrid { grid: (0..length).map(|i| 1 + i % 4).collect() };
        let odd = length % 4 != 0;
        for (lent, row) in [(&words[..7], 1), (&header[..], 2), (&records[..], 3)] {
            let outcome = expect(&call, lent, if odd { 17 } else { row });
            assert_eq!(outcome.answer[1..], [0, 0]);
            assert_eq!(outcome.words, lent);
        }
        if odd {
            expect(&call, &words, 17);
        }
    }
}

/// A grid comes to what as many insertions come to, by the library itself.
fn scene(rng: &mut Rng) -> u64 {
    let shape = Shape::random(rng, Size::Middle);
    let mut words = shape.archive(rng);
    if rng.chance(40) {
        foreign(rng, &mut words);
    }
    let mut trials = Vec::new();
    for i in 0..rng.within(0..=shape.capacity + 2) {
        let [x, y, z] = shape.point(rng, &[]);
        let number = if rng.chance(4) { rng.within(0..=20) } else { 1_000_000 + i };
        trials.push([number, x, y, z]);
    }
    let mut single = words.clone();
    let mut stop = 0;
    let mut inserted = 0;
    for &[number, x, y, z] in &trials {
        stop = lend::insert(&mut single, number, [x, y, z]);
        if stop != 0 {
            break;
        }
        inserted += 1;
    }
    assert_eq!(filled(&words, &trials, inserted, stop).words, single);
    1 + trials.len() as u64
}

#[test]
fn one_by_one() {
    scenes(4, scene);
}

/// 512 trials into an empty archive, and one more.
#[test]
fn full_archives() {
    let most = MAX_REFERENCE as u32;
    for step in [1, 3, 1_000] {
        let point = |i: u64| [i * step % 513, (512 - i) * step, i * i % 777].map(|c| c * 2);
        let trials: Vec<[u64; 4]> = (0..513)
            .map(|i| {
                let [x, y, z] = point(i);
                [1 + i * 37 % 513, x, y, z]
            })
            .collect();
        let mut archive = Archive::start([most; 3], 512).unwrap();
        let mut book = Book::start([MAX_REFERENCE; 3], 512);
        for &[number, x, y, z] in &trials[..512] {
            assert_eq!(book.insert(usize::MAX, number, [x, y, z]), 0);
        }
        let filled = archive.insert_grid(&trials).unwrap();
        assert_eq!(filled, Filled { inserted: 512, stop: Some(Refusal::Full) });
        assert_eq!(archive.words(), book.fresh());
        assert_eq!(archive.audit(), Ok(true));
    }
}
