//! The size of the front in word 6 (document 02, W-209): equal trials, all trials on it and one
//! only, trials beyond the reference, full archives against a count over all pairs, and archives
//! kept from before, which have 0 there.

use crate::lend::{compare, expect, Call};
use crate::reference::{front, Point, MAX_COORDINATE};
use crate::rng::{scenes, Rng};
use crate::scenes::{Shape, Size};
use trial_archive::Archive;

/// The archive's points, as the reference counts them.
fn points(archive: &Archive) -> Vec<Point> {
    archive.trials().map(|trial| trial.point.map(u64::from)).collect()
}

fn agrees(archive: &Archive) {
    assert_eq!(archive.front() as u64, front(&points(archive)), "{:?}", points(archive));
}

#[test]
fn equal_trials_are_all_on_it() {
    let mut archive = Archive::start([9; 3], 512).unwrap();
    for number in 1..=512 {
        archive.insert(number, [3, 3, 3]).unwrap();
        assert_eq!(archive.front() as u64, number);
    }
    assert_eq!(archive.audit(), Ok(true));
    archive.remove(7).unwrap();
    assert_eq!(archive.front(), 511);
    // One that is smaller on one axis beats them all.
    archive.insert(7, [3, 3, 2]).unwrap();
    assert_eq!(archive.front(), 1);
    archive.remove(7).unwrap();
    assert_eq!(archive.front(), 511);
    assert_eq!(archive.reduce(1).unwrap().len(), 510);
    assert_eq!(archive.front(), 1);
}

/// Points of a plane, and of two equal ones: none beats another.
#[test]
fn all_on_it() {
    let mut archive = Archive::start([100; 3], 512).unwrap();
    for i in 0..512_u32 {
        archive.insert(u64::from(i) + 1, [i / 2, 255 - i / 2, 40]).unwrap();
        assert_eq!(archive.front() as u32, i + 1);
    }
    assert_eq!(archive.audit(), Ok(true));
    archive.reduce(100).unwrap();
    assert_eq!(archive.front(), 100);
}

/// A chain on each of the axes and on all of them, entered in both orders.
#[test]
fn one_only() {
    for axes in [[1, 0, 0], [0, 1, 0], [0, 0, 1], [1, 1, 0], [1, 1, 1]] {
        for down in [false, true] {
            let mut archive = Archive::start([300; 3], 512).unwrap();
            for i in 0..512_u32 {
                let step = if down { 511 - i } else { i };
                archive.insert(u64::from(i) + 1, axes.map(|on| on * step)).unwrap();
                assert_eq!(archive.front(), 1);
            }
            assert_eq!(archive.audit(), Ok(true));
        }
    }
}

/// Trials that dominate no cell beat each other all the same.
#[test]
fn beyond_the_reference() {
    let mut archive = Archive::start([4; 3], 8).unwrap();
    let most = MAX_COORDINATE as u32;
    let trials = [
        ([most, most, most], 1),
        ([5, most, most], 1),
        ([most, 5, most], 2),
        ([4, 6, 0], 2),
        ([6, 4, 0], 2),
        ([4, 4, 4], 3),
        ([4, 4, 0], 1),
        ([4, 4, 0], 2),
    ];
    for (i, (point, front)) in trials.into_iter().enumerate() {
        archive.insert(i as u64 + 1, point).unwrap();
        assert_eq!(archive.total(), 0);
        agrees(&archive);
        assert_eq!(archive.front(), front, "{point:?}");
    }
}

/// A point of one of the kinds of sets: level surfaces, few coordinates, any, and at the limits.
fn of_kind(rng: &mut Rng, kind: usize) -> [u32; 3] {
    let [x, y] = [0; 2].map(|_: u64| rng.within(0..=1_000) as u32);
    let mut few = || rng.within(0..=4) as u32;
    match kind {
        0 => [x, y, 2_000 - x - y],
        1 => [x, y, (1_000_000 - (x * x + y * y) / 2).isqrt()],
        2 => [few(), few(), few()],
        3 => [x, few(), few()],
        4 => [x, y, rng.within(0..=1_000) as u32],
        _ => {
            [0; 3].map(|_: u64| rng.pick(&[0, 1, MAX_COORDINATE as u32 - 1, MAX_COORDINATE as u32]))
        }
    }
}

/// Full archives of each kind: filled, emptied in another order, thinned in between.
#[test]
fn full_archives() {
    let mut kind = 0;
    scenes(1, |rng| {
        let mut archive = Archive::start([700; 3], 512).unwrap();
        for i in 0..512_u64 {
            archive.insert(i + 1, of_kind(rng, kind % 6)).unwrap();
            if i % 16 == 15 {
                agrees(&archive);
            }
        }
        assert_eq!(archive.audit(), Ok(true));
        let mut numbers: Vec<u64> = (1..=512).collect();
        rng.shuffle(&mut numbers);
        for (i, number) in numbers.into_iter().enumerate().take(256) {
            archive.remove(number).unwrap();
            if i % 16 == 15 {
                agrees(&archive);
            }
        }
        archive.reduce(64).unwrap();
        agrees(&archive);
        kind += 1;
        769
    });
    assert!(kind >= 6, "all kinds of sets were met");
}

/// "Archives kept from before have 0 there": an audit says no until an insertion or a removal is
/// done, and reduce and rearrange are refused; the other calls are as ever, and an empty archive is
/// right.
#[test]
fn kept_from_before() {
    scenes(3, |rng| {
        let size = rng.pick(&[Size::Tiny, Size::Middle, Size::Large]);
        let shape = Shape::random(rng, size);
        let counted = shape.archive(rng);
        let mut words = counted.clone();
        words[6] = 0;
        let (count, room) = (words[0], words[1] > words[0]);
        let right = u64::from(count == 0);
        assert_eq!(expect(&Call::Audit, &words, 0).answer, [0, right]);
        assert_eq!(expect(&Call::Figures { number: 1 }, &words, 0).answer[6], right);
        for k in [0, count / 2, count] {
            let log = vec![7; 2 * (count - k) as usize];
            let row = if count == 0 { 0 } else { 13 };
            assert_eq!(expect(&Call::Reduce { k, rule: k % 2, log }, &words, row).words, words);
            let second = vec![7; words.len()];
            expect(&Call::Rearrange { order: k % 6, second }, &words, row);
        }
        let point = shape.point(rng, &[]);
        for call in [
            Call::Least { rule: count % 2 },
            Call::Gain { point },
            Call::Share,
            Call::Joint { first: words[8], second: words[(8 + 5 * words[0] as usize).max(13) - 5] },
            Call::WriteCard { out: vec![0; 33 * (count as usize + 1)] },
            Call::Report { out: vec![0; 53 * (count as usize + 1)] },
        ] {
            let outcome = compare(&call, &words);
            assert_eq!(outcome.answer, compare(&call, &counted).answer);
            assert_eq!(outcome.words, words);
        }
        let free = (1..).find(|n| counted[8..].chunks(5).all(|r| r[0] != *n)).unwrap();
        let inserted =
            expect(&Call::Insert { number: free, point }, &words, if room { 0 } else { 8 });
        assert_eq!(expect(&Call::Audit, &inserted.words, 0).answer, [0, u64::from(room)]);
        let removed = compare(&Call::Remove { number: words[8] }, &words);
        assert_eq!(expect(&Call::Audit, &removed.words, 0).answer, [0, 1]);
        16
    });
}
