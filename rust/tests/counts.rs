//! Document 01's "Counts to meet", by the safe archive.

use trial_archive::{Archive, Contribution, Refusal, TieRule};

fn archive(trials: &[(u64, [u32; 3])]) -> Archive {
    let mut archive = Archive::start([4, 4, 4], 8).unwrap();
    for &(number, point) in trials {
        archive.insert(number, point).unwrap();
    }
    archive
}

fn contributions(archive: &Archive) -> Vec<(u64, u64)> {
    let mut pairs: Vec<(u64, u64)> = archive.trials().map(|t| (t.number, t.contribution)).collect();
    pairs.sort_unstable();
    pairs
}

const CARD: [(u64, [u32; 3]); 4] = [(1, [1, 2, 2]), (2, [2, 1, 2]), (3, [2, 2, 1]), (4, [1, 1, 3])];

#[test]
fn count_1_empty() {
    let archive = archive(&[]);
    assert_eq!(archive.total(), 0);
    assert_eq!(archive.least(), Err(Refusal::NoneHeld));
}

#[test]
fn count_2_the_whole_box() {
    let archive = archive(&[(1, [0, 0, 0])]);
    assert_eq!(archive.total(), 64);
    assert_eq!(contributions(&archive), [(1, 64)]);
}

/// As document 02, W-201 has it: beyond the reference as at it.
#[test]
fn count_3_at_the_reference_and_beyond() {
    let mut archive = archive(&[(1, [4, 0, 0])]);
    assert_eq!(archive.total(), 0);
    assert_eq!(contributions(&archive), [(1, 0)]);
    assert_eq!(archive.gain([5, 0, 0]), Ok(0));
    assert_eq!(archive.insert(2, [5, 0, 0]), Ok(()));
    assert_eq!(archive.total(), 0);
    assert_eq!(contributions(&archive), [(1, 0), (2, 0)]);
    assert_eq!(archive.insert(2, [0, 0, 0]), Err(Refusal::NumberHeld));
}

#[test]
fn count_4_equal_trials() {
    let mut archive = archive(&[(1, [1, 1, 1]), (2, [1, 1, 1])]);
    assert_eq!(archive.total(), 27);
    assert_eq!(contributions(&archive), [(1, 0), (2, 0)]);
    archive.remove(2).unwrap();
    assert_eq!(contributions(&archive), [(1, 27)]);
}

#[test]
fn count_5_a_dominated_trial() {
    let archive = archive(&[(1, [1, 1, 1]), (2, [2, 2, 2])]);
    assert_eq!(archive.total(), 27);
    assert_eq!(contributions(&archive), [(1, 19), (2, 0)]);
    assert_eq!(archive.joint(1, 2), Ok(8));
}

#[test]
fn count_6_three_of_the_card() {
    let archive = archive(&CARD[..3]);
    assert_eq!(archive.total(), 20);
    assert_eq!(contributions(&archive), [(1, 4), (2, 4), (3, 4)]);
    assert_eq!(archive.gain([1, 1, 1]), Ok(7));
}

#[test]
fn count_7_joint_with_and_without_a_third() {
    let mut archive = archive(&CARD[..3]);
    assert_eq!(archive.joint(1, 2), Ok(0));
    archive.remove(3).unwrap();
    assert_eq!(archive.joint(1, 2), Ok(8));
}

#[test]
fn count_8_reduced_to_two() {
    let drop = |number, contribution| Contribution { number, contribution };
    let mut lowest = archive(&CARD);
    assert_eq!(lowest.reduce(2).unwrap(), [drop(4, 1), drop(1, 4)]);
    assert_eq!(lowest.total(), 16);
    assert_eq!(contributions(&lowest), [(2, 4), (3, 4)]);
    let mut highest = archive(&CARD);
    assert_eq!(highest.reduce_by(2, TieRule::Highest).unwrap(), [drop(4, 1), drop(3, 4)]);
    assert_eq!(highest.total(), 16);
    assert_eq!(contributions(&highest), [(1, 4), (2, 4)]);
}

#[test]
fn count_9_the_largest_box() {
    let mut archive = Archive::start([1_048_576; 3], 8).unwrap();
    archive.insert(1, [0, 0, 0]).unwrap();
    assert_eq!(archive.total(), 1_152_921_504_606_846_976);
    for axis in 0..3 {
        let mut point = [0; 3];
        point[axis] = 1_048_577;
        assert_eq!(archive.insert(2, point), Err(Refusal::BadCoordinate));
    }
}

#[test]
fn count_10_full_and_free_again() {
    let mut archive = Archive::start([4, 4, 4], 1).unwrap();
    archive.insert(1, [1, 1, 1]).unwrap();
    assert_eq!(archive.insert(2, [2, 2, 2]), Err(Refusal::Full));
    archive.remove(1).unwrap();
    assert_eq!(archive.insert(2, [2, 2, 2]), Ok(()));
}

/// As document 02, W-204 has it: rounded to the nearest.
#[test]
fn count_11_shares() {
    let mut thirds = Archive::start([3, 1, 1], 8).unwrap();
    thirds.insert(1, [1, 0, 0]).unwrap();
    assert_eq!(thirds.share(), Ok(666_667));
    assert_eq!(archive(&CARD).share(), Ok(328_125));
    let mut whole = Archive::start([1_048_576; 3], 1).unwrap();
    whole.insert(1, [0, 0, 0]).unwrap();
    assert_eq!(whole.share(), Ok(1_000_000));
}
