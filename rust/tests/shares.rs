//! Shares rounded to the nearest, ties to the even number (document 02, W-204): ties made on
//! purpose, totals on both sides of a tie, and random totals up to 2^60, each against exact
//! arithmetic in 128 bits.

use crate::lend::{expect, Call};
use crate::reference::{box_of, Point, MAX_REFERENCE};
use crate::rng::{scenes, Rng};
use trial_archive::Archive;

const MILLION: u128 = 1_000_000;

/// The share of an archive that holds nothing and keeps this total: rows 1 to 3 ask only that it
/// is at most the box.
fn share(reference: Point, total: u64) -> u64 {
    let [x, y, z] = reference;
    let mut words = [0_u64; 13];
    words[..6].copy_from_slice(&[0, 1, x, y, z, total]);
    let millionths = expect(&Call::Share, &words, 0).answer[1];
    is_nearest(millionths, total, box_of(reference));
    millionths
}

/// What makes a number the right one, whatever way it was found.
fn is_nearest(millionths: u64, total: u64, cells: u64) {
    let exact = u128::from(total) * MILLION;
    let twice = 2 * (u128::from(millionths) * u128::from(cells)).abs_diff(exact);
    let near = twice < u128::from(cells);
    let tie = twice == u128::from(cells);
    assert!(near || tie && millionths % 2 == 0, "{millionths} for {total} of {cells}");
}

/// The least total whose share is at least half a millionth above `below`, and whether it is a tie.
fn half_behind(below: u64, cells: u64) -> (u64, bool) {
    let halves = (2 * u128::from(below) + 1) * u128::from(cells);
    (halves.div_ceil(2 * MILLION) as u64, halves % (2 * MILLION) == 0)
}

/// Both sides of the half behind a number of millionths, where a cell is at most one of them:
/// totals below it round down, those above it round up, and a tie goes to the even number.
fn around_the_half(reference: Point, below: u64) {
    let cells = box_of(reference);
    if u128::from(cells) < MILLION {
        return;
    }
    let (total, tie) = half_behind(below, cells);
    assert_eq!(share(reference, total - 1), below);
    if tie {
        assert_eq!(share(reference, total), below + below % 2);
        assert_eq!(share(reference, total + 1), below + 1);
    } else {
        assert_eq!(share(reference, total), below + 1);
    }
}

#[test]
fn ties_of_two_million_cells() {
    for (total, expected) in [(1, 0), (3, 2), (5, 2), (7, 4)] {
        let mut archive = Archive::start([2, 1_000, 1_000], 1).unwrap();
        archive.insert(1, [1, 999, 1_000 - total]).unwrap();
        assert_eq!(archive.total(), u64::from(total));
        assert_eq!(archive.share(), Ok(expected));
        assert_eq!(archive.audit(), Ok(true));
    }
    in_two_million_cells(&share);
}

/// In a box of two million cells every odd total is a tie.
fn in_two_million_cells(share: &impl Fn(Point, u64) -> u64) {
    for total in 0..=2_000 {
        let even = total / 2;
        let expected = if total % 2 == 0 { even } else { even + even % 2 };
        assert_eq!(share([2, 1_000, 1_000], total), expected);
        assert_eq!(share([1_000, 2, 1_000], 2_000_000 - total), 1_000_000 - expected);
    }
}

/// Odd multiples of 2^53 are the ties of the largest box.
#[test]
fn ties_of_the_largest_box() {
    in_the_largest_box(&share);
}

fn in_the_largest_box(share: &impl Fn(Point, u64) -> u64) {
    for odd in (1..128).step_by(2) {
        let tie = odd << 53;
        let below = 15_625 * odd / 2;
        assert_eq!(share([MAX_REFERENCE; 3], tie - 1), below);
        assert_eq!(share([MAX_REFERENCE; 3], tie), below + below % 2);
        assert_eq!(share([MAX_REFERENCE; 3], tie + 1), below + 1);
    }
}

/// Shares of totals at ties and beside them, by any call that tells a share.
pub fn at_ties(share: impl Fn(Point, u64) -> u64) {
    in_two_million_cells(&share);
    in_the_largest_box(&share);
}

#[test]
fn next_to_a_half_of_boxes_near_the_largest() {
    for short in 0..64 {
        for turn in 0..3 {
            let mut reference = [MAX_REFERENCE; 3];
            reference[turn] -= short;
            reference[(turn + 1) % 3] -= short / 3;
            for below in (0..1_000_000).step_by(62_500).chain([1, 2, 312, 999_998, 999_999]) {
                around_the_half(reference, below);
            }
        }
    }
}

#[test]
fn nothing_and_the_whole_box() {
    for edge in [1, 2, 3, 100, 126, 127, 1_000, 65_536, MAX_REFERENCE - 1, MAX_REFERENCE] {
        for reference in [[edge, 1, 1], [edge, edge, 1], [edge; 3]] {
            assert_eq!(share(reference, 0), 0);
            assert_eq!(share(reference, box_of(reference)), 1_000_000);
        }
    }
}

/// An edge of any size of number.
fn edge(rng: &mut Rng) -> u64 {
    let bits = rng.within(0..=20);
    rng.within(1..=1 << bits)
}

#[test]
fn random_totals_of_random_boxes() {
    scenes(6, |rng| {
        let reference = [edge(rng), edge(rng), edge(rng)];
        let cells = box_of(reference);
        for _ in 0..4 {
            let part = cells >> rng.within(0..=59);
            share(reference, rng.within(0..=part));
            share(reference, cells - rng.within(0..=part));
        }
        around_the_half(reference, rng.within(0..=999_999));
        9
    });
}
