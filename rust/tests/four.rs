//! Figures on four axes (document 02, W-211): small boxes cell by cell, few points in the largest boxes
//! by inclusion and exclusion, more in blocks, up to 512 in slices; with equal and dominated points and
//! points beyond the reference, in any order of the points and of the axes; flat ones as archives have
//! them; and every row at its limits and in its order.

use crate::boundaries::wide;
use crate::lend::{anything, expect, Call, Tally};
use crate::reference::four::{by_cells, by_inclusion, in_blocks, in_slices, Point4, MOST};
use crate::reference::Counts;
use crate::rng::{full_run, long_scenes, scenes, Rng};
use std::collections::BTreeMap;
use trial_archive::{sys, words, Archive};

fn call(reference: Point4, points: &[Point4]) -> Call {
    Call::Count4 { reference, coords: points.as_flattened().to_vec() }
}

/// What is found in an output that has words behind the figures.
fn counts_in(words: &[u64], points: usize) -> Counts {
    Counts { covered: words[0], alone: words[1..=points].to_vec() }
}

/// The figures of points that are allowed, compared in all ways.
fn figures(reference: Point4, points: &[Point4]) -> Counts {
    let lent = anything(points.len() + 1 + points.len() % 3);
    let words = expect(&call(reference, points), &lent, 0).words;
    assert_eq!(words[points.len() + 1..], lent[points.len() + 1..], "words behind");
    counts_in(&words, points.len())
}

/// The figures by one call of the safe function.
fn bare(reference: Point4, points: &[Point4]) -> Counts {
    let mut out = vec![0; words::count4_needed(points.len())];
    words::count4(reference, points.as_flattened(), &mut out).unwrap();
    counts_in(&out, points.len())
}

fn counts(covered: u64, alone: &[u64]) -> Counts {
    Counts { covered, alone: alone.to_vec() }
}

fn box_of(reference: Point4) -> u64 {
    reference.iter().product()
}

/// Document 01's card with a fourth axis that is flat, then with one that is not.
#[test]
fn the_card() {
    let card = [[1, 2, 2, 0], [2, 1, 2, 0], [2, 2, 1, 0], [1, 1, 3, 0]];
    let flat = [4, 4, 4, 1];
    assert_eq!(figures(flat, &card), counts(21, &[2, 2, 4, 1]));
    assert_eq!(figures(flat, &card[..3]), counts(20, &[4, 4, 4]));
    assert_eq!(figures(flat, &[]), counts(0, &[]));
    assert_eq!(figures(flat, &[[0; 4]]), counts(64, &[64]));
    assert_eq!(figures(flat, &[[1, 1, 1, 0], [1, 1, 1, 0]]), counts(27, &[0, 0]));
    assert_eq!(figures(flat, &[[1, 1, 1, 0], [2, 2, 2, 0]]), counts(27, &[19, 0]));
    let beyond = [card[0], card[1], card[2], [1, 1, 5, 0]];
    assert_eq!(figures(flat, &beyond), counts(20, &[4, 4, 4, 0]));
    // The fourth point alone in two slices, all four in the last three.
    let risen = [[1, 2, 2, 2], [2, 1, 2, 2], [2, 2, 1, 2], [1, 1, 3, 0]];
    assert_eq!(figures([4, 4, 4, 5], &risen), counts(81, &[6, 6, 12, 21]));
    // Equal on x, y and z: the lower w has what is between the two.
    assert_eq!(figures([4, 4, 4, 9], &[[1, 1, 1, 7], [1, 1, 1, 2]]), counts(189, &[0, 135]));
}

#[test]
fn the_largest_box() {
    let origin = [0; 4];
    assert_eq!(figures([MOST; 4], &[origin]), counts(1 << 60, &[1 << 60]));
    assert_eq!(figures([MOST; 4], &[origin, origin]), counts(1 << 60, &[0, 0]));
    assert_eq!(figures([MOST; 4], &[[MOST; 4], origin]), counts(1 << 60, &[0, 1 << 60]));
    assert_eq!(figures([MOST; 4], &[[MOST - 1; 4], origin]), counts(1 << 60, &[0, (1 << 60) - 1]));
    assert_eq!(figures([MOST; 4], &[[MOST - 1; 4]]), counts(1, &[1]));
    // Next to the origin on one axis each: only the origin's own cell is left.
    let near = [[1, 0, 0, 0], [0, 1, 0, 0], [0, 0, 1, 0], [0, 0, 0, 1]];
    let alone = MOST - 1;
    assert_eq!(figures([MOST; 4], &near), counts((1 << 60) - 1, &[alone; 4]));
    assert_eq!(bare([MOST; 4], &[origin; 512]), counts(1 << 60, &[0; 512]));
}

/// The four places of the reference and of a point are x, y, z and w.
#[test]
fn places() {
    assert_eq!(figures([3, 5, 7, 11], &[[1, 2, 4, 6]]), counts(90, &[90]));
    let apart = [[2, 0, 0, 0], [0, 4, 0, 0], [0, 0, 6, 0], [0, 0, 0, 10]];
    // Of 3 × 5 × 7 × 11 cells all but those below every one of the four; each alone in what is
    // below the other three.
    let alone = [4 * 6 * 10, 2 * 6 * 10, 2 * 4 * 10, 2 * 4 * 6];
    assert_eq!(figures([3, 5, 7, 11], &apart), counts(1_155 - 2 * 4 * 6 * 10, &alone));
    for axis in 0..4 {
        let (mut reference, mut point) = ([1; 4], [0; 4]);
        reference[axis] = MOST;
        for coordinate in [0, 1, MOST - 1, MOST] {
            point[axis] = coordinate;
            let cells = MOST - coordinate;
            assert_eq!(figures(reference, &[point]), counts(cells, &[cells]));
        }
    }
}

/// At the reference or beyond it on any axes, a point dominates nothing and takes nothing from others.
#[test]
fn at_the_reference_and_beyond() {
    for reference in [[1; 4], [4, 3, 2, 5], [MOST - 1; 4], [MOST; 4]] {
        let whole = box_of(reference);
        for axes in 1..16 {
            for far in 0..3 {
                let mut point = [0; 4];
                for axis in (0..4).filter(|axis| axes >> axis & 1 == 1) {
                    let own = reference[axis];
                    point[axis] = [own, (own + 1).min(MOST), MOST][far];
                }
                assert_eq!(figures(reference, &[point]), counts(0, &[0]));
                let origin = [0; 4];
                assert_eq!(figures(reference, &[point, origin]), counts(whole, &[0, whole]));
                assert_eq!(figures(reference, &[origin, point]), counts(whole, &[whole, 0]));
                let last = reference.map(|r| r - 1);
                assert_eq!(figures(reference, &[point, last, point]), counts(1, &[0, 1, 0]));
            }
        }
    }
}

/// A reference with numbers of any size, the largest among them.
fn any_reference(rng: &mut Rng) -> Point4 {
    [0; 4].map(|_: u64| match rng.within(0..=4) {
        0 => MOST,
        1 => MOST - rng.pick(&[1, 2, 1_000]),
        _ => {
            let bits = rng.within(0..=15);
            rng.within(1..=1 << bits)
        }
    })
}

/// Points under a reference: near one plane or anywhere, with few different numbers on an axis or many,
/// some equal to earlier ones or dominated by them, some at the reference or beyond it.
fn set(rng: &mut Rng, reference: Point4, count: u64) -> Vec<Point4> {
    let steps = reference.map(|r| rng.pick(&[2, 5, 20, MOST, MOST, MOST]).min(r));
    let front = rng.chance(50);
    let (beyond, equal, behind) =
        (rng.pick(&[0, 3, 15]), rng.pick(&[0, 5, 30]), rng.pick(&[0, 5, 30]));
    let mut points: Vec<Point4> = Vec::new();
    for _ in 0..count {
        let mut point = [0, 1, 2, 3].map(|axis| {
            let step = rng.within(0..=steps[axis] - 1);
            step * reference[axis] / steps[axis]
        });
        if front {
            let part = |axis: usize| point[axis] * reference[3] / reference[axis];
            point[3] = reference[3] - 1 - (part(0) + part(1) + part(2)) / 3;
        }
        if !points.is_empty() && rng.chance(equal) {
            point = rng.pick(&points);
        }
        if !points.is_empty() && rng.chance(behind) {
            point = rng.pick(&points);
            let axis = rng.index(4);
            point[axis] = rng.within(point[axis]..=MOST);
        }
        for axis in 0..4 {
            if rng.chance(beyond) {
                let next = (reference[axis] + 1).min(MOST);
                let any = rng.within(next..=MOST);
                point[axis] = rng.pick(&[reference[axis], next, any, MOST]);
            }
        }
        points.push(point);
    }
    points
}

fn permuted<T: Clone>(order: &[usize], list: &[T]) -> Vec<T> {
    order.iter().map(|&index| list[index].clone()).collect()
}

fn random_order(rng: &mut Rng, length: usize) -> Vec<usize> {
    let mut order: Vec<usize> = (0..length).collect();
    rng.shuffle(&mut order);
    order
}

/// Another order of the points gives their figures in that order; another order of the axes, in
/// reference and points alike, changes none.
fn in_any_order(rng: &mut Rng, reference: Point4, points: &[Point4], found: &Counts) {
    let order = random_order(rng, points.len());
    let expected = Counts { covered: found.covered, alone: permuted(&order, &found.alone) };
    assert_eq!(figures(reference, &permuted(&order, points)), expected);
    let axes = random_order(rng, 4);
    let turned = |point: &Point4| [0, 1, 2, 3].map(|axis| point[axes[axis]]);
    let around: Vec<Point4> = points.iter().map(turned).collect();
    assert_eq!(&figures(turned(&reference), &around), found);
}

/// With some point given once more, that one and its copy contribute nothing and the rest is as it was;
/// with all of them given twice, no one contributes.
fn with_copies(rng: &mut Rng, reference: Point4, points: &[Point4], found: &Counts) {
    let again = rng.index(points.len());
    let mut more = points.to_vec();
    more.push(points[again]);
    let mut expected = found.clone();
    expected.alone[again] = 0;
    expected.alone.push(0);
    assert_eq!(figures(reference, &more), expected);
    let twice = [points, points].concat();
    assert_eq!(figures(reference, &twice), counts(found.covered, &vec![0; twice.len()]));
}

/// Without some point the total is smaller by its contribution.
fn without_one(rng: &mut Rng, reference: Point4, points: &[Point4], found: &Counts) {
    let gone = rng.index(points.len());
    let mut others = points.to_vec();
    others.remove(gone);
    assert_eq!(bare(reference, &others).covered + found.alone[gone], found.covered);
}

/// How often sets were of some kind.
#[derive(Default)]
struct Kinds(BTreeMap<&'static str, u64>);

impl Kinds {
    fn note(&mut self, reference: Point4, points: &[Point4], found: &Counts) {
        let at_most = |p: &Point4, q: &Point4| (0..4).all(|axis| p[axis] <= q[axis]);
        let pairs = || (0..points.len()).flat_map(|i| (0..points.len()).map(move |j| (i, j)));
        let met = |is: fn(&Point4, &Point4) -> bool| {
            pairs().any(|(i, j)| i != j && is(&points[i], &points[j]))
        };
        let below = |p: &Point4| (0..4).all(|axis| p[axis] < reference[axis]);
        let at = |axis: usize| points.iter().any(|p| p[axis] == reference[axis]);
        let beyond = |axis: usize| points.iter().any(|p| p[axis] > reference[axis]);
        let mut alone: Vec<u64> = found.alone.iter().copied().filter(|&cells| cells > 0).collect();
        alone.dedup();
        let dominated = pairs().any(|(i, j)| {
            below(&points[j]) && points[i] != points[j] && at_most(&points[i], &points[j])
        });
        let kinds = [
            ("no points", points.is_empty()),
            ("equal points", met(|p, q| p == q)),
            ("equal but on w", met(|p, q| p[..3] == q[..3] && p[3] < q[3])),
            ("equal on w", met(|p, q| p[..3] != q[..3] && p[3] == q[3])),
            ("a dominated point", dominated),
            ("beyond on x", beyond(0)),
            ("beyond on y", beyond(1)),
            ("beyond on z", beyond(2)),
            ("beyond on w", beyond(3)),
            ("at the reference", (0..4).any(at)),
            ("contributions that differ", alone.len() > 2),
            ("not in order of w", points.windows(2).any(|pair| pair[0][3] > pair[1][3])),
        ];
        for (kind, is) in kinds {
            *self.0.entry(kind).or_insert(0) += u64::from(is);
        }
    }

    fn often(&self) {
        for (kind, times) in &self.0 {
            assert!(!full_run() || *times >= 50, "{kind} was met only {times} times");
        }
    }
}

/// Small boxes: every cell counted, and the reference's four ways against one another.
#[test]
fn small_boxes_cell_by_cell() {
    let mut kinds = Kinds::default();
    scenes(5, |rng| {
        let reference = [0; 4].map(|_: u64| rng.within(1..=6));
        let further = rng.pick(&[0, 1, 3]);
        let point = |rng: &mut Rng| reference.map(|r| rng.within(0..=r - 1 + further));
        let mut points: Vec<Point4> = (0..rng.within(0..=12)).map(|_| point(rng)).collect();
        for _ in 0..rng.within(0..=3).min(points.len() as u64) {
            let (from, to) = (rng.index(points.len()), rng.index(points.len()));
            points[to] = points[from];
        }
        let found = figures(reference, &points);
        assert_eq!(found, by_cells(&points, reference), "{reference:?}: {points:?}");
        assert_eq!(found, in_blocks(&points, reference));
        if points.len() <= 6 {
            assert_eq!(found, by_inclusion(&points, reference));
        }
        kinds.note(reference, &points, &found);
        if points.is_empty() {
            return 1;
        }
        in_any_order(rng, reference, &points, &found);
        with_copies(rng, reference, &points, &found);
        5
    });
    kinds.often();
}

/// Few points in boxes up to the largest.
#[test]
fn few_points_by_inclusion_and_exclusion() {
    let mut kinds = Kinds::default();
    scenes(3, |rng| {
        let reference = if rng.chance(30) { [MOST; 4] } else { any_reference(rng) };
        let count = rng.within(1..=8);
        let points = set(rng, reference, count);
        let found = figures(reference, &points);
        assert_eq!(found, by_inclusion(&points, reference), "{reference:?}: {points:?}");
        kinds.note(reference, &points, &found);
        in_any_order(rng, reference, &points, &found);
        3
    });
    kinds.0.remove("no points");
    kinds.often();
}

/// More points, in blocks between their coordinates.
#[test]
fn more_points_in_blocks() {
    let mut kinds = Kinds::default();
    long_scenes(20_000, |rng| {
        let reference = if rng.chance(30) { [MOST; 4] } else { any_reference(rng) };
        let count = if rng.chance(2) { 64 } else { rng.within(9..=24) };
        let points = set(rng, reference, count);
        let found = figures(reference, &points);
        assert_eq!(found, in_blocks(&points, reference), "{reference:?}: {points:?}");
        kinds.note(reference, &points, &found);
        in_any_order(rng, reference, &points, &found);
        with_copies(rng, reference, &points, &found);
        without_one(rng, reference, &points, &found);
        6
    });
    kinds.0.remove("no points");
    kinds.often();
}

/// Up to as many points as there may be.
#[test]
fn up_to_512_points_in_slices() {
    long_scenes(120, |rng| {
        let reference = if rng.chance(50) { [MOST; 4] } else { any_reference(rng) };
        let count = if rng.chance(50) { 512 } else { rng.within(100..=511) };
        let points = set(rng, reference, count);
        let found = bare(reference, &points);
        assert_eq!(found, in_slices(&points, reference), "{reference:?}: {points:?}");
        let order = random_order(rng, points.len());
        let shuffled = bare(reference, &permuted(&order, &points));
        assert_eq!(shuffled.covered, found.covered);
        assert_eq!(shuffled.alone, permuted(&order, &found.alone));
        without_one(rng, reference, &points, &found);
        3
    });
}

/// 512 points on a line that falls along one axis against the other three, or against one: every one
/// contributes, and the cells are known. On a rising line only the lowest contributes.
#[test]
fn lines_of_512_points() {
    for axis in 0..4 {
        let point = |i: u64| {
            let mut point = [i * 64; 4];
            point[axis] = (511 - i) * 64;
            point
        };
        let points: Vec<Point4> = (0..512).map(point).collect();
        // What point i leaves on the other three axes; each has a slice of 64 on its own.
        let cube = |i: u64| (64 * (512 - i)).pow(3);
        let alone: Vec<u64> = (0..512).map(|i| (cube(i) - cube(i + 1)) * 64).collect();
        let covered = (0..512).map(|i| cube(i) * 64).sum();
        assert_eq!(bare([MOST; 4], &points), counts(covered, &alone), "axis {axis}");
    }
    let rising: Vec<Point4> = (0..512).rev().map(|i| [i * 64; 4]).collect();
    let mut alone = vec![0; 512];
    alone[511] = (1 << 60) - (MOST - 64).pow(4);
    assert_eq!(bare([MOST; 4], &rising), counts(1 << 60, &alone));
    for (one, other) in [(0, 1), (0, 3), (1, 2), (2, 3), (3, 1)] {
        let point = |i: u64| {
            let mut point = [0; 4];
            (point[one], point[other]) = (i * 64, (511 - i) * 64);
            point
        };
        let points: Vec<Point4> = (0..512).map(point).collect();
        let step = 64 * 64 * MOST * MOST;
        let covered = step * 512 * 513 / 2;
        assert_eq!(bare([MOST; 4], &points), counts(covered, &[step; 512]));
    }
}

/// Where one axis is flat, the figures of an archive of the same points; where it is not, and all
/// points are at its start, these times its length.
#[test]
fn flat_ones_as_archives_have_them() {
    long_scenes(5_000, |rng| {
        let reference = any_reference(rng);
        let most = if rng.chance(2) { 512 } else { 60 };
        let count = rng.within(0..=most);
        let axis = rng.index(4);
        let others: Vec<usize> = (0..4).filter(|&other| other != axis).collect();
        let mut points = set(rng, reference, count);
        points.iter_mut().for_each(|point| point[axis] = 0);
        let three = |point: &Point4| [0, 1, 2].map(|other| point[others[other]] as u32);
        let mut archive = Archive::start(three(&reference), 512).unwrap();
        for (number, point) in (1..).zip(&points) {
            archive.insert(number, three(point)).unwrap();
        }
        let mut alone = vec![0; points.len()];
        archive.trials().for_each(|trial| alone[trial.number as usize - 1] = trial.contribution);
        for length in [1, reference[axis]] {
            let mut flat = reference;
            flat[axis] = length;
            let alone: Vec<u64> = alone.iter().map(|cells| cells * length).collect();
            assert_eq!(bare(flat, &points), counts(archive.total() * length, &alone));
        }
        2
    });
}

/// The call with something wrong or at its limit, several things at a time.
fn damage(rng: &mut Rng, call: &mut Call, out: &mut Vec<u64>) {
    let Call::Count4 { reference, coords } = call else { unreachable!("a count on four axes") };
    let high = [MOST + 1, MOST + 2, 1 << 16, 1 << 31, 1 << 32, (1 << 32) + 1, 1 << 63, u64::MAX];
    if rng.chance(30) {
        reference[rng.index(4)] = if rng.chance(30) { 0 } else { rng.pick(&high) };
    }
    match rng.within(0..=4) {
        0 => coords.extend(vec![1; rng.pick(&[1, 2, 3])]),
        1 => coords.resize(rng.pick(&[2_051, 2_052, 2_053, 2_056, 4_096]), 1),
        _ => {}
    }
    if !coords.is_empty() && rng.chance(40) {
        let at = rng.index(coords.len());
        coords[at] = rng.pick(&high);
    }
    match rng.within(0..=3) {
        0 => out.truncate(coords.len() / 4),
        1 => out.truncate(rng.index(3)),
        2 => out.resize(coords.len() / 4 + 1, 7),
        _ => out.resize(coords.len() / 4 + 4, 7),
    }
}

#[test]
fn random_refusals() {
    let mut tally = Tally::default();
    scenes(2, |rng| {
        let reference = any_reference(rng);
        let count = rng.within(0..=6);
        let points = set(rng, reference, count);
        let mut call = call(reference, &points);
        let mut out = anything(points.len() + 1);
        tally.compare(&call, &out);
        damage(rng, &mut call, &mut out);
        let outcome = tally.compare(&call, &out);
        assert!(outcome.refusal() == 0 || outcome.words == out, "an output was written");
        2
    });
    if full_run() {
        tally.covers("count4", &[0, 4, 6, 16, 17, 20]);
        tally.covers_beyond("count4");
        tally.covers_wide("count4");
    }
}

/// The call refused by this row, the output as it was.
fn refused(reference: Point4, coords: &[u64], out_len: usize, row: u64) {
    let (call, lent) = (Call::Count4 { reference, coords: coords.to_vec() }, anything(out_len));
    assert_eq!(expect(&call, &lent, row).words, lent);
}

/// Any rows that can meet at once: the first of 4, 17, 20, 6 and 16 answers.
#[test]
fn rows_in_their_order() {
    let high = [MOST + 1, (1 << 32) + 1, u64::MAX];
    for (axis, &bad) in (0..4).flat_map(|axis| high.iter().map(move |bad| (axis, bad))) {
        for met in 1..32 {
            let meets = |row: usize| met >> row & 1 == 1;
            let row = [4, 17, 20, 6, 16][(0..5).find(|&row| meets(row)).expect("one of them")];
            let mut reference = [4; 4];
            if meets(0) {
                reference[axis] = if met % 3 == 0 { 0 } else { bad };
            }
            let points = if meets(2) { [513, 514, 600, 1_024] } else { [1, 2, 7, 512] }[axis];
            let over = if meets(1) { axis % 3 + 1 } else { 0 };
            let mut coords = vec![1; 4 * points + over];
            let lengths =
                if meets(4) { [0, 1, points] } else { [1, 2, 9].map(|more| points + more) };
            for out_len in lengths {
                for at in [0, axis, coords.len() / 2, coords.len() - 1] {
                    if meets(3) {
                        coords[at] = bad;
                    }
                    refused(reference, &coords, out_len, row);
                    coords[at] = 1;
                }
            }
        }
    }
}

#[test]
fn row_4_at_its_limits() {
    let coords = [1, 2, 2, 0, 2, 1, 2, 0];
    for axis in 0..4 {
        for (number, others) in [1, 2, MOST - 1, MOST].map(|n| [(n, 4), (n, MOST)]).concat() {
            let mut reference = [others; 4];
            reference[axis] = number;
            for points in 0..=2 {
                let call = Call::Count4 { reference, coords: coords[..4 * points].to_vec() };
                expect(&call, &anything(points + 1), 0);
                expect(&call, &anything(points), 16);
            }
        }
        let bad = [0, MOST + 1, 65_536, 1_048_576].into_iter().chain(wide(4)).chain(wide(MOST));
        for (number, others) in bad.flat_map(|number| [1, 4, MOST, number].map(|o| (number, o))) {
            let mut reference = [others; 4];
            reference[axis] = number;
            for (length, out_len) in [(0, 1), (4, 2), (8, 3), (8, 0), (7, 3)] {
                refused(reference, &coords[..length], out_len, 4);
            }
        }
    }
}

/// 512 points near one plane, none of them at 0.
fn many() -> Vec<u64> {
    let point = |i: u64| {
        let (x, y, z) = (1 + i * 331 % 1_000, 1 + i * 577 % 1_000, 1 + i * 733 % 1_000);
        [x, y, z, 4_000 - x - y - z]
    };
    (0..512).flat_map(point).collect()
}

/// The C interface's answer alone, all of the output unchanged by a refusal.
fn refused_by_c([rx, ry, rz, rw]: Point4, coords: &[u64], out: &mut [u64], row: u64) {
    let before = out.to_vec();
    // SAFETY: pointers and lengths are those of two slices, the second of which is borrowed mutably.
    let answer = unsafe {
        let (coords, len) = (coords.as_ptr(), coords.len());
        sys::ta_count4(rx, ry, rz, rw, coords, len, out.as_mut_ptr(), out.len())
    };
    assert_eq!((answer, &*out), (row, &before[..]));
}

/// One limit on every axis whatever the reference; too large in every place of 512 points.
#[test]
fn row_6_at_its_limits() {
    for reference in [[1; 4], [4; 4], [MOST - 1; 4], [MOST; 4], [1, MOST, 2, MOST - 1]] {
        for at in 0..12 {
            let mut coords = vec![0, 3, 1, 2, 2, 0, 3, 1, 1, 1, 0, 0];
            for coordinate in [0, 1, 3, 4, 5, MOST - 1, MOST] {
                coords[at] = coordinate;
                expect(&Call::Count4 { reference, coords: coords.clone() }, &anything(4), 0);
            }
            let bad = [MOST + 1, 65_536, 1_048_576].into_iter().chain(wide(4)).chain(wide(MOST));
            for coordinate in bad {
                coords[at] = coordinate;
                refused(reference, &coords, 4, 6);
                refused(reference, &coords, 3, 6);
            }
        }
    }
    let (mut coords, mut out) = (many(), anything(513));
    for at in 0..coords.len() {
        for bad in [MOST + 1, (1 << 32) + 1, u64::MAX] {
            let good = std::mem::replace(&mut coords[at], bad);
            refused_by_c([MOST; 4], &coords, &mut out, 6);
            assert_eq!(coords[at], bad);
            coords[at] = good;
        }
    }
    assert_eq!(coords, many());
}

/// Lengths that are and are not of whole points, up to 512 of them and beyond, and outputs of exactly
/// points + 1 words, one less and more.
#[test]
fn rows_16_17_and_20_at_their_limits() {
    let coords = [many(), many(), many()].concat();
    for length in (0..=21).chain(2_040..=2_060).chain([1_024, 4_095, 4_096, 4_097, 6_144]) {
        let (coords, points) = (&coords[..length], length / 4);
        let row = match length {
            _ if length % 4 != 0 => 17,
            2_049.. => 20,
            _ => 0,
        };
        for out_len in [0, 1, points.max(1) - 1, points, points + 1, points + 2, points + 9] {
            let row = if row == 0 && out_len <= points { 16 } else { row };
            if row != 0 {
                refused([4_000; 4], coords, out_len, row);
                refused([1; 4], coords, out_len, row);
            } else if length <= 21 {
                let lent = anything(out_len);
                let call = Call::Count4 { reference: [4_000; 4], coords: coords.to_vec() };
                let words = expect(&call, &lent, 0).words;
                assert_eq!(words[points + 1..], lent[points + 1..]);
            }
        }
    }
    // 511 and 512 points, with words behind the figures and without.
    for points in [511, 512] {
        let found = in_slices(coords[..4 * points].as_chunks().0, [4_000; 4]);
        for behind in [0, 9] {
            let mut out = anything(points + 1 + behind);
            words::count4([4_000; 4], &coords[..4 * points], &mut out).unwrap();
            assert_eq!(counts_in(&out, points), found);
            assert_eq!(out[points + 1..], anything(out.len())[points + 1..]);
        }
    }
}

/// No points: the total alone.
#[test]
fn no_points() {
    for reference in [[1; 4], [4, 3, 2, 1], [MOST; 4]] {
        let call = Call::Count4 { reference, coords: Vec::new() };
        refused(reference, &[], 0, 16);
        for length in 1..=5 {
            let mut expected = anything(length);
            expected[0] = 0;
            assert_eq!(expect(&call, &anything(length), 0).words, expected);
        }
    }
}
