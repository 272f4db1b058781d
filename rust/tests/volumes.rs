//! The volume in doubles (document 02, W-207), bit for bit: random sets with shared z's, equal points
//! and points past the reference, small boxes cell by cell, boxes around 2^53 and up to 2^60, the
//! totals of archives, and every kind of bad double at every place.

use crate::boundaries::full_words;
use crate::lend::{expect, Call, Tally};
use crate::reference::volume::{cells, layers, sum, Layer};
use crate::reference::{box_of, totals, Point, MAX_COORDINATE, MAX_REFERENCE};
use crate::rng::{full_run, scenes, Rng};
use std::collections::BTreeMap;
use trial_archive::{sys, Archive};

/// Every whole number up to this is a double.
const EXACT: u64 = 1 << 53;

fn doubles(point: Point) -> [f64; 3] {
    point.map(|number| number as f64)
}

fn call(reference: Point, points: &[Point]) -> Call {
    let points = points.iter().flat_map(|&point| doubles(point)).collect();
    Call::Volume { reference: doubles(reference), points }
}

/// What is promised of a volume, whatever way it was found.
fn is_near(volume: f64, reference: Point, points: &[Point]) {
    let cells = cells(&layers(reference, points));
    assert!(volume.is_sign_positive() && volume.fract() == 0.0, "{volume}");
    let apart = (volume as u128).abs_diff(cells);
    let allowed = if box_of(reference) <= EXACT { 0 } else { 192 * points.len() as u128 };
    assert!(apart <= allowed, "{volume} for {cells} cells under {reference:?}: {points:?}");
}

/// The volume of points that are allowed.
fn volume(reference: Point, points: &[Point]) -> f64 {
    let volume = f64::from_bits(expect(&call(reference, points), &[], 0).answer[1]);
    is_near(volume, reference, points);
    volume
}

/// The C interface's answer, the volume as its bits.
fn bare([x, y, z]: [f64; 3], points: &[f64]) -> [u64; 2] {
    // SAFETY: pointer and length are those of one slice borrowed for the call.
    let answer = unsafe { sys::ta_volume(sys::Corner { x, y, z }, points.as_ptr(), points.len()) };
    [answer.refusal, answer.volume.to_bits()]
}

#[test]
fn the_card() {
    let card = [[1, 2, 2], [2, 1, 2], [2, 2, 1], [1, 1, 3]];
    assert_eq!(volume([4, 4, 4], &card), 21.0);
    assert_eq!(volume([4, 4, 4], &card[..3]), 20.0);
    assert_eq!(volume([4, 4, 4], &[card[0], card[1], card[2], [1, 1, 5]]), 20.0);
    assert_eq!(volume([4, 4, 4], &[[0, 0, 0]]), 64.0);
    for reference in [[1, 1, 1], [4, 4, 4], [MAX_REFERENCE; 3]] {
        assert_eq!(volume(reference, &[]).to_bits(), 0);
        assert_eq!(volume(reference, &[reference]).to_bits(), 0);
        for axis in 0..3 {
            let mut edge = [0; 3];
            edge[axis] = reference[axis];
            assert_eq!(volume(reference, &[edge]).to_bits(), 0);
            edge[axis] = MAX_COORDINATE;
            assert_eq!(volume(reference, &[edge]).to_bits(), 0);
        }
    }
}

/// The three places of the reference and of a point are x, y and z.
#[test]
fn places() {
    assert_eq!(volume([3, 5, 7], &[[1, 2, 4]]), 18.0);
    assert_eq!(volume([3, 5, 7], &[[2, 0, 0], [0, 4, 0], [0, 0, 6]]), 57.0);
    assert_eq!(volume([1, 1, MAX_REFERENCE], &[[0, 0, 1]]), 1_048_575.0);
    assert_eq!(volume([1, MAX_REFERENCE, 1], &[[0, 1, 0]]), 1_048_575.0);
    assert_eq!(volume([MAX_REFERENCE, 1, 1], &[[1, 0, 0]]), 1_048_575.0);
}

/// Sums worked out by hand that have to be rounded.
#[test]
fn roundings() {
    let most = MAX_REFERENCE;
    // 2^40 - 1 cells and then 2^60 - 2^40 more: one less than 2^60, the nearest double.
    let corners = [[1, 0, 0], [0, 1, 0], [0, 0, 1]];
    assert_eq!(volume([most; 3], &corners), 2_f64.powi(60));
    assert_eq!(cells(&layers([most; 3], &corners)), (1 << 60) - 1);
    // In one layer, and in two that a point past the reference parts. A fused step would give the
    // first sum again.
    let point = [1, 9, 1];
    assert_eq!(cells(&layers([most; 3], &[point])), 1_152_909_409_998_864_375);
    assert_eq!(volume([most; 3], &[point]) as u64, 1_152_909_409_998_864_384);
    for past in [[most, 0, 8], [0, most, 8], [most, most, 8]] {
        assert_eq!(volume([most; 3], &[point, past]) as u64, 1_152_909_409_998_864_256);
    }
    // Past the reference on z there is no layer.
    for past in [[most, 0, most], [0, 0, most], [most; 3]] {
        assert_eq!(volume([most; 3], &[past, point]) as u64, 1_152_909_409_998_864_384);
    }
}

/// A reference whose box is 2^53 or near it, below or above; its axes in any order.
fn around_exact(rng: &mut Rng) -> Point {
    let boxes = [
        [868_246, 428_767, 24_195],
        [917_497, 44_476, 220_729],
        [1_011_837, 320_083, 27_811],
        [1 << 20, 1 << 20, 1 << 13],
        [1 << 18, 1 << 18, 1 << 17],
        [786_438, 13_058, 877_099],
        [924_115, 105_899, 92_039],
        [1 << 20, 1 << 20, (1 << 13) + 1],
        [208_064, 208_064, 208_064],
    ];
    let mut reference = rng.pick(&boxes);
    rng.shuffle(&mut reference);
    reference
}

#[test]
fn boxes_around_exact() {
    scenes(1, |rng| {
        let reference = around_exact(rng);
        let near = |rng: &mut Rng| reference.map(|r| rng.within(0..=5).min(r));
        let points: Vec<Point> = (0..rng.within(1..=6)).map(|_| near(rng)).collect();
        volume(reference, &points);
        volume(reference, &[[0, 0, 0]]);
        2
    });
    let whole = |reference: Point| volume(reference, &[[0, 0, 0]]) as u64;
    assert_eq!(whole([1_011_837, 320_083, 27_811]), EXACT - 11);
    assert_eq!(whole([868_246, 428_767, 24_195]), EXACT - 2);
    assert_eq!(whole([1 << 20, 1 << 20, 1 << 13]), EXACT);
    assert_eq!(whole([786_438, 13_058, 877_099]), EXACT + 4);
    // 2^53 + 23 lies between two doubles and is rounded to the one whose last bit is 0.
    assert_eq!(whole([924_115, 105_899, 92_039]), EXACT + 24);
    assert_eq!(whole([MAX_REFERENCE; 3]), 1 << 60);
}

/// A set of points under a reference, drawn so that layers are shared and products rounded.
fn set(rng: &mut Rng) -> (Point, Vec<Point>) {
    let reference = match rng.within(0..=9) {
        0..=2 => around_exact(rng),
        3..=7 => [0; 3].map(|_: u64| MAX_REFERENCE - rng.pick(&[0, 1, 2, 1_000, 65_535])),
        _ => [0; 3].map(|_: u64| {
            let bits = rng.within(0..=20);
            rng.within(1..=1 << bits)
        }),
    };
    let count = match rng.within(0..=9) {
        0 => rng.within(0..=2),
        1 => rng.pick(&[511, 512]),
        2 => rng.within(100..=512),
        _ => rng.within(3..=60),
    };
    // The z's that points share, or none.
    let shared = rng.pick(&[0, 0, 1, 2, 5, 20]);
    let shared: Vec<u64> = (0..shared).map(|_| rng.within(0..=reference[2])).collect();
    let (front, low, past) = (rng.chance(40), rng.chance(40), rng.pick(&[0, 5, 20, 50]));
    let mut points: Vec<Point> = Vec::new();
    for _ in 0..count {
        let most = if low { reference.map(|r| r / 8) } else { reference };
        let mut point = most.map(|most| rng.within(0..=most));
        if front {
            let part = |axis: usize| point[axis] * reference[2] / reference[axis] / 2;
            point[2] = reference[2] - part(0) - part(1);
        }
        if !shared.is_empty() {
            point[2] = rng.pick(&shared);
        }
        for axis in 0..3 {
            if rng.chance(past) {
                let next = (reference[axis] + 1).min(MAX_COORDINATE);
                let any = rng.within(next..=MAX_COORDINATE);
                point[axis] = rng.pick(&[reference[axis], next, any, MAX_COORDINATE]);
            }
        }
        if !points.is_empty() && rng.chance(5) {
            point = rng.pick(&points);
        }
        points.push(point);
    }
    (reference, points)
}

/// Figures that are not the text's: by these the sets show that they would tell them apart.
fn others(reference: Point, points: &[Point]) -> [(&'static str, f64); 5] {
    let own = layers(reference, points);
    let fused = own.iter().fold(0.0, |sum, l| (l.area as f64).mul_add(l.height as f64, sum));
    let inside = |p: &&Point| p[0] < reference[0] && p[1] < reference[1];
    let inside: Vec<Point> = points.iter().filter(inside).copied().collect();
    let turned = |[x, y, z]: Point| [y, z, x];
    let around: Vec<Point> = points.iter().copied().map(turned).collect();
    [
        ("the count rounded once", cells(&own) as f64),
        ("a fused step", fused),
        ("layers from above", sum(own.iter().rev().copied())),
        ("no layers of points past on x or y", sum(layers(reference, &inside))),
        ("layers along another axis", sum(layers(turned(reference), &around))),
    ]
}

/// The call with something wrong: its length, the number of its points, some double of theirs or of
/// the reference. A bad double may come with the others.
fn damage(rng: &mut Rng, call: &mut Call) {
    let Call::Volume { reference, points } = call else { unreachable!("a volume") };
    let bad = rng.pick(&bad_doubles());
    match rng.within(0..=3) {
        0 => points.extend(vec![1.0; rng.pick(&[1, 2, 1_537])]),
        1 => points.resize(rng.pick(&[1_536, 1_539, 1_542, 3_072]), 1.0),
        2 => reference[rng.index(3)] = bad,
        _ => {}
    }
    if !points.is_empty() && rng.chance(60) {
        let at = rng.index(points.len());
        points[at] = bad;
    }
}

#[test]
fn random_sets() {
    let mut tally = Tally::default();
    let mut met: BTreeMap<&str, u64> = BTreeMap::new();
    scenes(2, |rng| {
        let (reference, points) = set(rng);
        let figure = volume(reference, &points);
        // The order of the points does not matter, nor which zeros have a sign.
        let mut shuffled = points.clone();
        rng.shuffle(&mut shuffled);
        let mut signed = call(reference, &shuffled);
        if let Call::Volume { points, .. } = &mut signed {
            let zeros = points.iter_mut().filter(|double| **double == 0.0);
            zeros.for_each(|zero| *zero = rng.pick(&[0.0, -0.0]));
        }
        assert_eq!(tally.compare(&signed, &[]).answer, [0, figure.to_bits()]);
        damage(rng, &mut signed);
        tally.compare(&signed, &[]);
        if points.len() <= 40 {
            let counted = totals(&points, reference).covered;
            assert_eq!(cells(&layers(reference, &points)), u128::from(counted));
        }
        for (kind, other) in others(reference, &points) {
            *met.entry(kind).or_insert(0) += u64::from(other != figure);
        }
        let cells = box_of(reference);
        let past = points.iter().any(|p| (0..3).any(|axis| p[axis] > reference[axis]));
        let mut distinct = points.clone();
        distinct.sort_unstable();
        distinct.dedup();
        let kinds = [
            ("no points", points.is_empty()),
            ("512 points", points.len() == 512),
            ("equal points", distinct.len() < points.len()),
            ("past the reference", past),
            ("a box below 2^53", cells < EXACT),
            ("a box of 2^53", cells == EXACT),
            ("a box above 2^53", cells > EXACT),
            ("a box near 2^60", cells > 1 << 59),
        ];
        for (kind, is) in kinds {
            *met.entry(kind).or_insert(0) += u64::from(is);
        }
        3
    });
    if full_run() {
        tally.covers("volume", &[0, 17, 19, 20]);
        tally.covers_beyond("volume");
        for (kind, times) in met {
            println!("{kind}: {times}");
            assert!(times >= 50, "{kind} was met only {times} times");
        }
    }
}

/// Small boxes: each layer's area cell by cell, and the volume as the count of all cells.
#[test]
fn small_boxes_cell_by_cell() {
    scenes(1, |rng| {
        let reference = [0; 3].map(|_: u64| rng.within(1..=6));
        let point = |rng: &mut Rng| reference.map(|r| rng.within(0..=r + 2));
        let points: Vec<Point> = (0..rng.within(0..=12)).map(|_| point(rng)).collect();
        let [rx, ry, rz] = reference;
        let dominated = |i, j, k| points.iter().any(|&[x, y, z]| x <= i && y <= j && z <= k);
        let area = |k| {
            let plane = (0..rx).flat_map(|i| (0..ry).map(move |j| (i, j)));
            plane.filter(|&(i, j)| dominated(i, j, k)).count() as u64
        };
        let begins: Vec<u64> = (0..rz).filter(|&k| points.iter().any(|p| p[2] == k)).collect();
        let ends = begins.iter().skip(1).copied().chain([rz]);
        let direct =
            begins.iter().zip(ends).map(|(&k, end)| Layer { area: area(k), height: end - k });
        let direct: Vec<Layer> = direct.collect();
        assert_eq!(layers(reference, &points), direct, "{reference:?}: {points:?}");
        let all: u64 = (0..rz).map(area).sum();
        assert_eq!(volume(reference, &points), all as f64);
        1
    });
}

/// The total of an archive of the same points, exact or as near as promised.
#[test]
fn totals_of_archives() {
    scenes(1, |rng| {
        let (reference, points) = set(rng);
        let mut archive = Archive::start(reference.map(|r| r as u32), 512).unwrap();
        let trials: Vec<[u64; 4]> =
            points.iter().zip(1..).map(|(&[x, y, z], number)| [number, x, y, z]).collect();
        assert_eq!(archive.insert_grid(&trials).unwrap().inserted, points.len() as u64);
        let volume = volume(reference, &points);
        let apart = (volume as u64).abs_diff(archive.total());
        let exact = box_of(reference) <= EXACT;
        assert!(apart <= if exact { 0 } else { 192 * points.len() as u64 });
        2
    });
    let words = full_words();
    let points: Vec<Point> = words[8..].chunks(5).map(|r| [r[1], r[2], r[3]]).collect();
    assert_eq!(points.len(), 512);
    assert_eq!(volume([words[2], words[3], words[4]], &points), words[5] as f64);
}

/// 512 layers of equal area, cut by equal points or by points past the reference: errors add up, to
/// either side.
#[test]
fn long_sums() {
    let most = MAX_REFERENCE;
    let cases = [(1, 1, 0), (63, 1, 256), (65, 3, -384), (2_045, 8, -16_384), (2_047, 8, 16_384)];
    for (height, short, error) in cases {
        for past in [false, true] {
            let side = |i: u64| if past && i > 0 { most } else { short };
            let points: Vec<Point> = (0..512).map(|i| [side(i), short, i * height]).collect();
            let layers = layers([most; 3], &points);
            assert_eq!(layers.len(), 512);
            let volume = volume([most; 3], &points);
            assert_eq!(volume as i128 - cells(&layers) as i128, error);
        }
    }
}

/// Doubles that are refused everywhere: of each kind the first and the last, and such as a
/// conversion to a shorter number would take for a small one.
fn bad_doubles() -> Vec<f64> {
    let bits = [
        // not numbers: quiet, then signalling
        0x7ff8_0000_0000_0000,
        0x7ff8_0000_0000_0001,
        0x7fff_ffff_ffff_ffff,
        0x7ff0_0000_0000_0001,
        0x7ff4_0000_0000_0000,
        0x7ff7_ffff_ffff_ffff,
        // infinite
        0x7ff0_0000_0000_0000,
        // subnormal
        0x0000_0000_0000_0001,
        0x0000_0000_0000_0004,
        0x0000_0000_0010_0000,
        0x0008_0000_0000_0000,
        0x000f_ffff_ffff_ffff,
        // the smallest normal ones, the largest
        0x0010_0000_0000_0000,
        0x0010_0000_0000_0001,
        0x7fef_ffff_ffff_ffff,
    ];
    let power = |exponent| 2_f64.powi(exponent);
    let sizes = [
        0.5,
        1.5,
        2.5,
        f64::EPSILON,
        1.0 - f64::EPSILON / 2.0,
        1.0 + f64::EPSILON,
        1_048_575.5,
        1_048_576.5,
        1_048_576.0 + power(-32),
        1_048_577.0,
        2_097_152.0,
        power(31),
        power(32),
        power(32) + 4.0,
        power(52) - 0.5,
        power(53),
        power(53) + 2.0,
        power(63),
        power(64),
        power(64) + 4_096.0,
        power(128),
    ];
    let positive = bits.into_iter().map(f64::from_bits).chain(sizes);
    let both = positive.flat_map(|double| [double, -double]);
    both.chain([-1.0, -2.0, -4.0, -1_048_576.0]).collect()
}

/// 512 points near one plane, none of them at 0.
fn many() -> Vec<f64> {
    let point = |i: u64| {
        let (x, y) = (1 + i * 331 % 1_000, 1 + i * 577 % 1_000);
        doubles([x, y, 3_000 - x - y])
    };
    (0..512).flat_map(point).collect()
}

fn bits(doubles: &[f64]) -> Vec<u64> {
    doubles.iter().map(|double| double.to_bits()).collect()
}

#[test]
fn bad_doubles_at_every_place() {
    let card = [1.0, 2.0, 2.0, 2.0, 1.0, 2.0, 2.0, 2.0, 1.0, 1.0, 1.0, 3.0];
    let mut points = many();
    let before = bits(&points);
    let reference = [4_000.0; 3];
    assert_eq!(bare(reference, &points)[0], 0);
    for bad in bad_doubles() {
        for at in 0..12 {
            let mut points = card.to_vec();
            points[at] = bad;
            expect(&Call::Volume { reference: [4.0; 3], points }, &[], 19);
        }
        for at in 0..points.len() {
            let good = std::mem::replace(&mut points[at], bad);
            assert_eq!(bare(reference, &points), [19, 0], "{:#x} at {at}", bad.to_bits());
            assert_eq!(points[at].to_bits(), bad.to_bits());
            points[at] = good;
        }
        assert_eq!(bits(&points), before);
    }
}

/// Also with no points, and with zeros, which points may have.
#[test]
fn bad_references() {
    let points = many();
    for bad in bad_doubles().into_iter().chain([0.0, -0.0]) {
        for axis in 0..3 {
            for others in [1.0, 4.0, 1_048_576.0, bad] {
                let mut reference = [others; 3];
                reference[axis] = bad;
                for points in [&[][..], &[0.0; 3], &[4.0; 9], &points] {
                    let call = Call::Volume { reference, points: points.to_vec() };
                    expect(&call, &[], 19);
                }
            }
        }
    }
}

/// Minus zero at every place of a point is accepted and counts as zero.
#[test]
fn minus_zeros() {
    let reference = [1_048_576.0; 3];
    let mut points = many();
    for at in 0..points.len() {
        let own = std::mem::replace(&mut points[at], 0.0);
        let plain = bare(reference, &points);
        points[at] = -0.0;
        assert_eq!(bare(reference, &points), plain, "at {at}");
        assert!(plain[0] == 0 && points[at].is_sign_negative());
        points[at] = own;
    }
    let card = [1.0, 2.0, 2.0, 2.0, 1.0, 2.0, 2.0, 2.0, 1.0, 1.0, 1.0, 3.0];
    for at in 0..12 {
        let mut points = card.to_vec();
        points[at] = -0.0;
        expect(&Call::Volume { reference: [4.0; 3], points }, &[], 0);
    }
    let origin = Call::Volume { reference, points: vec![-0.0; 1_536] };
    assert_eq!(expect(&origin, &[], 0).answer[1], 2_f64.powi(60).to_bits());
}

/// As many points as there may be, and one more; a double more or less.
#[test]
fn numbers_of_points() {
    let points = [many(), many()].concat();
    let largest = [1_048_576.0; 3];
    for (length, row) in
        [(1_533, 0), (1_535, 17), (1_536, 0), (1_537, 17), (1_538, 17), (1_539, 20)]
    {
        let mut points = points[..length].to_vec();
        expect(&Call::Volume { reference: largest, points: points.clone() }, &[], row);
        points[7] = f64::NAN;
        let row = if row == 0 { 19 } else { row };
        expect(&Call::Volume { reference: largest, points: points.clone() }, &[], row);
        points.fill(f64::INFINITY);
        expect(&Call::Volume { reference: largest, points }, &[], row);
    }
}
