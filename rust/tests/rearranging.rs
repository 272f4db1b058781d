//! Archives with their axes in another order (document 02, W-212): every pair of points of a small
//! box, random archives of up to 512 trials against the order's letters and a fresh archive of the
//! rearranged trials, orders one after the other, further calls on both archives, and the rows in
//! their order.

use crate::boundaries::{full_words, wide};
use crate::lend::{agree, anything, compare, expect, Call, Outcome};
use crate::reference::axes::{in_order, rearranged, ORDERS};
use crate::reference::book::words_of;
use crate::reference::calls::{self, Archive};
use crate::reference::{Point, MAX_COORDINATE, MAX_NUMBER, MAX_REFERENCE};
use crate::rng::{full_run, long_scenes, scenes, Rng};
use crate::scenes::{Shape, Size};
use std::collections::BTreeMap;
use trial_archive::{words, AxisOrder};

/// "Applying the inverse order restores the original words": which order that is.
const INVERSE: [u64; 6] = [0, 1, 2, 4, 3, 5];

/// The order that two orders come to, one after the other.
fn composed(first: u64, second: u64) -> u64 {
    let [first, second] = [first, second].map(|order| ORDERS[order as usize]);
    let letter = |letter: char| first.chars().nth("xyz".find(letter).expect("an axis"));
    let letters: String = second.chars().map(|own| letter(own).expect("three letters")).collect();
    ORDERS.iter().position(|order| **order == letters).expect("one of the six") as u64
}

/// What an archive that the audit passes comes to, in a second slice that holds anything and is
/// longer by some words. By the C interface and the safe functions, the answer, all words of the second
/// slice and those of the archive are as the letters say.
fn turned(words: &[u64], order: u64, behind: usize) -> Vec<u64> {
    let source = calls::read(words).expect("an archive");
    let own = in_order(&source, ORDERS[order as usize]).words();
    let lent = anything(own.len() + behind);
    let log = [&own[..], &lent[own.len()..]].concat();
    let call = Call::Rearrange { order, second: lent };
    let words = words.to_vec();
    let expected = Outcome { answer: vec![0], words, log, out: Vec::new(), card: Vec::new() };
    agree(&call, &expected.words, &expected);
    own
}

/// By one call of the safe function.
fn bare(words: &[u64], order: u64) -> Vec<u64> {
    let mut second = vec![u64::MAX; words::needed(words[1] as usize)];
    let order = AxisOrder::from_number(order).expect("one of the six");
    words::rearrange(words, order, &mut second).expect("an archive that the audit passes");
    second
}

/// Point and contribution of each trial number.
fn by_number(archive: &Archive) -> BTreeMap<u64, (Point, u64)> {
    archive.records.iter().map(|r| (r.number, (r.point, r.contribution))).collect()
}

/// Into a fresh archive of the rearranged reference go the rearranged trials, in any order.
fn inserted(rng: &mut Rng, source: &Archive, letters: &str) -> Vec<u64> {
    let mut grid: Vec<[u64; 4]> = source
        .records
        .iter()
        .map(|record| {
            let [x, y, z] = rearranged(letters, record.point);
            [record.number, x, y, z]
        })
        .collect();
    rng.shuffle(&mut grid);
    let mut words = vec![u64::MAX; words::needed(source.capacity as usize)];
    let reference = rearranged(letters, source.reference).map(|number| number as u32);
    words::start(&mut words, reference, source.capacity).expect("an archive");
    let filled = words::insert_grid(&mut words, &grid).expect("an archive");
    assert_eq!((filled.inserted, filled.stop), (grid.len() as u64, None));
    words
}

/// What holds of an archive in every order.
fn in_every_order(rng: &mut Rng, words: &[u64]) {
    let source = calls::read(words).expect("an archive");
    let own = &words[..words::needed(source.capacity as usize)];
    for (order, letters) in (0..).zip(ORDERS) {
        let second = turned(words, order, rng.index(4));
        assert_eq!(words::audit(&second), Ok(true), "{letters}: {words:?}");
        let found = calls::read(&second).expect("an archive");
        assert_eq!((found.total, found.front), (source.total, source.front));
        assert_eq!(found.capacity, source.capacity);
        assert_eq!(found.reference, rearranged(letters, source.reference));
        let mut due = by_number(&source);
        due.values_mut().for_each(|(point, _)| *point = rearranged(letters, *point));
        assert_eq!(by_number(&found), due);
        assert_eq!(turned(&second, INVERSE[order as usize], 0), own);
        let next = rng.within(0..=5);
        assert_eq!(bare(&second, next), bare(words, composed(order, next)));
        assert_eq!(inserted(rng, &source, letters), second, "{letters}: {words:?}");
    }
    assert_eq!(bare(words, 0), own);
}

/// How often archives were of some kind.
#[derive(Default)]
struct Kinds(BTreeMap<&'static str, u64>);

impl Kinds {
    fn note(&mut self, words: &[u64]) {
        let archive = calls::read(words).expect("an archive");
        let (points, reference) = (archive.points(), archive.reference);
        let ([rx, ry, rz], count) = (reference, points.len());
        let alike = |axis: usize| {
            let mut on_axis: Vec<u64> = points.iter().map(|point| point[axis]).collect();
            on_axis.sort_unstable();
            on_axis.windows(2).any(|pair| pair[0] == pair[1])
        };
        let some = |is: &dyn Fn(Point, usize) -> bool| {
            points.iter().any(|point| (0..3).any(|axis| is(*point, axis)))
        };
        let numbers: Vec<u64> = archive.records.iter().map(|record| record.number).collect();
        let contributions: Vec<u64> = archive.records.iter().map(|r| r.contribution).collect();
        let kinds = [
            ("empty", count == 0),
            ("one trial", count == 1),
            ("full", count as u64 == archive.capacity),
            ("capacity 1", archive.capacity == 1),
            ("capacity 512", archive.capacity == 512),
            ("512 trials", count == 512),
            ("equal trials", points.windows(2).any(|pair| pair[0] == pair[1])),
            ("alike on x", alike(0)),
            ("alike on y", alike(1)),
            ("alike on z", alike(2)),
            ("a coordinate 0", some(&|point, axis| point[axis] == 0)),
            ("at the reference", some(&|point, axis| point[axis] == reference[axis])),
            ("beyond the reference", some(&|point, axis| point[axis] > reference[axis])),
            ("the largest coordinate", some(&|point, axis| point[axis] == MAX_COORDINATE)),
            ("the largest reference", reference.contains(&MAX_REFERENCE)),
            ("a reference of three numbers", rx != ry && ry != rz && rx != rz),
            ("numbers not in order", !numbers.is_sorted()),
            ("contributions that differ", contributions.windows(2).any(|pair| pair[0] != pair[1])),
            ("not all on the front", archive.front < archive.count()),
        ];
        for (kind, is) in kinds {
            *self.0.entry(kind).or_insert(0) += u64::from(is);
        }
    }

    fn often(&self, least: u64, but: &[&str]) {
        for (kind, times) in &self.0 {
            println!("{kind}: {times}");
            let enough = *times >= least || but.contains(kind);
            assert!(!full_run() || enough, "{kind} was met only {times} times");
        }
    }
}

/// By hand: three numbers that differ on the reference and on two trials, and a third one equal to
/// the second.
#[test]
fn three_trials_in_six_orders() {
    let trials = [(5, [1, 20, 3]), (9, [4, 2, 30]), (7, [4, 2, 30])];
    let words = words_of([10, 200, 300], 4, &trials);
    let cells = [9 * 180 * 297, 6 * 198 * 270];
    let joint = 6 * 180 * 270;
    let (total, alone) = (cells[0] + cells[1] - joint, cells[0] - joint);
    let second: [([u64; 3], [[u64; 4]; 3]); 6] = [
        ([10, 200, 300], [[5, 1, 20, 3], [7, 4, 2, 30], [9, 4, 2, 30]]),
        ([10, 300, 200], [[7, 4, 30, 2], [9, 4, 30, 2], [5, 1, 3, 20]]),
        ([200, 10, 300], [[5, 20, 1, 3], [7, 2, 4, 30], [9, 2, 4, 30]]),
        ([200, 300, 10], [[5, 20, 3, 1], [7, 2, 30, 4], [9, 2, 30, 4]]),
        ([300, 10, 200], [[7, 30, 4, 2], [9, 30, 4, 2], [5, 3, 1, 20]]),
        ([300, 200, 10], [[5, 3, 20, 1], [7, 30, 2, 4], [9, 30, 2, 4]]),
    ];
    for (order, (reference, trials)) in (0..).zip(second) {
        let mut due = vec![3, 4];
        due.extend(reference);
        due.extend([total, 3, 0]);
        for trial in trials {
            due.extend(trial);
            due.push(if trial[0] == 5 { alone } else { 0 });
        }
        due.resize(28, 0);
        for behind in [0, 1, 9] {
            let call = Call::Rearrange { order, second: anything(28 + behind) };
            let found = expect(&call, &words, 0);
            assert_eq!(found.log[..28], due, "order {order}");
            assert_eq!(found.log[28..], anything(28 + behind)[28..], "words behind");
            assert_eq!(found.words, words);
        }
    }
}

/// The orders' letters, what undoes each of them, and what any two come to.
#[test]
fn orders_make_orders() {
    for (number, order) in (0..).zip(AxisOrder::ALL) {
        let letters = ORDERS[number as usize];
        let named = order.rearrange(['x', 'y', 'z']).iter().collect::<String>();
        assert_eq!((order.number(), &named[..]), (number, letters));
        assert_eq!(format!("{order:?}").to_lowercase(), letters);
        assert_eq!(order.inverse().number(), INVERSE[number as usize]);
        assert_eq!(composed(number, INVERSE[number as usize]), 0);
        assert_eq!(composed(INVERSE[number as usize], number), 0);
        assert_eq!(order.rearrange([7, 8, 9]), rearranged(letters, [7, 8, 9]));
        for next in AxisOrder::ALL {
            let both = AxisOrder::from_number(composed(number, next.number())).expect("an order");
            assert_eq!(next.rearrange(order.rearrange([7, 8, 9])), both.rearrange([7, 8, 9]));
        }
    }
    // By hand, where it matters which of two comes first.
    assert_eq!([composed(1, 2), composed(2, 1), composed(3, 3), composed(1, 3)], [4, 3, 4, 5]);
}

/// Every two points of a small box, either of them with the lower number, and the first one alone.
#[test]
fn every_pair_of_points() {
    let point = |place: u64| [place % 3, place / 3 % 3, place / 9];
    for places in 0..27 * 27 {
        let trials = [(1, point(places % 27)), (2, point(places / 27))];
        for (count, order) in (1..=2).flat_map(|count| (0..6).map(move |order| (count, order))) {
            let words = words_of([2, 3, 2], 3, &trials[..count]);
            let call = Call::Rearrange { order, second: vec![u64::MAX; 24] };
            let found = expect(&call, &words, 0).log;
            assert_eq!(found[23], u64::MAX);
            assert_eq!(bare(&found, INVERSE[order as usize]), words);
        }
    }
}

/// Equal trials stand by their numbers in every order, whatever else is held.
#[test]
fn equal_trials() {
    let mut trials: Vec<(u64, Point)> = (1..=9).map(|i| (i * 1_111_111, [1, 2, 3])).collect();
    trials.extend([(1, [2, 1, 3]), (MAX_NUMBER - 9, [3, 2, 1]), (77, [1, 3, 2]), (3, [3, 2, 1])]);
    let words = words_of([4, 4, 4], 16, &trials);
    for order in 0..6 {
        let second = turned(&words, order, 2);
        let records: Vec<&[u64]> = second[8..8 + 5 * 13].chunks(5).collect();
        let middle = rearranged(ORDERS[order as usize], [1, 2, 3]);
        let equal = records.iter().filter(|record| record[1..4] == middle);
        let numbers: Vec<u64> = equal.map(|record| record[0]).collect();
        assert_eq!(numbers, (1..=9).map(|i| i * 1_111_111).collect::<Vec<u64>>());
    }
}

/// Random archives as the other calls meet them, the reference's audit included.
#[test]
fn small_archives() {
    let mut kinds = Kinds::default();
    long_scenes(20_000, |rng| {
        let size = rng.pick(&[Size::Tiny, Size::Tiny, Size::Tiny, Size::Middle]);
        let mut words = Shape::random(rng, size).archive(rng);
        kinds.note(&words);
        let needed = words.len();
        words.extend((0..rng.within(0..=3)).map(|_| rng.next()).collect::<Vec<u64>>());
        let length = needed + rng.index(4);
        expect(&Call::Rearrange { order: rng.within(0..=5), second: anything(length) }, &words, 0);
        in_every_order(rng, &words);
        19
    });
    kinds.often(10, &["capacity 512", "512 trials"]);
}

/// A coordinate under a reference number: 0, at it, near it, beyond it, or one of so many steps.
fn coordinate(rng: &mut Rng, reference: u64, steps: u64, limits: u64) -> u64 {
    if rng.chance(limits) {
        let any = rng.within(reference..=MAX_COORDINATE);
        let next = (reference + 1).min(MAX_COORDINATE);
        return rng.pick(&[0, 1, reference - 1, reference, next, any, MAX_COORDINATE]);
    }
    rng.within(0..=steps - 1) * reference / steps
}

/// Trials of every kind: with few different coordinates on an axis or many, some equal to others on
/// all axes or on some, numbers of every size in any order. Near one plane most contribute.
pub fn trials(rng: &mut Rng, reference: Point, count: usize, plane: bool) -> Vec<[u64; 4]> {
    let mut steps = [0; 3].map(|_: u64| rng.pick(&[1, 2, 3, 30, 300, MAX_COORDINATE]));
    let (mut limits, mut alike) = (rng.pick(&[0, 3, 20, 80]), rng.pick(&[0, 5, 40]));
    if plane {
        (steps, limits, alike) = ([MAX_COORDINATE; 3], rng.pick(&[0, 2]), rng.pick(&[0, 5]));
    }
    let mut numbers: Vec<u64> = match rng.within(0..=2) {
        0 => (1..=count as u64).collect(),
        1 => (0..count as u64).map(|i| MAX_NUMBER - i).collect(),
        _ => (0..count as u64).map(|i| 1 + i * 19_501 + rng.within(0..=19_500)).collect(),
    };
    rng.shuffle(&mut numbers);
    let mut trials: Vec<[u64; 4]> = Vec::new();
    for number in numbers {
        let mut point = [0, 1, 2].map(|axis| coordinate(rng, reference[axis], steps[axis], limits));
        if plane {
            let part = |axis: usize| point[axis] * reference[2] / reference[axis];
            point[2] = reference[2].saturating_sub(1 + (part(0) + part(1)) / 2);
        }
        if !trials.is_empty() && rng.chance(alike) {
            let [_, other @ ..] = rng.pick(&trials);
            // On which axes it is as the other: mostly on all.
            let axes = rng.pick(&[7, 7, 7, 1, 2, 4, 3, 5, 6]);
            point = [0, 1, 2].map(|a| if axes >> a & 1 == 1 { other[a] } else { point[a] });
        }
        let [x, y, z] = point;
        trials.push([number, x, y, z]);
    }
    trials
}

/// A reference of any numbers, or of large ones.
pub fn any_reference(rng: &mut Rng, large: bool) -> Point {
    [0; 3].map(|_: u64| match rng.within(0..=4) {
        _ if large => rng.within(10_000..=MAX_REFERENCE),
        0 => rng.within(1..=3),
        1 => MAX_REFERENCE,
        2 => rng.pick(&[MAX_REFERENCE - 1, 65_535, 65_536, 65_537, 1]),
        _ => rng.within(1..=MAX_REFERENCE),
    })
}

/// Archives of any capacity and count, up to 512.
#[test]
fn archives_up_to_512() {
    let mut kinds = Kinds::default();
    long_scenes(9_000, |rng| {
        let capacity = match rng.within(0..=9) {
            0 => 1,
            1 | 2 => 512,
            3 => rng.within(2..=512),
            _ => rng.within(2..=60),
        };
        let count = match rng.within(0..=4) {
            0 | 1 => capacity,
            2 => rng.within(0..=1),
            _ => rng.within(0..=capacity),
        };
        let plane = rng.chance(25);
        let reference = any_reference(rng, plane);
        let trials = trials(rng, reference, count as usize, plane);
        let behind = rng.index(4);
        let mut words = anything(words::needed(capacity as usize) + behind);
        let narrow = reference.map(|number| number as u32);
        words::start(&mut words, narrow, capacity).expect("an archive");
        words::insert_grid(&mut words, &trials).expect("an archive");
        assert_eq!(words[0], count);
        kinds.note(&words);
        in_every_order(rng, &words);
        18
    });
    kinds.often(8, &[]);
}

/// 512 trials on one plane, none of which beats another.
#[test]
fn all_of_512_contribute() {
    let trial = |i: u64| {
        let (x, y) = (1 + i * 331 % 1_000, 1 + i * 577 % 1_000);
        [1 + i * 7_919 % 8_191, x, y, 3_000 - x - y]
    };
    let trials: Vec<[u64; 4]> = (0..512).map(trial).collect();
    let mut words = anything(words::needed(512) + 2);
    words::start(&mut words, [4_000, 5_000, 6_000], 512).expect("an archive");
    words::insert_grid(&mut words, &trials).expect("an archive");
    assert_eq!((words[0], words[6]), (512, 512));
    assert!((0..512).all(|i| words[12 + 5 * i] > 0));
    long_scenes(1, |rng| {
        in_every_order(rng, &words);
        18
    });
}

/// 512 trials in the second slice's last words and in fewer, with what stood there before: nothing,
/// anything, the archive itself, another one.
#[test]
fn what_the_second_slice_held() {
    let words = full_words();
    let (none, ones) = (vec![0; words.len()], vec![u64::MAX; words.len()]);
    let few = words_of([7, 11, 13], 512, &[(4, [1, 2, 3]), (2, [3, 1, 2])]);
    for source in [&words, &few] {
        let archive = calls::read(source).expect("an archive");
        for (order, letters) in (0..).zip(ORDERS) {
            let due = in_order(&archive, letters).words();
            for held in [&none, &ones, &anything(words.len()), &words, &few] {
                let mut second = held.clone();
                let order = AxisOrder::from_number(order).expect("one of the six");
                words::rearrange(source, order, &mut second).expect("done");
                assert_eq!(second, due);
            }
        }
    }
}

/// Calls on the rearranged archive, with points rearranged: what they answer and leave is what they
/// answer and leave on the archive itself, rearranged.
#[test]
fn further_calls() {
    scenes(1, |rng| {
        let size = rng.pick(&[Size::Tiny, Size::Middle]);
        let shape = Shape::random(rng, size);
        let words = shape.archive(rng);
        let held = calls::read(&words).expect("an archive");
        let order = rng.within(0..=5);
        let letters = ORDERS[order as usize];
        let second = turned(&words, order, 0);
        let point = shape.point(rng, &held.points());
        let aside = rearranged(letters, point);
        let same = |call: Call, on_second: Call| {
            let (one, other) = (compare(&call, &words), compare(&on_second, &second));
            assert_eq!((&one.answer, &one.log), (&other.answer, &other.log), "{call:?}");
            assert_eq!(bare(&one.words, order), other.words, "{call:?}");
        };
        let number = held.records.first().map_or(1, |record| record.number);
        let last = held.records.last().map_or(2, |record| record.number);
        let free = (1..).find(|number| held.position(*number).is_none()).expect("a number");
        same(Call::Insert { number: free, point }, Call::Insert { number: free, point: aside });
        same(Call::Gain { point }, Call::Gain { point: aside });
        let replace = |point| Call::ReplaceEffect { number, point };
        same(replace(point), replace(aside));
        let k = rng.within(0..=held.count());
        let log = vec![7; 2 * (held.count() - k) as usize];
        for call in [
            Call::Remove { number },
            Call::Joint { first: number, second: last },
            Call::Least { rule: k % 2 },
            Call::Reduce { k, rule: k % 2, log },
            Call::Share,
        ] {
            same(call.clone(), call);
        }
        18
    });
}

/// The row that is met first, and a way to damage words so.
type Damage = (u64, fn(&mut Vec<u64>));

/// The rows of the source, one at a time and several; of an archive with three records, all of them on
/// the front, and room for a fourth.
const DAMAGES: [Damage; 24] = [
    (1, |words| words.clear()),
    (1, |words| words.truncate(7)),
    (1, |words| words.truncate(27)),
    (2, |words| words[7] = 1),
    (2, |words| words[1] = 513),
    (2, |words| words[3] = 0),
    (2, |words| words[6] = 4),
    (3, |words| words[8] = 0),
    (3, |words| words[27] = 1),
    (3, |words| words[13] = words[8]),
    (13, |words| words[5] -= 1),
    (13, |words| words[5] += 1),
    (13, |words| words[6] = 2),
    (13, |words| words[6] = 0),
    (13, |words| words[12] += 1),
    (13, |words| words[17] -= 1),
    (13, |words| words[22] = 0),
    (1, |words| {
        (words[8], words[5]) = (0, 1);
        words.truncate(27);
    }),
    (1, |words| {
        words[1] = 513;
        words.truncate(7);
    }),
    (2, |words| {
        words[1] = 513;
        words.truncate(8);
    }),
    (2, |words| (words[7], words[8]) = (1, 0)),
    (2, |words| (words[7], words[5]) = (1, 1)),
    (3, |words| (words[27], words[5]) = (1, 1)),
    (13, |words| (words[5], words[12]) = (1, 0)),
];

/// Which of the rows that are met is checked first: those of the source, 22, 13, 1 of the second slice.
fn first(source: u64, order: u64, room: usize) -> u64 {
    match source {
        1..=3 => source,
        _ if order > 5 => 22,
        13 => 13,
        _ if room < 28 => 1,
        _ => 0,
    }
}

/// Every damage with every order and with second slices too short, exact and longer: the first row
/// answers, and nothing is written.
#[test]
fn rows_in_their_order() {
    let whole = words_of([4, 5, 6], 4, &[(1, [1, 2, 2]), (2, [2, 1, 2]), (3, [2, 2, 1])]);
    let orders = (0..=7).chain([255, 256, 3 | 1 << 32, 1 << 63, u64::MAX]);
    let rooms = [0, 1, 7, 8, 22, 23, 27, 28, 29, 40];
    for (order, room) in orders.flat_map(|order| rooms.map(|room| (order, room))) {
        let call = Call::Rearrange { order, second: anything(room) };
        let row = first(0, order, room);
        let found = expect(&call, &whole, row);
        assert_eq!(found.log == anything(room), row != 0);
        for (source, damage) in DAMAGES {
            let mut words = whole.clone();
            damage(&mut words);
            let row = first(source, order, room);
            assert_eq!(expect(&call, &words, row).log, anything(room));
        }
    }
}

/// No order above 5, by any of its 64 bits.
#[test]
fn orders_above_5() {
    let words = words_of([4, 5, 6], 1, &[(1, [1, 2, 3])]);
    let near = [6, 7, 8, 9, 10, 16, 32, 64, 128, 255, 256, 65_536, 1 << 24];
    for order in near.into_iter().chain((1..6).flat_map(wide)) {
        for room in [0, 12, 13, 20] {
            let call = Call::Rearrange { order, second: anything(room) };
            assert_eq!(expect(&call, &words, 22).log, anything(room));
        }
    }
}

/// The second slice has room for the capacity, not only for the trials, whatever the capacity.
#[test]
fn room_in_the_second_slice() {
    for capacity in [1, 2, 3, 64, 511, 512] {
        for count in [0, 1, capacity.min(5)] {
            let trials: Vec<(u64, Point)> = (1..=count).map(|i| (i, [i % 3, i, 5 - i])).collect();
            let words = words_of([9, 8, 7], capacity, &trials);
            let exact = 8 + 5 * capacity as usize;
            let own = 8 + 5 * count as usize;
            for room in [0, 7, 8, own.min(exact - 1), exact - 5, exact - 1] {
                let call = Call::Rearrange { order: count % 6, second: anything(room) };
                assert_eq!(expect(&call, &words, 1).log, anything(room));
            }
            for room in [exact, exact + 1, exact + 5] {
                let call = Call::Rearrange { order: count % 6, second: anything(room) };
                assert_eq!(expect(&call, &words, 0).log[exact..], anything(room)[exact..]);
            }
        }
    }
}

/// An empty archive has a reference to rearrange, and an audit.
#[test]
fn empty_archives() {
    for reference in [[1, 2, 3], [MAX_REFERENCE, 1, 7], [5, 5, 9]] {
        let words = words_of(reference, 2, &[]);
        for (order, letters) in (0..).zip(ORDERS) {
            let second = turned(&words, order, 3);
            assert_eq!(second[..5], [&[0, 2], &rearranged(letters, reference)[..]].concat());
            assert!(second[5..].iter().all(|&word| word == 0));
            let mut wrong = words.clone();
            wrong[5] = 1;
            expect(&Call::Rearrange { order, second: anything(18) }, &wrong, 13);
        }
    }
}

/// 512 trials with one kept figure wrong, one at a time.
#[test]
fn miscounts_among_512() {
    let words = full_words();
    let second = anything(words.len());
    let kept = [5, 6].into_iter().chain((0..512).map(|i| 12 + 5 * i));
    for (order, at) in (0..).zip(kept) {
        let mut wrong = words.clone();
        wrong[at] = if wrong[at] == 0 { 1 } else { wrong[at] - 1 };
        let mut left = second.clone();
        let order = AxisOrder::ALL[order % 6];
        let refusal = words::rearrange(&wrong, order, &mut left).expect_err("a miscount");
        assert_eq!((refusal.number(), &left), (13, &second), "word {at}");
    }
}
