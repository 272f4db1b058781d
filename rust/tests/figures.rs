//! Figures over repeated runs (document 02, W-213): every few totals of a small box, totals at the
//! ties of shares and in the largest boxes, random archives of up to 512 trials, up to fifteen of
//! them one behind the other, damaged, cut, miscounted and of references that differ, and the rows
//! in their order. What each figure is, is said once more here, whatever way it was found.

use crate::boundaries::{full_words, wide};
use crate::lend::{agree, anything, compare, expect, sevenfold, Call, Outcome, Tally};
use crate::rearranging::{any_reference, trials};
use crate::reference::book::words_of;
use crate::reference::figures::{archives, of};
use crate::reference::{box_of, Point, MAX_NUMBER, MAX_REFERENCE};
use crate::rng::{full_run, long_scenes, scenes, Rng};
use crate::scenes::{damage, foreign, Shape, Size};
use crate::shares::at_ties;
use std::collections::BTreeMap;
use trial_archive::words;

/// An archive with nothing in it that keeps this total: rows 1 to 3 ask only that it is at most the
/// box.
fn kept(reference: Point, capacity: u64, total: u64) -> Vec<u64> {
    let mut words = words_of(reference, capacity, &[]);
    words[5] = total;
    words
}

/// Such archives one behind the other, of capacities 1, 2, 3 and 1 again.
fn all_kept(reference: Point, totals: &[u64]) -> Vec<u64> {
    let runs = (0..).zip(totals).map(|(place, &total)| kept(reference, 1 + place % 3, total));
    runs.collect::<Vec<_>>().concat()
}

/// The figures of a call that is done, which hold of the totals whatever way they were found.
fn figures(words: &[u64], number: u64) -> [u64; 6] {
    let answer = expect(&Call::Figures { number }, words, 0).answer;
    holds(words, number, &answer);
    answer[1..].try_into().expect("six figures")
}

/// What makes the figures the right ones. Where each archive begins is found by its capacity.
fn holds(words: &[u64], number: u64, answer: &[u64]) {
    let [refusal, sum, least, greatest, median, share, audits] = *answer else {
        panic!("seven fields");
    };
    let (mut totals, mut rest) = (Vec::new(), words);
    for _ in 0..number {
        totals.push(rest[5]);
        rest = &rest[8 + 5 * rest[1] as usize..];
    }
    assert_eq!((refusal, totals.len() as u64), (0, number));
    assert_eq!(totals.iter().fold(u128::from(sum), |left, &total| left - u128::from(total)), 0);
    assert!(totals.contains(&least) && totals.iter().all(|&total| least <= total));
    assert!(totals.contains(&greatest) && totals.iter().all(|&total| total <= greatest));
    let below = totals.iter().filter(|&&total| total < median).count() as u64;
    let at_most = totals.iter().filter(|&&total| total <= median).count() as u64;
    let middle = (number - 1) / 2;
    assert!(totals.contains(&median) && below <= middle && middle < at_most, "{totals:?}");
    let cells = u128::from(words[2] * words[3] * words[4]);
    let apart = 2 * (u128::from(share) * cells).abs_diff(u128::from(median) * 1_000_000);
    assert!(apart < cells || apart == cells && share % 2 == 0, "{share}: {median} of {cells}");
    assert!(audits <= 1);
}

/// The totals are 12, 16, 20 and 21 of 64 cells, in any order and by any capacities.
#[test]
fn four_runs_by_hand() {
    let card = [(1, [1, 2, 2]), (2, [2, 1, 2]), (3, [2, 2, 1]), (4, [1, 1, 3])];
    let run = |count: usize, capacity| words_of([4, 4, 4], capacity, &card[..count]);
    let due = [
        [12, 12, 12, 12, 187_500, 1],
        [28, 12, 16, 12, 187_500, 1],
        [48, 12, 20, 16, 250_000, 1],
        [69, 12, 21, 16, 250_000, 1],
    ];
    for capacities in [[4; 4], [1, 2, 3, 4], [8, 4, 512, 5]] {
        let runs: Vec<Vec<u64>> = (0..4).map(|i| run(i + 1, capacities[i])).collect();
        for (number, due) in (1..).zip(due) {
            assert_eq!(figures(&runs.concat(), number), due);
        }
        for places in 0..256 {
            let order = [places % 4, places / 4 % 4, places / 16 % 4, places / 64];
            let words: Vec<u64> = order.iter().flat_map(|&i| runs[i].clone()).collect();
            let found = figures(&words, 4);
            if (0..4).all(|i| order.contains(&i)) {
                assert_eq!(found, due[3]);
            }
        }
    }
}

/// Every list of one to five totals of a box of three cells.
#[test]
fn every_few_totals() {
    for number in 1..=5_u32 {
        for list in 0..4_u64.pow(number) {
            let totals: Vec<u64> = (0..number).map(|place| list / 4_u64.pow(place) % 4).collect();
            let audits = figures(&all_kept([3, 1, 1], &totals), number.into())[5];
            assert_eq!(audits == 1, totals.iter().all(|&total| total == 0));
        }
    }
}

/// One to fifteen different totals, ascending, descending and turned.
#[test]
fn one_to_fifteen() {
    for number in 1..=15 {
        let total = |place: u64| 1 + 7 * place;
        for turn in 0..number {
            let mut totals: Vec<u64> = (0..number).map(|i| total((i + turn) % number)).collect();
            for _ in 0..2 {
                let found = figures(&all_kept([10, 10, 10], &totals), number);
                let (middle, greatest) = (total((number - 1) / 2), total(number - 1));
                let sum = number + 7 * number * (number - 1) / 2;
                assert_eq!(found, [sum, 1, greatest, middle, 1_000 * middle, 0]);
                totals.reverse();
            }
        }
    }
}

/// The share of a median that stands at each place of three totals, and at each of four.
fn share_of_median(reference: Point, median: u64) -> u64 {
    let cells = box_of(reference);
    let above = (median + 1).min(cells);
    let share = figures(&kept(reference, 1, median), 1)[4];
    for totals in
        [[0, median, cells], [median, above, median.saturating_sub(1)], [cells, 0, median]]
    {
        let found = figures(&all_kept(reference, &totals), 3);
        assert_eq!(found[3..5], [median, share]);
    }
    for totals in [[above, median, 0, cells], [cells, above, 0, median], [0, cells, median, cells]]
    {
        let found = figures(&all_kept(reference, &totals), 4);
        assert_eq!(found[3..5], [median, share]);
    }
    share
}

#[test]
fn ties_of_the_median() {
    at_ties(share_of_median);
}

/// "The sum is at most 15 × 2^60": of whole boxes it is exact, and so it is with a cell less.
#[test]
fn largest_boxes() {
    let cells = 1 << 60;
    let full = words_of([MAX_REFERENCE; 3], 1, &[(1, [0, 0, 0])]);
    let short = words_of([MAX_REFERENCE; 3], 3, &[(1, [0, 0, 1]), (2, [0, 1, 0]), (3, [1, 0, 0])]);
    assert_eq!((full[5], short[5]), (cells, cells - 1));
    for number in 1..=15 {
        let mut runs = vec![full.clone(); number as usize];
        let all = cells * number;
        assert_eq!(figures(&runs.concat(), number), [all, cells, cells, cells, 1_000_000, 1]);
        for place in 0..number as usize {
            runs[place] = short.clone();
            let left = (place as u64 + 1) * 2;
            let median = if left >= number { cells - 1 } else { cells };
            let greatest = if left == 2 * number { cells - 1 } else { cells };
            let sum = all - left / 2;
            let due = [sum, cells - 1, greatest, median, 1_000_000, 1];
            assert_eq!(figures(&runs.concat(), number), due);
        }
    }
    assert_eq!(cells * 15, 17_293_822_569_102_704_640);
}

/// How often runs were of some kind.
#[derive(Default)]
struct Kinds(BTreeMap<String, u64>);

impl Kinds {
    fn note(&mut self, kind: &str, is: bool) {
        *self.0.entry(kind.to_owned()).or_insert(0) += u64::from(is);
    }

    fn note_done(&mut self, words: &[u64], answer: &[u64], number: u64) {
        let runs = archives(words, number).expect("a call that was done");
        let mut totals: Vec<u64> = runs.iter().map(|run| run.total).collect();
        self.note(&format!("{number:2} archives"), true);
        self.note("totals in order", number > 2 && totals.is_sorted());
        self.note("totals not in order", !totals.is_sorted());
        totals.sort_unstable();
        let middle = (number as usize - 1) / 2;
        let upper = totals[number as usize / 2];
        self.note("equal totals", totals.windows(2).any(|pair| pair[0] == pair[1]));
        self.note("an upper middle that differs", upper != totals[middle]);
        self.note("a median that is not the first's", runs[0].total != totals[middle]);
        self.note("a sum of 2^32 and more", answer[1] >> 32 > 0);
        self.note("a sum of 2^60 and more", answer[1] >> 60 > 0);
        let capacity = |run: usize| runs[run].capacity;
        self.note("capacities that differ", (1..runs.len()).any(|i| capacity(i) != capacity(0)));
        self.note("an empty archive", runs.iter().any(|run| run.count() == 0));
        self.note("a full archive", runs.iter().any(|run| run.count() == run.capacity));
        self.note("all audits yes", answer[6] == 1);
        self.note("an audit no", answer[6] == 0);
    }

    fn often(&self, least: u64, but: &[&str]) {
        for (kind, times) in &self.0 {
            println!("{kind}: {times}");
            let enough = *times >= least || but.contains(&&kind[..]);
            assert!(!full_run() || enough, "{kind} was met only {times} times");
        }
    }
}

/// How many archives: each number, the small ones more often.
fn any_number(rng: &mut Rng) -> u64 {
    if rng.chance(50) {
        rng.within(1..=15)
    } else {
        rng.within(1..=4)
    }
}

/// A number that there is no figure for.
fn no_number(rng: &mut Rng, number: u64) -> u64 {
    rng.pick(&[0, 16, 17, 1 << 32, number + (1 << 32), number | 1 << 63, u64::MAX])
}

/// Small archives of one reference, some of them equal to others; now and then one under a reference
/// that differs on one axis.
fn small_runs(rng: &mut Rng, number: u64) -> Vec<Vec<u64>> {
    let reference = {
        let size = rng.pick(&[Size::Tiny, Size::Middle]);
        Shape::random(rng, size).reference
    };
    let mut runs: Vec<Vec<u64>> = Vec::new();
    let alike = rng.pick(&[0, 20, 60]);
    for _ in 0..number {
        if !runs.is_empty() && rng.chance(alike) {
            let copy = rng.pick(&runs);
            runs.push(copy);
            continue;
        }
        let size = rng.pick(&[Size::Tiny, Size::Tiny, Size::Middle]);
        let mut shape = Shape::random(rng, size);
        shape.reference = reference;
        runs.push(shape.archive(rng));
    }
    if rng.chance(10) {
        let (place, axis) = (rng.index(runs.len()), rng.index(3));
        let mut shape = Shape::random(rng, Size::Tiny);
        shape.reference = reference;
        shape.reference[axis] =
            if reference[axis] == MAX_REFERENCE { 1 } else { reference[axis] + 1 };
        runs[place] = shape.archive(rng);
    }
    runs
}

/// Archives counted, foreign, damaged and cut, in any number, with words behind them: answers, and all
/// words as they were. The words behind make no difference.
#[test]
fn small_archives() {
    let (mut tally, mut kinds) = (Tally::default(), Kinds::default());
    scenes(4, |rng| {
        let number = any_number(rng);
        let mut runs = small_runs(rng, number);
        if rng.chance(25) {
            let place = rng.index(runs.len());
            foreign(rng, &mut runs[place]);
        }
        if rng.chance(20) {
            let place = rng.index(runs.len());
            damage(rng, &mut runs[place]);
        }
        let mut words = runs.concat();
        let own = words.len();
        words.extend((0..rng.within(0..=20)).map(|_| rng.next()).collect::<Vec<u64>>());
        if rng.chance(10) {
            let last = runs.last().map_or(0, Vec::len);
            let near =
                [0, 7, 8, own - last, own - last + 7, own - last + 8, own - 1, rng.index(own)];
            words.truncate(rng.pick(&near));
        }
        let asked = match rng.within(0..=9) {
            0 => no_number(rng, number),
            1 => (number + 1).min(15),
            2 => rng.within(1..=number),
            _ => number,
        };
        let answer = tally.compare(&Call::Figures { number: asked }, &words).answer;
        if answer[0] == 0 {
            holds(&words, asked, &answer);
            kinds.note_done(&words, &answer, asked);
        }
        // With nothing behind them, and with something else there.
        let call = Call::Figures { number };
        let answer = tally.compare(&call, &words[..own.min(words.len())]).answer;
        if answer[0] == 1 {
            return 2;
        }
        words.truncate(own);
        words.extend(anything(rng.index(9)));
        assert_eq!(compare(&call, &words).answer, answer);
        3
    });
    if full_run() {
        tally.covers("figures", &[0, 1, 2, 3, 23]);
        tally.covers_beyond("figures");
    }
    kinds.often(50, &[]);
}

/// Totals that are nowhere counted, of boxes of every size: next to half a millionth, equal, and any.
#[test]
fn totals_of_random_boxes() {
    scenes(2, |rng| {
        let edge = |rng: &mut Rng| {
            let bits = rng.within(0..=20);
            rng.within(1..=1 << bits)
        };
        let reference = [edge(rng), edge(rng), edge(rng)];
        let cells = box_of(reference);
        let number = any_number(rng);
        let mut totals: Vec<u64> = Vec::new();
        for _ in 0..number {
            let half = (2 * u128::from(rng.within(0..=999_999)) + 1) * u128::from(cells);
            let half = half.div_ceil(2_000_000) as u64;
            let any = rng.within(0..=cells);
            let equal = totals.last().copied().unwrap_or(any);
            let near = [any, cells - any / 8, any / 8, half, half - 1, half + 1, equal, equal];
            totals.push(rng.pick(&near).min(cells));
        }
        figures(&all_kept(reference, &totals), number);
        1
    });
}

/// The library's own archive of random trials, of any capacity and count.
fn counted(rng: &mut Rng, reference: Point, plane: bool) -> Vec<u64> {
    let capacity = match rng.within(0..=9) {
        0 => 1,
        1 => 512,
        2 | 3 => rng.within(2..=512),
        _ => rng.within(2..=60),
    };
    let count = match rng.within(0..=4) {
        0 | 1 => capacity,
        2 => rng.within(0..=1),
        _ => rng.within(0..=capacity),
    };
    let grid = trials(rng, reference, count as usize, plane);
    let mut words = anything(words::needed(capacity as usize));
    words::start(&mut words, reference.map(|number| number as u32), capacity).expect("an archive");
    words::insert_grid(&mut words, &grid).expect("an archive");
    assert_eq!(words[0], count);
    words
}

/// The answer to so many archives, of which it is known whether the audits say yes; all words stay.
fn answered(words: &[u64], number: u64, audited: bool) -> Vec<u64> {
    let found = archives(words, number).map(|runs| of(&runs, audited));
    let (answer, words) = (sevenfold(found), words.to_vec());
    let expected = Outcome { answer, words, log: Vec::new(), out: Vec::new(), card: Vec::new() };
    agree(&Call::Figures { number }, &expected.words, &expected);
    if expected.refusal() == 0 {
        holds(&expected.words, number, &expected.answer);
    }
    expected.answer
}

/// A kept figure of an archive, wrong by one: the total, the front or a contribution.
fn miscount(rng: &mut Rng, words: &mut [u64]) {
    let record = rng.within(0..=words[0] + 1) as usize;
    let at = match record {
        0 => 5,
        1 if words[0] > 0 => 6,
        1 => 5,
        _ => 2 + 5 * record,
    };
    words[at] = if words[at] == 0 { 1 } else { words[at] - 1 };
}

/// Spoils one word of an archive, of its header or of its records, and says which row answers.
fn spoil(rng: &mut Rng, words: &mut [u64]) -> u64 {
    let last = 7 + 5 * words[1] as usize;
    let (at, word, row) = match rng.within(0..=3) {
        0 => (rng.index(5), 1 << 21, 2),
        1 => (7, 1, 2),
        2 => (8, MAX_NUMBER + 1, 3),
        _ => (last, u64::MAX, 3),
    };
    words[at] = word;
    row
}

/// Archives of any capacity and count, up to 512, and up to fifteen of them.
#[test]
fn archives_up_to_512() {
    let mut kinds = Kinds::default();
    long_scenes(9_000, |rng| {
        let (number, plane) = (any_number(rng), rng.chance(25));
        let reference = any_reference(rng, plane);
        let mut runs: Vec<Vec<u64>> = (0..number).map(|_| counted(rng, reference, plane)).collect();
        let behind = anything(rng.index(4));
        let slice = |runs: &[Vec<u64>]| [&runs.concat()[..], &behind[..]].concat();
        let mut asked = 0;
        let mut ask = |words: &[u64], number: u64, audited: bool| {
            asked += 1;
            answered(words, number, audited)
        };
        let words = slice(&runs);
        let answer = ask(&words, number, true);
        kinds.note_done(&words, &answer, number);
        for fewer in [1, rng.within(1..=number)] {
            ask(&words, fewer, true);
        }
        assert_eq!(ask(&words, no_number(rng, number), true)[0], 23);
        // In another order all figures are the same.
        rng.shuffle(&mut runs);
        assert_eq!(ask(&slice(&runs), number, true), answer);
        // A wrong figure, which the audit finds where that archive is asked for.
        let place = rng.index(runs.len());
        let mut wrong = runs.clone();
        miscount(rng, &mut wrong[place]);
        let words = slice(&wrong);
        kinds.note_done(&words, &ask(&words, number, false), number);
        if place > 0 {
            assert_eq!(ask(&words, place as u64, true)[0], 0);
        }
        // Rows 2 and 3 of that archive, row 1 of the last, and a reference that differs on one axis.
        let mut damaged = runs.clone();
        let row = spoil(rng, &mut damaged[place]);
        assert_eq!(ask(&slice(&damaged), number, true)[0], row);
        let whole = runs.concat();
        assert_eq!(ask(&whole[..whole.len() - 1], number, true)[0], 1);
        let axis = rng.index(3);
        if number > 1 && reference[axis] < MAX_REFERENCE {
            let mut differs = runs.clone();
            differs[place][2 + axis] += 1;
            assert_eq!(ask(&slice(&differs), number, true)[0], 23);
        }
        asked
    });
    kinds.often(8, &[]);
}

/// Fifteen archives of 512 trials each, and one wrong figure at a time.
#[test]
fn fifteen_full_archives() {
    let runs = vec![full_words(); 15];
    let words = runs.concat();
    let cells = 7 * 11 * 13;
    assert_eq!(words.len(), 15 * 2_568);
    assert_eq!(figures(&words, 15)[..4], [15 * cells, cells, cells, cells]);
    long_scenes(200, |rng| {
        for place in 0..15 {
            let mut wrong = runs.clone();
            miscount(rng, &mut wrong[place]);
            answered(&wrong.concat(), 15, false);
        }
        15
    });
}

/// Each archive in turn has one wrong figure: an answer, with the totals as kept.
#[test]
fn audits() {
    let run = words_of([4, 5, 6], 3, &[(1, [1, 2, 2]), (2, [2, 1, 2])]);
    for number in 1..=15 {
        let runs = vec![run.clone(); number as usize];
        assert_eq!(figures(&runs.concat(), number)[5], 1);
        for place in 0..number as usize {
            for (at, change) in [(5, 1), (5, -1), (6, -1), (6, -2), (12, 1), (17, -1)] {
                let mut wrong = runs.clone();
                let word = &mut wrong[place][at];
                *word = word.checked_add_signed(change).expect("a word");
                let found = figures(&wrong.concat(), number);
                assert_eq!(found[5], 0, "archive {place} of {number}, word {at}");
                // Of the archives before it and behind it every audit says yes.
                let last = place as u64;
                assert!(place == 0 || figures(&wrong.concat(), last)[5] == 1);
                let behind = wrong[place + 1..].concat();
                assert!(last + 1 == number || figures(&behind, number - last - 1)[5] == 1);
            }
        }
    }
}

/// The row that answers, and a way to damage words so.
type Damage = (u64, fn(&mut [u64]));

/// The rows of an archive with three records and room for a fourth. Row 0 stands for a wrong figure,
/// and a capacity above what is left of the slice is row 1.
const DAMAGES: [Damage; 17] = [
    (0, |words| words[5] -= 1),
    (0, |words| words[6] = 0),
    (0, |words| words[12] += 1),
    (1, |words| words[1] = 512),
    (1, |words| (words[1], words[8]) = (300, 0)),
    (2, |words| words[0] = 5),
    (2, |words| words[1] = 513),
    (2, |words| words[1] = 0),
    (2, |words| words[2] = 0),
    (2, |words| words[4] = MAX_REFERENCE + 1),
    (2, |words| words[5] = 1 << 61),
    (2, |words| words[6] = 4),
    (2, |words| (words[7], words[8]) = (1, 0)),
    (3, |words| words[8] = 0),
    (3, |words| words[13] = words[8]),
    (3, |words| words[12] = u64::MAX),
    (3, |words| words[27] = 1),
];

/// Any two archives of three damaged, and one under a reference that differs on an axis: the number
/// answers first, then the first archive that a row turns down, a fourth that is not there too, and
/// last the references.
#[test]
fn rows_in_their_order() {
    let run = words_of([4, 5, 6], 4, &[(1, [1, 2, 2]), (2, [2, 1, 2]), (3, [2, 2, 1])]);
    let numbers = [0, 1, 2, 3, 4, 15, 16, 3 | 1 << 32, u64::MAX];
    let mut tried = BTreeMap::new();
    for (one, other) in [(0, 1), (0, 2), (1, 2)] {
        for (early, late) in DAMAGES.iter().flat_map(|e| DAMAGES.map(|l| (e, l))) {
            for differs in 0..10 {
                let mut runs = [run.clone(), run.clone(), run.clone()];
                let place = differs / 3;
                if differs < 9 {
                    runs[place][2 + differs % 3] += 1;
                }
                early.1(&mut runs[one]);
                late.1(&mut runs[other]);
                let words = [&runs.concat()[..], &[9, 9]].concat();
                for number in numbers {
                    let asked = |place: usize| (place as u64) < number;
                    let row = match number {
                        0 | 16.. => 23,
                        _ if asked(one) && early.0 > 0 => early.0,
                        _ if asked(other) && late.0 > 0 => late.0,
                        4.. => 1,
                        _ if differs < 9 && number > 1 && asked(place) => 23,
                        _ => 0,
                    };
                    let answer = expect(&Call::Figures { number }, &words, row).answer;
                    let wrong = asked(one) || asked(other) || differs < 9 && asked(place);
                    assert!(row != 0 || answer[6] == u64::from(!wrong));
                    assert!(row == 0 || answer[1..] == [0; 6]);
                    *tried.entry(row).or_insert(0) += 1;
                }
            }
        }
    }
    assert!([0, 1, 2, 3, 23].iter().all(|row| tried[row] > 400), "{tried:?}");
}

/// None and more than fifteen, by any of the 64 bits, whatever stands in the slice.
#[test]
fn numbers_of_archives() {
    let run = words_of([4, 5, 6], 1, &[(1, [1, 2, 3])]);
    let words = vec![run.clone(); 18].concat();
    let mut damaged = words.clone();
    damaged[7] = 1;
    let near = [0, 16, 17, 18, 19, 31, 32, 64, 255, 256, 65_536, 1 << 24];
    for number in near.into_iter().chain([1, 2, 15].into_iter().flat_map(wide)) {
        for lent in [&words[..], &run[..], &run[..12], &damaged[..], &words[..7], &[]] {
            assert_eq!(expect(&Call::Figures { number }, lent, 23).answer[1..], [0; 6]);
        }
    }
    for number in 1..=15 {
        assert_eq!(figures(&words, number)[0], 27 * number);
        expect(&Call::Figures { number }, &[], 1);
        expect(&Call::Figures { number }, &damaged, 2);
        expect(&Call::Figures { number }, &damaged[..7], 1);
    }
}

/// One reference that differs on one axis, at every place of up to fifteen; also where the boxes are
/// equal, and all other figures too.
#[test]
fn references_that_differ() {
    let reference = [4, 6, 9];
    let others = [[5, 6, 9], [3, 6, 9], [4, 7, 9], [4, 5, 9], [4, 6, 10], [4, 6, 8], [6, 4, 9]];
    let boxes = [[6, 9, 4], [9, 6, 4], [4, 9, 6], [12, 2, 9], [4, 18, 3], [216, 1, 1]];
    for other in others.into_iter().chain(boxes) {
        for number in 2..=15 {
            for place in 0..number as usize {
                let mut runs = vec![words_of(reference, 2, &[]); number as usize];
                runs[place] = words_of(other, 2, &[]);
                let words = runs.concat();
                expect(&Call::Figures { number }, &words, 23);
                // Not where that archive is not asked for, nor where it is alone.
                let before = Call::Figures { number: place as u64 };
                expect(&before, &words, if place == 0 { 23 } else { 0 });
                let behind = runs[place..].concat();
                expect(&Call::Figures { number: 1 }, &behind, 0);
            }
        }
    }
}

/// Every length of a slice with three archives and some words: row 1 up to the end of the last one
/// that is asked for.
#[test]
fn lengths_of_the_slice() {
    let run = |capacity, count| {
        let trials: Vec<(u64, Point)> = (1..=count).map(|i| (i, [i, 1, 3])).collect();
        words_of([9, 8, 7], capacity, &trials)
    };
    let mut words = [run(3, 2), run(1, 1), run(5, 0)].concat();
    words.extend([5, 6, 7, 8]);
    let ends = [23, 36, 69];
    for length in 0..=words.len() {
        for (number, end) in (1..).zip(ends) {
            let row = if length < end { 1 } else { 0 };
            expect(&Call::Figures { number }, &words[..length], row);
        }
        expect(&Call::Figures { number: 4 }, &words[..length], 1);
    }
}

/// Behind the last archive asked for may stand anything: none of it is an archive to be judged.
#[test]
fn words_behind() {
    let run = |total| kept([6, 6, 6], 2, total);
    let runs = [run(100), run(7), run(50), run(216)];
    let elsewhere = words_of([6, 6, 7], 1, &[(1, [0, 0, 0])]);
    let (mut header, mut records) = (run(3), run(3));
    (header[7], records[17]) = (9, 9);
    let all = [elsewhere, header, records, anything(30), vec![u64::MAX; 8], vec![0; 40]];
    for number in 1..=4 {
        let own = runs[..number].concat();
        let due = figures(&own, number as u64);
        for behind in &all {
            for length in [1, 7, 8, behind.len()] {
                let words = [&own[..], &behind[..length]].concat();
                assert_eq!(figures(&words, number as u64), due);
            }
        }
    }
}
