//! Every condition of the table at its boundary, from both sides. The refusal numbers here are
//! the document's, not the reference's.

use crate::lend::{anything, compare, expect, Call};
use crate::reference::book::{words_of, Book};
use crate::reference::{Point, MAX_COORDINATE, MAX_NUMBER, MAX_REFERENCE};

/// The trials of document 01's card.
const TRIALS: [(u64, Point); 4] = [(1, [1, 2, 2]), (2, [2, 1, 2]), (3, [2, 2, 1]), (4, [1, 1, 3])];

/// The archive of document 01's card, and three words behind it. In archive order the trials are
/// 3, 2, 1, 4, with records from words 8, 13, 18 and 23; words 28 to 47 are unused.
fn card_words() -> Vec<u64> {
    let mut words = words_of([4, 4, 4], 8, &TRIALS);
    words.extend([77, 78, 79]);
    words
}

/// One call of each kind that reads an archive, all of them done on document 01's card.
fn calls() -> Vec<Call> {
    vec![
        Call::Insert { number: 5, point: [0, 0, 0] },
        Call::InsertGrid { grid: vec![5, 0, 0, 0, 6, 1, 1, 1] },
        Call::InsertGrid { grid: Vec::new() },
        Call::Remove { number: 4 },
        Call::Least { rule: 0 },
        Call::Reduce { k: 2, rule: 0, log: vec![91, 92, 93, 94, 95] },
        Call::Joint { first: 1, second: 2 },
        Call::Gain { point: [0, 3, 0] },
        Call::ReplaceEffect { number: 4, point: [0, 3, 0] },
        Call::Share,
        Call::Audit,
        Call::WriteCard { out: vec![88; 33 * 5 + 2] },
        Call::Report { out: vec![88; 53 * 5 + 2] },
        Call::Rearrange { order: 3, second: anything(48 + 2) },
        Call::Figures { number: 1 },
    ]
}

/// Every call is refused by this row.
fn all_refused(words: &[u64], row: u64) {
    for call in calls() {
        expect(&call, words, row);
    }
}

/// The words pass rows 1 to 3.
fn passes(words: &[u64]) {
    expect(&Call::Share, words, 0);
    for call in calls() {
        compare(&call, words);
    }
}

fn with(edits: &[(usize, u64)]) -> Vec<u64> {
    let mut words = card_words();
    for &(at, value) in edits {
        words[at] = value;
    }
    words
}

#[test]
fn lengths_of_the_slice() {
    let words = card_words();
    for length in 0..48 {
        all_refused(&words[..length], 1);
    }
    for length in 48..=51 {
        for call in calls() {
            expect(&call, &words[..length], 0);
        }
    }
}

#[test]
fn row_1_stands_around_row_2_and_before_row_3() {
    let header = with(&[(7, 1)]);
    let records = with(&[(8, 0)]);
    for length in 0..=51 {
        all_refused(&header[..length], if length < 8 { 1 } else { 2 });
        all_refused(&records[..length], if length < 48 { 1 } else { 3 });
    }
}

#[test]
fn row_2_counts_and_capacities() {
    for count in [9, 512, 1 << 32, 4 | 1 << 32, 4 | 1 << 63, u64::MAX] {
        all_refused(&with(&[(0, count)]), 2);
    }
    // Fewer trials than there are records, or more; all four are on the front.
    for count in [0, 3] {
        all_refused(&with(&[(0, count)]), 2);
        all_refused(&with(&[(0, count), (6, 0)]), 3);
    }
    for count in [5, 8] {
        all_refused(&with(&[(0, count)]), 3);
    }
    for capacity in
        [0, 1, 3, 513, 8 | 1 << 32, 8 | 1 << 63, u64::MAX, u64::MAX / 5, u64::MAX / 5 - 1]
    {
        all_refused(&with(&[(1, capacity)]), 2);
    }
    for capacity in [9, 512] {
        all_refused(&with(&[(1, capacity)]), 1);
    }
    for capacity in [4, 5, 7] {
        passes(&with(&[(1, capacity)]));
    }
}

#[test]
fn row_2_references_and_totals() {
    for axis in 0..3 {
        for reference in [0, MAX_REFERENCE + 1, 4 | 1 << 32, 4 | 1 << 63, u64::MAX] {
            all_refused(&with(&[(2 + axis, reference)]), 2);
        }
        passes(&with(&[(2 + axis, MAX_REFERENCE)]));
        // 1 × 4 × 4 cells are fewer than the total. With a total of 16 all is allowed, though most
        // trials then lie at the reference or beyond it.
        all_refused(&with(&[(2 + axis, 1)]), 2);
        passes(&with(&[(2 + axis, 1), (5, 16)]));
        all_refused(&with(&[(2 + axis, 1), (5, 17)]), 2);
    }
    for total in [0, 20, 22, 63, 64] {
        passes(&with(&[(5, total)]));
    }
    for total in [65, 21 | 1 << 32, 1 << 63, u64::MAX] {
        all_refused(&with(&[(5, total)]), 2);
    }
    let largest = [(2, MAX_REFERENCE), (3, MAX_REFERENCE), (4, MAX_REFERENCE)];
    for (total, row) in [(1 << 60, 0), ((1 << 60) + 1, 2)] {
        let mut edits = largest.to_vec();
        edits.push((5, total));
        expect(&Call::Share, &with(&edits), row);
    }
    for value in [1, 1 << 32, 1 << 63, u64::MAX] {
        all_refused(&with(&[(7, value)]), 2);
    }
}

/// Document 02, W-209: word 6 up to the count.
#[test]
fn row_2_fronts() {
    assert_eq!(card_words()[6], 4);
    for front in 0..=4 {
        passes(&with(&[(6, front)]));
    }
    for front in [5, 8, 9, 4 | 1 << 32, 4 | 1 << 63, u64::MAX] {
        all_refused(&with(&[(6, front)]), 2);
    }
    let empty = words_of([4, 4, 4], 8, &[]);
    for (front, row) in [(0, 0), (1, 2), (8, 2)] {
        let mut words = empty.clone();
        words[6] = front;
        expect(&Call::Share, &words, row);
    }
}

#[test]
fn row_3_numbers() {
    for record in [8, 13, 18, 23] {
        for number in [0, MAX_NUMBER + 1, 1 << 32, 3 | 1 << 32, 3 | 1 << 63, u64::MAX] {
            all_refused(&with(&[(record, number)]), 3);
        }
        for number in [9, MAX_NUMBER] {
            passes(&with(&[(record, number)]));
        }
        for other in [8, 13, 18, 23] {
            let number = card_words()[other];
            let edited = with(&[(record, number)]);
            if other == record {
                passes(&edited);
            } else {
                all_refused(&edited, 3);
            }
            // Numbers that agree in their low 16 bits are not the same.
            passes(&with(&[(record, number + 65_536)]));
            passes(&with(&[(record, number + 131_072), (other, number + 65_536)]));
        }
    }
}

#[test]
fn row_3_coordinates_and_contributions() {
    let last = 23;
    for axis in 0..3 {
        for coordinate in [4, 5, MAX_COORDINATE - 1, MAX_COORDINATE] {
            passes(&with(&[(last + 1 + axis, coordinate)]));
        }
        let high = [1 << 31, 1 | 1 << 32, 3 | 1 << 32, 3 | 1 << 63, u64::MAX];
        for coordinate in [MAX_COORDINATE + 1].into_iter().chain(high) {
            all_refused(&with(&[(last + 1 + axis, coordinate)]), 3);
        }
    }
    // Every record, on the axes that do not order it here.
    for record in [8, 13, 18, 23] {
        for axis in 0..2 {
            let trial = card_words()[record];
            let mut point = [0; 3];
            point.copy_from_slice(&card_words()[record + 1..record + 4]);
            point[axis] = MAX_COORDINATE;
            let mut book = Book::start([4, 4, 4], 8);
            for (number, own) in TRIALS {
                let at = if number == trial { point } else { own };
                assert_eq!(book.insert(usize::MAX, number, at), 0);
            }
            let mut words = book.fresh();
            expect(&Call::Audit, &words, 0);
            let at = words[8..28].chunks(5).position(|r| r[0] == trial).expect("a trial held");
            words[8 + 5 * at + 1 + axis] = MAX_COORDINATE + 1;
            all_refused(&words, 3);
        }
    }
    for record in [8, 13, 18, 23] {
        for contribution in [0, 3, 63, 64] {
            passes(&with(&[(record + 4, contribution)]));
        }
        for contribution in [65, 1 | 1 << 32, 1 << 63, u64::MAX] {
            all_refused(&with(&[(record + 4, contribution)]), 3);
        }
    }
}

#[test]
fn row_3_order() {
    let pair = |first: [u64; 4], second: [u64; 4]| {
        let mut words = card_words();
        words[13..17].copy_from_slice(&first);
        words[18..22].copy_from_slice(&second);
        words
    };
    // Records 2 and 3, between z = 1 and z = 3: in order by one place, then out of it.
    let ordered = [
        ([9, 4, 4, 1], [8, 0, 2, 2]),
        ([9, 4, 1, 2], [8, 0, 2, 2]),
        ([9, 1, 2, 2], [8, 2, 2, 2]),
        ([8, 2, 2, 2], [9, 2, 2, 2]),
    ];
    for (first, second) in ordered {
        passes(&pair(first, second));
        let swapped = pair(second, first);
        all_refused(&swapped, 3);
    }
    for z in [0, 1] {
        passes(&with(&[(11, z)]));
    }
    // The first record behind the second, the last before the third.
    all_refused(&with(&[(11, 3)]), 3);
    all_refused(&with(&[(26, 1)]), 3);
}

#[test]
fn row_3_unused_words() {
    for at in 28..48 {
        for value in [1, 1 << 32, 1 << 63] {
            all_refused(&with(&[(at, value)]), 3);
        }
    }
    for at in 48..51 {
        passes(&with(&[(at, 0)]));
    }
}

/// Numbers of 32 bits and more: those that a cut to 32 bits would make 0, 1 or this one, and those
/// that negative numbers of C become.
pub fn wide(narrow: u64) -> impl Iterator<Item = u64> {
    let cut = move |high: u64| [high, high + 1, high + narrow];
    let negative = [1, 2, 4, 1 << 31, 1 << 32, 1 << 40].map(|size: u64| size.wrapping_neg());
    let more = [1 << 31, u64::from(u32::MAX), narrow << 32 | narrow];
    (32..64).map(|bit| 1 << bit).flat_map(cut).chain(negative).chain(more)
}

#[test]
fn rows_of_start() {
    for capacity in [1, 2, 511, 512] {
        let needed = 8 + 5 * capacity as usize;
        let start = Call::Start { reference: [4, 5, 6], capacity };
        for length in [0, 7, 8, needed - 1] {
            expect(&start, &anything(length), 1);
        }
        for length in [needed, needed + 1, needed + 9] {
            expect(&start, &anything(length), 0);
        }
    }
    for capacity in [0, 513, 1 << 32 | 1, u64::MAX / 5 - 1, u64::MAX / 5, u64::MAX] {
        for length in [0, 8, 13, 3_000] {
            expect(&Call::Start { reference: [4, 4, 4], capacity }, &anything(length), 4);
        }
    }
    let allowed = [(0, 4), (1, 0), (MAX_REFERENCE, 0), (MAX_REFERENCE + 1, 4)];
    for axis in 0..3 {
        for (number, row) in allowed.into_iter().chain(wide(4).map(|number| (number, 4))) {
            let mut reference = [4; 3];
            reference[axis] = number;
            let start = Call::Start { reference, capacity: 1 };
            expect(&start, &anything(13), row);
            expect(&start, &anything(12), if row == 0 { 1 } else { row });
        }
    }
    for number in wide(4) {
        expect(&Call::Start { reference: [number; 3], capacity: 1 }, &anything(13), 4);
    }
}

/// Insertions that rows 5 and 6 turn down, in this order, and the gain that row 6 does.
fn too_large(point: Point, words: &[u64]) {
    for number in [0, MAX_NUMBER + 1, u64::MAX] {
        expect(&Call::Insert { number, point }, words, 5);
    }
    for number in [1, 5] {
        expect(&Call::Insert { number, point }, words, 6);
    }
    expect(&Call::Gain { point }, words, 6);
}

#[test]
fn rows_of_insert_and_gain() {
    let room = card_words();
    let full = words_of([4, 4, 4], 4, &TRIALS);
    let insert = |number, point| Call::Insert { number, point };
    for number in [0, MAX_NUMBER + 1, 5 | 1 << 32, u64::MAX] {
        expect(&insert(number, [MAX_COORDINATE + 1; 3]), &full, 5);
        expect(&insert(number, [4, 4, 4]), &room, 5);
    }
    for axis in 0..3 {
        for coordinate in [MAX_COORDINATE + 1].into_iter().chain(wide(4)) {
            for others in [0, 4, 5, MAX_COORDINATE] {
                let mut point = [others; 3];
                point[axis] = coordinate;
                too_large(point, &full);
                too_large(point, &room);
            }
        }
    }
    for coordinate in wide(4) {
        too_large([coordinate; 3], &full);
        too_large([coordinate; 3], &room);
    }
    for number in 1..=4 {
        expect(&insert(number, [4, 4, 4]), &full, 7);
        expect(&insert(number, [0, 0, 0]), &room, 7);
    }
    for number in [5, MAX_NUMBER, 65_537] {
        expect(&insert(number, [4, 4, 4]), &full, 8);
        expect(&insert(number, [4, 4, 4]), &room, 0);
        expect(&insert(number, [0, 0, 0]), &room, 0);
    }
}

/// The trial, alone in an archive: taken, told from one not held, and in the words as given.
fn taken(reference: Point, point: Point) {
    let empty = words_of(reference, 2, &[]);
    let cells: u64 = (0..3).map(|axis| reference[axis].saturating_sub(point[axis])).product();
    assert_eq!(expect(&Call::Gain { point }, &empty, 0).answer, [0, cells]);
    let words = expect(&Call::Insert { number: 7, point }, &empty, 0).words;
    assert_eq!(words[8..13], [7, point[0], point[1], point[2], cells], "{reference:?}");
    assert_eq!((words[0], words[5]), (1, cells));
    assert_eq!(expect(&Call::Least { rule: 0 }, &words, 0).answer, [0, 7, cells]);
    assert_eq!(expect(&Call::Audit, &words, 0).answer, [0, 1]);
    expect(&Call::Insert { number: 7, point }, &words, 7);
}

/// Both sides of the reference and of the largest coordinate, one axis at a time, under a
/// reference that is 1, small, the largest but one, and the largest.
#[test]
fn row_6_has_one_limit_whatever_the_reference() {
    for number in [1, 2, 4, MAX_REFERENCE - 1, MAX_REFERENCE] {
        for axis in 0..3 {
            let mut mixed = [4; 3];
            mixed[axis] = number;
            for reference in [[number; 3], mixed] {
                let near = [reference[axis] - 1, reference[axis], reference[axis] + 1];
                let last = [MAX_COORDINATE - 1, MAX_COORDINATE];
                for coordinate in near.into_iter().chain(last) {
                    for others in [0, 1, 4, MAX_COORDINATE] {
                        let mut point = [others; 3];
                        point[axis] = coordinate.min(MAX_COORDINATE);
                        taken(reference, point);
                    }
                }
                let words = words_of(reference, 2, &[(1, [0, 0, 0])]);
                for coordinate in [MAX_COORDINATE + 1].into_iter().chain(wide(MAX_COORDINATE)) {
                    let mut point = [0; 3];
                    point[axis] = coordinate;
                    too_large(point, &words);
                }
            }
        }
    }
}

#[test]
fn rows_of_remove_and_joint() {
    let words = card_words();
    for number in [0, 5, MAX_NUMBER, MAX_NUMBER + 1, 1 | 1 << 32, 65_537, u64::MAX] {
        expect(&Call::Remove { number }, &words, 9);
        expect(&Call::Joint { first: number, second: 1 }, &words, 9);
        expect(&Call::Joint { first: 1, second: number }, &words, 9);
        expect(&Call::Joint { first: number, second: number }, &words, 9);
    }
    for first in 1..=4 {
        expect(&Call::Remove { number: first }, &words, 0);
        for second in 1..=4 {
            let row = if first == second { 10 } else { 0 };
            expect(&Call::Joint { first, second }, &words, row);
        }
    }
}

#[test]
fn rows_of_least() {
    expect(&Call::Least { rule: 0 }, &words_of([4, 4, 4], 1, &[]), 14);
    expect(&Call::Least { rule: 0 }, &words_of([4, 4, 4], 1, &TRIALS[..1]), 0);
}

/// Lines of so many bytes: row 16 just below a line and one for each trial, behind rows 1 to 3; no
/// byte is written then, and none behind the last line ever.
fn rows_of_output(line: usize, call: fn(Vec<u8>) -> Call) {
    let (header, records) = (with(&[(7, 1)]), with(&[(8, 0)]));
    for count in 0..=4 {
        let words = words_of([4, 4, 4], 4, &TRIALS[..count]);
        let exact = line * (count + 1);
        for length in 0..exact + 4 {
            let (row, bytes) = if length < exact { (16, 0) } else { (0, exact) };
            let call = call(vec![200; length]);
            let outcome = expect(&call, &words, row);
            assert_eq!(outcome.answer, [row, bytes as u64]);
            assert!(outcome.out[..bytes].iter().all(|&byte| byte != 200));
            assert!(outcome.out[bytes..].iter().all(|&byte| byte == 200));
            for (lent, row) in [(&words[..7], 1), (&header[..], 2), (&records[..], 3)] {
                expect(&call, lent, row);
            }
        }
    }
    let full = full_words();
    let exact = line * 513;
    for (length, row) in [(exact - 1, 16), (exact, 0), (exact + 1, 0)] {
        expect(&call(vec![200; length]), &full, row);
        expect(&call(vec![200; length]), &full[..full.len() - 1], 1);
    }
}

#[test]
fn rows_of_report() {
    rows_of_output(53, |out| Call::Report { out });
}

/// Document 02, W-205: 33 bytes a line.
#[test]
fn rows_of_write_card() {
    rows_of_output(33, |out| Call::WriteCard { out });
}

#[test]
fn rows_of_reduce() {
    let counted = card_words();
    let foreign = with(&[(5, 22)]);
    for k in [0, 1, 2, 3, 4, 5, 6, 1 << 32, 1 << 63, u64::MAX] {
        for length in 0..=10 {
            let rule = k % 2;
            let reduce = Call::Reduce { k, rule, log: vec![99; length] };
            let row = if k > 4 {
                11
            } else if (length as u64) < 2 * (4 - k) {
                12
            } else {
                0
            };
            expect(&reduce, &counted, row);
            expect(&reduce, &foreign, if row == 0 { 13 } else { row });
        }
    }
    for at in [12, 17, 22, 27] {
        let wrong = with(&[(at, card_words()[at] + 1)]);
        expect(&Call::Reduce { k: 4, rule: 0, log: Vec::new() }, &wrong, 13);
    }
}

/// Document 02, W-206: row 18 behind rows 1 to 3, before 11, 12, 13 and 14.
#[test]
fn row_18_of_least_and_reduce() {
    let (counted, wrong, empty) = (card_words(), with(&[(5, 22)]), words_of([4, 4, 4], 8, &[]));
    let rules = [2, 3, 18, 255, 256, 1 << 32, 1 | 1 << 32, 1 << 63, 1 | 1 << 63, u64::MAX];
    for rule in rules {
        for words in [&counted, &wrong, &empty] {
            expect(&Call::Least { rule }, words, 18);
            for (k, length) in [(0, 8), (0, 0), (4, 0), (5, 0), (u64::MAX, 1)] {
                expect(&Call::Reduce { k, rule, log: vec![99; length] }, words, 18);
            }
        }
        for (damaged, row) in [(with(&[(7, 1)]), 2), (with(&[(8, 0)]), 3)] {
            expect(&Call::Least { rule }, &damaged, row);
            expect(&Call::Reduce { k: 5, rule, log: Vec::new() }, &damaged, row);
            expect(&Call::Least { rule }, &damaged[..7], 1);
            expect(&Call::Reduce { k: 5, rule, log: Vec::new() }, &damaged[..7], 1);
        }
    }
    for rule in [0, 1] {
        expect(&Call::Least { rule }, &empty, 14);
        expect(&Call::Least { rule }, &counted, 0);
    }
}

/// Document 02, W-207: 17, then 20, then 19, by the length first whatever the doubles are.
#[test]
fn rows_of_volume() {
    let volume = |reference, points: &[f64], row| {
        let call = Call::Volume { reference, points: points.to_vec() };
        let answer = expect(&call, &[], row).answer;
        assert!(row == 0 || answer[1] == 0, "a refusal has the volume +0");
    };
    let good = [4.0; 3];
    for length in (0..=12).chain(1_530..=1_545).chain([1_023, 1_024, 3_072, 4_608, 4_609]) {
        let row = match length {
            _ if length % 3 != 0 => 17,
            1_537.. => 20,
            _ => 0,
        };
        let bad = if row == 0 { 19 } else { row };
        volume(good, &vec![1.0; length], row);
        for double in [f64::NAN, f64::INFINITY, -1.0, 0.5, 1_048_577.0] {
            for axis in 0..3 {
                let mut reference = good;
                reference[axis] = double;
                volume(reference, &vec![1.0; length], bad);
                volume(reference, &vec![double; length], bad);
            }
            if length == 0 {
                continue;
            }
            volume(good, &vec![double; length], bad);
            for at in [0, length / 2, length - 1] {
                let mut points = vec![1.0; length];
                points[at] = double;
                volume(good, &points, bad);
            }
        }
    }
}

/// Both sides of each limit, whole numbers and the doubles next to them, one place at a time.
#[test]
fn row_19_of_volume() {
    let most = MAX_COORDINATE as f64;
    let next = |double: f64| {
        [-1, 1].map(|step| f64::from_bits(double.to_bits().wrapping_add_signed(step)))
    };
    let whole = [1.0, 2.0, 3.0, 4.0, 5.0, 65_535.0, 65_536.0, most - 1.0, most];
    let above = [most + 1.0, 2.0 * most, 2_f64.powi(32), 2_f64.powi(32) + 1.0, 2_f64.powi(52)];
    for at in 0..9 {
        let expect_row = |double: f64, row| {
            let mut doubles = [4.0, 4.0, 4.0, 1.0, 2.0, 3.0, 2.0, 1.0, 0.0];
            doubles[at] = double;
            let [x, y, z] = [doubles[0], doubles[1], doubles[2]];
            let call = Call::Volume { reference: [x, y, z], points: doubles[3..].to_vec() };
            expect(&call, &[], row);
        };
        for double in whole {
            expect_row(double, 0);
            expect_row(-double, 19);
            next(double).into_iter().for_each(|beside| expect_row(beside, 19));
        }
        for double in above {
            expect_row(double, 19);
            expect_row(-double, 19);
        }
        for zero in [0.0, -0.0] {
            expect_row(zero, if at < 3 { 19 } else { 0 });
            expect_row(f64::from_bits(zero.to_bits() + 1), 19);
        }
    }
}

/// Ties of every size, by both rules.
#[test]
fn ties_by_both_rules() {
    for count in 1..=4 {
        let equal: Vec<_> = (0..count).map(|i| (9 - 2 * i, [1, 1, 1])).collect();
        let words = words_of([4, 4, 4], 8, &equal);
        let contribution = if count == 1 { 27 } else { 0 };
        let least = |rule| expect(&Call::Least { rule }, &words, 0).answer;
        assert_eq!(least(0), [0, 9 - 2 * (count - 1), contribution]);
        assert_eq!(least(1), [0, 9, contribution]);
        for rule in [0, 1] {
            let log = vec![99; 2 * count as usize];
            let dropped = expect(&Call::Reduce { k: 0, rule, log }, &words, 0).log;
            let numbers: Vec<u64> = dropped.chunks(2).map(|pair| pair[0]).collect();
            let mut due: Vec<u64> = equal.iter().map(|trial| trial.0).collect();
            due.sort_unstable_by_key(|&n| if rule == 0 { n } else { 9 - n });
            assert_eq!(numbers, due);
        }
    }
}

#[test]
fn row_13_of_insert_and_remove() {
    let cells = 64;
    // A total that grows by 64 from 0, and from 1.
    let mut empty = words_of([4, 4, 4], 2, &[]);
    let whole = Call::Insert { number: 1, point: [0, 0, 0] };
    for (total, row) in [(0, 0), (1, 13), (cells, 13)] {
        empty[5] = total;
        expect(&whole, &empty, row);
    }
    empty[5] = cells;
    expect(&Call::Insert { number: 1, point: [4, 0, 0] }, &empty, 0);

    // A contribution that falls by 8, to 0 and below.
    let mut one = words_of([4, 4, 4], 2, &[(1, [1, 1, 1])]);
    for (contribution, row) in [(27, 0), (8, 0), (7, 13), (0, 13), (cells, 0)] {
        one[12] = contribution;
        expect(&Call::Insert { number: 2, point: [2, 2, 2] }, &one, row);
    }

    // A total that falls by 27, whatever contribution is kept.
    for contribution in [0, 27, cells] {
        one[12] = contribution;
        for (total, row) in [(27, 0), (26, 13), (0, 13), (cells, 0)] {
            one[5] = total;
            expect(&Call::Remove { number: 1 }, &one, row);
        }
    }

    // A contribution that rises by 8, to the box and above it.
    let mut two = words_of([4, 4, 4], 2, &[(1, [1, 1, 1]), (2, [2, 2, 2])]);
    for (contribution, row) in [(19, 0), (56, 0), (57, 13), (cells, 13)] {
        two[12] = contribution;
        expect(&Call::Remove { number: 2 }, &two, row);
    }
}

/// 512 trials on a coarse grid; many numbers agree in their low 16 bits.
pub fn full_words() -> Vec<u64> {
    let trials: Vec<(u64, Point)> = (0..512)
        .map(|i| (1 + 65_536 * (i % 150) + i / 150, [i % 7, i * i % 11, i * 5 % 13]))
        .collect();
    words_of([7, 11, 13], 512, &trials)
}

#[test]
fn a_full_archive_of_512() {
    let words = full_words();
    for call in calls() {
        compare(&call, &words);
    }
    expect(&Call::Insert { number: MAX_NUMBER, point: [0, 0, 0] }, &words, 8);
    expect(&Call::Audit, &words, 0);
    let first = words[8];
    for record in [1, 256, 511] {
        let mut twice = words.clone();
        twice[8 + 5 * record] = first;
        all_refused(&twice, 3);
        // The last of equal trials may have a higher number.
        let point = |i: usize| words.get(9 + 5 * i..12 + 5 * i);
        let last = (record..512).find(|&i| point(i) != point(i + 1)).expect("a last one");
        let mut congruent = words.clone();
        congruent[8 + 5 * last] = first % 65_536 + 151 * 65_536;
        passes(&congruent);
    }
    let mut last = words.clone();
    last[8 + 5 * 511 + 3] = MAX_COORDINATE + 1;
    all_refused(&last, 3);
    for z in [13, 14, MAX_COORDINATE] {
        last[8 + 5 * 511 + 3] = z;
        passes(&last);
    }
    all_refused(&words[..words.len() - 1], 1);
}
