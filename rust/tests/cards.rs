//! Cards, good and damaged, checked and loaded.

use crate::lend::{anything, compare, expect, Call, Tally};
use crate::reference::cards::{card, line};
use crate::reference::{MAX_COORDINATE, MAX_NUMBER, MAX_REFERENCE};
use crate::rng::{full_run, scenes, Rng};
use trial_archive::check_card;

/// The card of document 01.
fn example() -> Vec<u8> {
    card(&[[8, 4, 4, 4], [1, 1, 2, 2], [2, 2, 1, 2], [3, 2, 2, 1], [4, 1, 1, 3]])
}

/// Checks the card and loads it into words that are long enough for a capacity of 8. Where they are
/// long enough for the card's, both give the same refusal and line.
fn both(card: &[u8]) -> u64 {
    let checked = compare(&Call::Check { card: card.to_vec() }, &[]).answer[0];
    let loaded = compare(&Call::Load { card: card.to_vec() }, &anything(51)).answer;
    if loaded[0] != 1 {
        assert_eq!(loaded[0] * 65_536 + loaded[1], checked);
    }
    checked
}

fn refused(card: &[u8], refusal: u64, line: u64) {
    assert_eq!(both(card), refusal * 65_536 + line, "{}", String::from_utf8_lossy(card));
}

/// The card is accepted, and loading leaves these words and, behind them, what was there.
fn accepted(card: &[u8], words: &[u64]) {
    assert_eq!(both(card), 0, "{}", String::from_utf8_lossy(card));
    let before = anything(8 + 5 * 512 + 3);
    let outcome = expect(&Call::Load { card: card.to_vec() }, &before, 0);
    assert_eq!(outcome.answer, [0, 0, words[0]]);
    assert_eq!(outcome.words, [words, &before[words.len()..]].concat());
}

#[test]
fn every_byte_changed() {
    let cards = [
        example(),
        card(&[[3, 10, 200, 1_048_576], [9_999_999, 0, 10, 1_048_576], [10, 7, 100, 1_000_000]]),
    ];
    for good in cards {
        assert_eq!(both(&good), 0);
        for at in 0..good.len() {
            for byte in 0..=255 {
                let mut changed = good.clone();
                changed[at] = byte;
                both(&changed);
            }
        }
    }
}

#[test]
fn every_length() {
    let good = example();
    for length in 0..good.len() {
        let checked = both(&good[..length]);
        let whole_lines = length / 33;
        if length == 0 || length % 33 != 0 {
            assert_eq!(checked, 15 * 65_536 + whole_lines as u64 + 1);
        } else {
            assert_eq!(checked, 0);
        }
    }
    for byte in 0..=255 {
        let mut longer = good.clone();
        longer.push(byte);
        refused(&longer, 15, 6);
    }
}

#[test]
fn a_byte_more_or_less() {
    let good = example();
    for at in 0..good.len() {
        let mut shorter = good.clone();
        shorter.remove(at);
        both(&shorter);
        for byte in [b' ', b'0', b'1', b'\n', b'\r', b'\t', 0] {
            let mut longer = good.clone();
            longer.insert(at, byte);
            both(&longer);
        }
    }
}

/// The words of an empty archive, from line 1 of its card.
fn empty([capacity, rx, ry, rz]: [u64; 4]) -> Vec<u64> {
    let mut words = vec![0, capacity, rx, ry, rz];
    words.resize(8 + 5 * capacity as usize, 0);
    words
}

/// The words of an archive with one trial, from the two lines of its card.
fn single(shape: [u64; 4], [number, x, y, z]: [u64; 4]) -> Vec<u64> {
    let mut words = empty(shape);
    let edge = |axis: usize, at| shape[axis].saturating_sub(at);
    let cells = edge(1, x) * edge(2, y) * edge(3, z);
    (words[0], words[5], words[6]) = (1, cells, 1);
    words[8..13].copy_from_slice(&[number, x, y, z, cells]);
    words
}

#[test]
fn forms_of_a_field() {
    let good: [(&[u8; 8], u64); 13] = [
        (b"       0", 0),
        (b"       1", 1),
        (b"       4", 4),
        (b"       5", 5),
        (b"      10", 10),
        (b"     512", 512),
        (b"     513", 513),
        (b"    1000", 1_000),
        (b" 1048576", MAX_REFERENCE),
        (b" 1048577", MAX_REFERENCE + 1),
        (b" 9999999", MAX_NUMBER),
        (b"10000000", MAX_NUMBER + 1),
        (b"99999999", 99_999_999),
    ];
    let bad: [&[u8; 8]; 14] = [
        b"        ",
        b"4       ",
        b"      4 ",
        b"      04",
        b"00000004",
        b"      00",
        b"      +4",
        b"      -4",
        b"     4 4",
        b"      4\n",
        b"      4\r",
        b"\t      4",
        b"     4.0",
        b"\0\0\0\0\0\0\x004",
    ];
    let (shape, trial) = ([4; 4], [1; 4]);
    for place in 0..4 {
        let cards = |field: &[u8; 8]| {
            let (mut first, mut second) = (card(&[shape]), card(&[shape, trial]));
            first[8 * place..8 * place + 8].copy_from_slice(field);
            second[33 + 8 * place..41 + 8 * place].copy_from_slice(field);
            (first, second)
        };
        for (field, value) in good {
            let (first, second) = cards(field);
            let (mut shape_read, mut trial_read) = (shape, trial);
            (shape_read[place], trial_read[place]) = (value, value);
            let most = if place == 0 { 512 } else { MAX_REFERENCE };
            if (1..=most).contains(&value) {
                accepted(&first, &empty(shape_read));
            } else {
                refused(&first, 4, 1);
            }
            match place {
                0 if value == 0 || value > MAX_NUMBER => refused(&second, 5, 2),
                1..=3 if value > MAX_COORDINATE => refused(&second, 6, 2),
                _ => accepted(&second, &single(shape, trial_read)),
            }
        }
        for field in bad {
            let (first, second) = cards(field);
            refused(&first, 15, 1);
            refused(&second, 15, 2);
        }
    }
}

#[test]
fn rows_in_their_order() {
    let room = card(&[[2, 4, 4, 4]]);
    let full = card(&[[2, 4, 4, 4], [1, 1, 1, 1], [2, 0, 0, 0]]);
    let after = |card: &[u8], fields: [u64; 4]| [card, &line(fields)].concat();
    assert_eq!(both(&room), 0);
    assert_eq!(both(&full), 0);
    refused(b"", 15, 1);
    for capacity in [0, 513, 10_000_000, 99_999_999] {
        refused(&card(&[[capacity, 4, 4, 4]]), 4, 1);
    }
    for reference in [0, MAX_REFERENCE + 1, 99_999_999] {
        refused(&card(&[[8, reference, 4, 4]]), 4, 1);
        refused(&card(&[[8, 4, reference, 4]]), 4, 1);
        refused(&card(&[[8, 4, 4, reference]]), 4, 1);
    }
    refused(&after(&room, [0, 4, 4, 4]), 5, 2);
    let past = MAX_COORDINATE + 1;
    refused(&after(&room, [MAX_NUMBER + 1, past, past, past]), 5, 2);
    refused(&after(&room, [99_999_999, past, past, past]), 5, 2);
    for point in [[past, 4, 4], [4, past, 4], [4, 4, past], [4, 4, 99_999_999]] {
        refused(&after(&room, [1, point[0], point[1], point[2]]), 6, 2);
        refused(&after(&full, [1, point[0], point[1], point[2]]), 6, 4);
    }
    refused(&after(&full, [0, past, past, past]), 5, 4);
    // Beyond the reference a line is an insertion like any other.
    refused(&after(&full, [1, 5, 4, 4]), 7, 4);
    refused(&after(&full, [3, 5, 4, MAX_COORDINATE]), 8, 4);
    for reference in [1, 4, MAX_REFERENCE] {
        let shape = [2, reference, reference, reference];
        let point = [MAX_COORDINATE, 0, (reference + 1).min(MAX_COORDINATE)];
        accepted(
            &card(&[shape, [1, point[0], point[1], point[2]]]),
            &single(shape, [1, point[0], point[1], point[2]]),
        );
    }
    refused(&after(&full, [1, 4, 4, 4]), 7, 4);
    refused(&after(&full, [3, 4, 4, 4]), 8, 4);
    // The first line at fault is the one named, whatever comes behind it.
    refused(&[after(&room, [0, 4, 4, 4]), b"x".to_vec()].concat(), 5, 2);
    refused(&[after(&full, [3, 4, 4, 4]), line([0, 0, 0, 0])].concat(), 8, 4);
    refused(&[card(&[[0, 4, 4, 4]]), b"x".to_vec()].concat(), 4, 1);
}

#[test]
fn slices_near_the_limit() {
    for capacity in [1, 2, 512] {
        let needed = 8 + 5 * capacity as usize;
        let good = card(&[[capacity, 4, 4, 4], [7, 1, 2, 3]]);
        for length in [0, 1, 7, 8, 12, needed - 1] {
            let outcome = expect(&Call::Load { card: good.clone() }, &anything(length), 1);
            assert_eq!(outcome.answer, [1, 1, 0]);
        }
        for length in [needed, needed + 1, needed + 7] {
            let outcome = expect(&Call::Load { card: good.clone() }, &anything(length), 0);
            assert_eq!(outcome.answer, [0, 0, 1]);
        }
    }
    // Form, then 4, then 1; and no further line is looked at before row 1.
    expect(&Call::Load { card: b"x".to_vec() }, &[], 15);
    expect(&Call::Load { card: card(&[[513, 4, 4, 4]]) }, &[], 4);
    expect(&Call::Load { card: card(&[[1, 4, 4, 4], [0, 9, 9, 9]]) }, &[], 1);
}

#[test]
fn the_longest_cards() {
    let mut lines = vec![[512, 7, 8, 9]];
    lines.extend((1..=512).map(|number| [number, number % 8, number % 9, number % 10]));
    let full = card(&lines);
    let words = anything(8 + 5 * 512 + 3);
    let checks = [
        (Vec::new(), 0),
        (line([513, 0, 0, 0]), 8 * 65_536 + 514),
        (line([512, 0, 0, 0]), 7 * 65_536 + 514),
        (line([513, 0, 0, 1_048_577]), 6 * 65_536 + 514),
        (line([513, 0, 0, 10]), 8 * 65_536 + 514),
        (line([0, 0, 0, 0]), 5 * 65_536 + 514),
        (b"\n".to_vec(), 15 * 65_536 + 514),
    ];
    for (more, expected) in checks {
        let longer = [full.clone(), more].concat();
        assert_eq!(compare(&Call::Check { card: longer.clone() }, &[]).answer, [expected]);
        let loaded = compare(&Call::Load { card: longer }, &words).answer;
        assert_eq!(loaded[0] * 65_536 + loaded[1], expected);
    }
}

/// The refusal and the line unpacked.
#[test]
fn a_refusal_with_its_line() {
    let refusal = check_card(&card(&[[1, 4, 4, 4], [1, 1_048_577, 0, 0]])).unwrap_err();
    assert_eq!((refusal.refusal.number(), refusal.line), (6, 2));
    let text = "card line 2: a coordinate above 1,048,576, or above 32,768 on four axes";
    assert_eq!(refusal.to_string(), text);
}

/// A card whose lines are mostly acceptable.
fn random_card(rng: &mut Rng) -> Vec<u8> {
    let tiny = rng.chance(60);
    let largest = if tiny { 5 } else { MAX_REFERENCE };
    let reference = [0; 3].map(|_: u64| rng.within(1..=largest));
    let capacity = rng.within(1..=9);
    let [rx, ry, rz] = reference;
    let mut lines = vec![[capacity, rx, ry, rz]];
    for _ in 0..rng.within(0..=capacity + 1) {
        let beyond = rng.within(1..=3) == 1;
        let point = reference.map(|r| match rng.within(1..=3) {
            1 if beyond => rng.pick(&[(r + 1).min(MAX_COORDINATE), MAX_COORDINATE]),
            _ => rng.within(0..=r),
        });
        let numbers = [rng.within(1..=40), rng.within(1..=MAX_NUMBER)];
        lines.push([rng.pick(&numbers), point[0], point[1], point[2]]);
    }
    if rng.chance(30) {
        let at = rng.index(lines.len());
        let reference = lines[0][1];
        let values = [0, 512, 513, reference + 1, MAX_REFERENCE, MAX_REFERENCE + 1];
        let more = [MAX_NUMBER, MAX_NUMBER + 1, 99_999_999, rng.within(0..=99_999_999)];
        lines[at][rng.index(4)] = rng.pick(&[&values[..], &more[..]].concat());
    }
    let mut card = card(&lines);
    while rng.chance(30) && !card.is_empty() {
        let at = rng.index(card.len());
        match rng.within(0..=4) {
            0 => card.truncate(at),
            1 => card[at] = rng.pick(b" 0123456789\n\r\t-+.x\x80\0"),
            2 => card.insert(at, rng.pick(b" 0\n")),
            3 => drop(card.remove(at)),
            _ => card.push(rng.pick(b" 0\n")),
        }
    }
    card
}

#[test]
fn random_cards() {
    let mut tally = Tally::default();
    scenes(12, |rng| {
        let card = random_card(rng);
        let length = rng.within(40..=70) as usize;
        let words: Vec<u64> = (0..length).map(|_| rng.next()).collect();
        tally.compare(&Call::Check { card: card.clone() }, &[]);
        tally.compare(&Call::Load { card }, &words);
        2
    });
    if full_run() {
        tally.covers("check", &[0, 4, 5, 6, 7, 8, 15]);
        tally.covers("load", &[0, 1, 4, 5, 6, 7, 8, 15]);
    }
}
