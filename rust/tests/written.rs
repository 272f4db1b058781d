//! Cards written back (document 02, W-205): what an archive's card loads to, which cards come back
//! byte for byte, and what shows on a card.

use crate::boundaries::full_words;
use crate::lend::{anything, expect, Call};
use crate::reference::book::words_of;
use crate::reference::calls::read;
use crate::reference::cards::{card, fields, in_order, lines};
use crate::reference::{Point, MAX_COORDINATE, MAX_NUMBER};
use crate::rng::{full_run, scenes};
use crate::scenes::{foreign, Shape, Size};
use std::collections::{BTreeMap, BTreeSet};
use trial_archive::{words, Archive};

/// The card of these words. An output that is a byte shorter is refused, and of a longer one the
/// bytes behind stay.
fn written(words: &[u64]) -> Vec<u8> {
    let exact = 33 * (words[0] as usize + 1);
    assert_eq!(words::card_needed(words[0] as usize), exact);
    let write = |length, row| expect(&Call::WriteCard { out: vec![200; length] }, words, row);
    assert_eq!(write(exact - 1, 16).out, vec![200; exact - 1]);
    let card = write(exact, 0).out;
    let longer = write(exact + 7, 0);
    assert_eq!(longer.answer, [0, exact as u64]);
    assert_eq!(longer.out, [&card[..], &[200; 7]].concat());
    card
}

/// The archive's own words after the card is loaded into the slice; the words behind stay.
fn loaded(card: &[u8], slice: &[u64]) -> Vec<u64> {
    let mut words = slice.to_vec();
    let count = words::load_card(&mut words, card).expect("an accepted card");
    assert_eq!(count, words[0]);
    let (own, behind) = words.split_at(8 + 5 * words[1] as usize);
    assert_eq!(behind, &slice[own.len()..], "words behind the archive");
    own.to_vec()
}

/// The words of an archive of these lines, counted from nothing.
fn counted(lines: &[[u64; 4]]) -> Vec<u64> {
    let [capacity, rx, ry, rz] = lines[0];
    let trial = |&[number, x, y, z]: &[u64; 4]| (number, [x, y, z]);
    let trials: Vec<(u64, Point)> = lines[1..].iter().map(trial).collect();
    words_of([rx, ry, rz], capacity, &trials)
}

/// The card is accepted and comes back with its trials in archive order: the same bytes exactly
/// where they stood in it. Answers whether they did.
fn back(given: &[[u64; 4]]) -> bool {
    let own = card(given);
    let words = counted(given);
    assert_eq!(loaded(&own, &anything(words.len() + 3)), words, "{given:?}");
    let back = written(&words);
    let mut sorted = given.to_vec();
    in_order(&mut sorted);
    assert_eq!(back, card(&sorted), "{given:?}");
    let stood = given[1..].is_sorted_by_key(|&[number, x, y, z]| [z, y, x, number]);
    assert_eq!(back == own, stood, "{given:?}");
    stood
}

/// Each of these was met this often.
fn often<K: Ord + std::fmt::Debug>(met: &BTreeMap<K, u64>, least: u64) {
    for (kind, times) in met {
        println!("{kind:?}: {times}");
        assert!(*times >= least, "{kind:?} was met only {times} times");
    }
}

/// A counted archive is restored by its card, whatever the slice held: anything, or the archive
/// with sums that nobody counted, whose card is the same.
#[test]
fn archives_from_their_cards() {
    let mut met = BTreeMap::new();
    scenes(2, |rng| {
        let (tiny, middle, large) = (Size::Tiny, Size::Middle, Size::Large);
        let size = rng.pick(&[tiny, tiny, tiny, tiny, middle, middle, middle, large, Size::Full]);
        let words = Shape::random(rng, size).archive(rng);
        assert_eq!(words::audit(&words), Ok(true));
        let own = written(&words);
        let mut kept = words.clone();
        foreign(rng, &mut kept);
        kept.extend((0..rng.within(0..=6)).map(|_| rng.next()).collect::<Vec<u64>>());
        assert_eq!(written(&kept), own);
        let more = rng.index(5);
        assert_eq!(loaded(&own, &anything(words.len() + more)), words);
        assert_eq!(loaded(&own, &kept), words);
        let past = |r: &[u64]| (0..3).any(|axis| r[1 + axis] > words[2 + axis]);
        let kinds = [
            ("empty", words[0] == 0),
            ("capacity 1", words[1] == 1),
            ("more than 200 trials", words[0] > 200),
            ("beyond the reference", words[8..8 + 5 * words[0] as usize].chunks(5).any(past)),
            ("foreign", words::audit(&kept) == Ok(false)),
        ];
        for (kind, is) in kinds {
            *met.entry(kind).or_insert(0) += u64::from(is);
        }
        10
    });
    if full_run() {
        often(&met, 20);
    }
}

/// Random trials, any or all equal in z, in z and y, or in all but the number; in order, shuffled,
/// the other way round, or with two neighbours exchanged.
#[test]
fn cards_in_and_out_of_order() {
    let mut met = BTreeMap::new();
    scenes(2, |rng| {
        let size = rng.pick(&[Size::Tiny, Size::Middle]);
        let words = Shape::random(rng, size).archive(rng);
        let mut given = lines(&read(&words).expect("an archive"));
        let equal = rng.index(4);
        for at in [3, 2, 1].into_iter().take(equal) {
            let one = given[given.len() - 1][at];
            given[1..].iter_mut().for_each(|trial| trial[at] = one);
        }
        in_order(&mut given);
        let trials = &mut given[1..];
        let order = rng.pick(&["in order", "shuffled", "reversed", "neighbours exchanged"]);
        match order {
            "shuffled" => rng.shuffle(trials),
            "reversed" => trials.reverse(),
            "neighbours exchanged" if trials.len() > 1 => {
                let at = rng.index(trials.len() - 1);
                trials.swap(at, at + 1);
            }
            _ => {}
        }
        let several = trials.len() > 1;
        let stood = back(&given);
        // A few that are shuffled may be in order all the same.
        if several && order != "shuffled" {
            assert_eq!(stood, order == "in order");
        }
        *met.entry((equal, stood)).or_insert(0) += 1;
        4
    });
    if full_run() {
        assert_eq!(met.len(), 8);
        often(&met, 100);
    }
}

/// Two trials that only z, y, x or the number puts in order, what comes behind it being the other
/// way round: alone, and among others.
#[test]
fn order_by_one_place() {
    let pairs = [
        [[9, 4, 4, 1], [8, 0, 2, 2]],
        [[9, 4, 1, 2], [8, 0, 2, 2]],
        [[9, 1, 2, 2], [8, 2, 2, 2]],
        [[8, 2, 2, 2], [9, 2, 2, 2]],
    ];
    let before = [[8, 5, 5, 5], [7, 9, 9, 0]];
    let behind = [[1, 0, 0, 3], [2, 0, 0, 3]];
    for [first, second] in pairs {
        for (pair, stands) in [([first, second], true), ([second, first], false)] {
            assert_eq!(back(&[&before[..1], &pair].concat()), stands);
            assert_eq!(back(&[&before[..], &pair, &behind].concat()), stands);
        }
    }
}

/// 512 trials, within the reference and, with a smaller one, most of them beyond it.
#[test]
fn cards_of_512() {
    let mut given = lines(&read(&full_words()).expect("an archive"));
    for shape in [given[0], [512, 3, 4, 5]] {
        given[0] = shape;
        assert!(back(&given));
        for at in [1, 2, 255, 256, 511] {
            let mut exchanged = given.clone();
            exchanged.swap(at, at + 1);
            assert!(!back(&exchanged));
        }
        let mut reversed = given.clone();
        reversed[1..].reverse();
        assert!(!back(&reversed));
    }
}

/// By their text: numbers of every width in every column, and the smallest card.
#[test]
fn numbers_of_every_width() {
    let text = "     512 1048576  100000       7
       1       0 1048576       0
       9       9  999999       9
      10      10  100000      10
      99      99   99999      99
     100     100   10000     100
     999     999    9999     999
    1000    1000    1000    1000
    9999    9999     999    9999
   10000   10000     100   10000
   99999   99999      99   99999
  100000  100000      10  100000
  999999  999999       9  999999
 1000000 1000000       0 1000000
 9999999 1048576       1 1048576
";
    let given: Vec<[u64; 4]> = text.as_bytes().chunks(33).map(|l| fields(l).unwrap()).collect();
    assert_eq!(String::from_utf8(written(&counted(&given))).unwrap(), text);
    assert!(back(&given));
    assert_eq!(Archive::load_card(text.as_bytes()).unwrap().write_card().unwrap(), text);
    let smallest = written(&words_of([1, 1, 1], 1, &[]));
    assert_eq!(smallest, b"       1       1       1       1\n");
}

/// Every word of an archive changed so that rows 1 to 3 still pass: capacity, reference, numbers
/// and coordinates show; total, front, contributions and words behind do not. Either way the card
/// loads to the trials counted anew.
#[test]
fn what_shows_on_a_card() {
    let mut words = words_of([40; 3], 8, &[(5, [10; 3]), (15, [20; 3]), (25, [30; 3])]);
    words.extend([77, 78]);
    let own = written(&words);
    for at in 0..words.len() {
        let shows = (1..5).contains(&at) || (8..23).contains(&at) && (at - 8) % 5 < 4;
        let mut passed = 0;
        for value in (0..=50).chain([64_000, MAX_COORDINATE, MAX_NUMBER]) {
            let mut changed = words.clone();
            changed[at] = value;
            let Ok(archive) = read(&changed) else {
                continue;
            };
            let card = written(&changed);
            assert_eq!(card != own, shows && value != words[at], "word {at} is {value}");
            assert_eq!(loaded(&card, &changed), counted(&lines(&archive)));
            passed += u64::from(value != words[at]);
        }
        let fixed = at == 0 || at == 7 || (23..48).contains(&at);
        assert_eq!(passed == 0, fixed, "word {at} was changed {passed} times");
    }
}

/// All archives of capacity 1 and 2 under references of 1 and 2, with numbers 1 and 2 and
/// coordinates 0 and 1: no two have the same card.
#[test]
fn a_card_for_each_archive() {
    let corner = |bits: u64| [bits % 2, bits / 2 % 2, bits / 4 % 2];
    let mut cards = BTreeSet::new();
    let mut archives = 0;
    for shape in 0..16 {
        let (capacity, reference) = (1 + shape / 8, corner(shape).map(|bit| 1 + bit));
        // Each trial is at one of eight corners, or not held.
        for (one, two) in (0..81).map(|places| (places % 9, places / 9)) {
            let all = [(1, one), (2, two)];
            let held = all.into_iter().filter(|&(_, place)| place < 8);
            let trials: Vec<(u64, Point)> = held.map(|(n, place)| (n, corner(place))).collect();
            if trials.len() as u64 <= capacity {
                cards.insert(written(&words_of(reference, capacity, &trials)));
                archives += 1;
            }
        }
    }
    assert_eq!((cards.len(), archives), (784, 784));
}
