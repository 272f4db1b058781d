//! What the owning archive and the other safe functions add to the calls.

use trial_archive::{count4, volume, words, Archive, AxisOrder, Counts4, Figures};
use trial_archive::{Refusal, TieRule, Trial};

#[test]
fn start_out_of_range_allocates_nothing_for_it() {
    for capacity in [0, 513, u64::MAX, u64::MAX / 5] {
        assert_eq!(Archive::start([4, 4, 4], capacity), Err(Refusal::BadStart));
    }
    for reference in [[0, 1, 1], [1, 1_048_577, 1], [1, 1, u32::MAX]] {
        assert_eq!(Archive::start(reference, 1), Err(Refusal::BadStart));
    }
    for capacity in [1, 512] {
        let archive = Archive::start([1, 2, 1_048_576], capacity).unwrap();
        assert_eq!(archive.capacity() as u64, capacity);
        assert_eq!(archive.words().len() as u64, 8 + 5 * capacity);
        assert_eq!(archive.reference(), [1, 2, 1_048_576]);
        assert_eq!((archive.count(), archive.total()), (0, 0));
    }
}

#[test]
fn trials_in_archive_order() {
    let mut archive = Archive::start([9, 9, 9], 4).unwrap();
    archive.insert(5, [1, 1, 2]).unwrap();
    archive.insert(9, [3, 1, 1]).unwrap();
    archive.insert(7, [3, 1, 1]).unwrap();
    let trials: Vec<Trial> = archive.trials().collect();
    assert_eq!(trials.iter().map(|t| t.number).collect::<Vec<_>>(), [7, 9, 5]);
    assert_eq!(trials[2], Trial { number: 5, point: [1, 1, 2], contribution: 112 });
    assert_eq!(archive.trials().len(), 3);
}

#[test]
fn a_loaded_card_is_its_insertions() {
    let card = b"       3       4       5       6\n       8       1       2       3\n";
    let mut archive = Archive::start([4, 5, 6], 3).unwrap();
    archive.insert(8, [1, 2, 3]).unwrap();
    assert_eq!(archive.write_card().unwrap().as_bytes(), card);
    assert_eq!(Archive::load_card(card), Ok(archive));
    let refusal = Archive::load_card(&card[..40]).unwrap_err();
    assert_eq!((refusal.refusal, refusal.line), (Refusal::CardForm, 2));
}

#[test]
fn words_kept_elsewhere() {
    let mut archive = Archive::start([4, 4, 4], 2).unwrap();
    archive.insert(1, [1, 1, 1]).unwrap();
    let mut words = archive.clone().into_words();
    words.extend([7, 7]);
    assert_eq!(Archive::from_words(words.clone()), Ok(archive.clone()));
    words[5] = 26;
    let mut foreign = Archive::from_words(words.clone()).unwrap();
    assert_eq!(foreign.audit(), Ok(false));
    assert_eq!(foreign.reduce(0), Err(Refusal::Miscount));
    assert_eq!(foreign.write_card(), archive.write_card());
    words[9] = 1_048_577;
    assert_eq!(Archive::from_words(words.clone()), Err(Refusal::BadRecords));
    words[6] = 2;
    assert_eq!(Archive::from_words(words.clone()), Err(Refusal::BadHeader));
    words.truncate(7);
    assert_eq!(Archive::from_words(words), Err(Refusal::SliceShort));
}

#[test]
fn reductions_that_drop_nothing_or_all() {
    let mut archive = Archive::start([4, 4, 4], 2).unwrap();
    archive.insert(1, [1, 1, 1]).unwrap();
    archive.insert(2, [3, 3, 3]).unwrap();
    assert_eq!(archive.reduce(2), Ok(vec![]));
    assert_eq!(archive.reduce(3), Err(Refusal::AboveCount));
    assert_eq!(archive.reduce(u64::MAX), Err(Refusal::AboveCount));
    assert_eq!(archive.reduce(0).unwrap().len(), 2);
    assert_eq!((archive.count(), archive.total()), (0, 0));
    assert_eq!(archive.report().unwrap(), "       0       4       4       4                   0\n");
    assert_eq!(archive.write_card().unwrap(), "       2       4       4       4\n");
}

/// The lowest number goes by default, the highest where it is named.
#[test]
fn tie_rules() {
    assert_eq!(TieRule::default(), TieRule::Lowest);
    assert_eq!([TieRule::Lowest, TieRule::Highest].map(TieRule::number), [0, 1]);
    let mut archive = Archive::start([4, 4, 4], 8).unwrap();
    for number in [5, 3, 9, 7] {
        archive.insert(number, [1, 1, 1]).unwrap();
    }
    assert_eq!(archive.least().unwrap().number, 3);
    assert_eq!(archive.least_by(TieRule::Lowest).unwrap().number, 3);
    assert_eq!(archive.least_by(TieRule::Highest).unwrap().number, 9);
    let numbers = |drops: Vec<trial_archive::Contribution>| -> Vec<u64> {
        drops.iter().map(|drop| drop.number).collect()
    };
    assert_eq!(numbers(archive.clone().reduce(1).unwrap()), [3, 5, 7]);
    assert_eq!(numbers(archive.clone().reduce_by(1, TieRule::Lowest).unwrap()), [3, 5, 7]);
    assert_eq!(numbers(archive.reduce_by(1, TieRule::Highest).unwrap()), [9, 7, 5]);
}

/// As points and as a slice of doubles, which alone can have a length that is not of points.
#[test]
fn volumes_both_ways() {
    let points = [[1.0, 2.0, 2.0], [2.0, 1.0, 2.0], [2.0, 2.0, 1.0], [1.0, 1.0, 3.0]];
    let flat = points.as_flattened();
    let reference = [4.0, 4.0, 4.0];
    assert_eq!(volume(reference, &points), Ok(21.0));
    assert_eq!(words::volume(reference, flat), Ok(21.0));
    assert_eq!(volume(reference, &[]), Ok(0.0));
    assert_eq!(words::volume(reference, &flat[..11]), Err(Refusal::BadLength));
    assert_eq!(volume(reference, &[[0.0; 3]; 512]), Ok(64.0));
    assert_eq!(volume(reference, &[[0.0; 3]; 513]), Err(Refusal::TooManyPoints));
    assert_eq!(volume(reference, &[[0.0, 0.5, 0.0]]), Err(Refusal::BadDouble));
    // Three numbers that differ stand for x, y and z.
    assert_eq!(volume([3.0, 5.0, 7.0], &[[1.0, 2.0, 4.0]]), Ok(18.0));
}

/// As points and as slices, of which only these can have a wrong length.
#[test]
fn counts_on_four_axes_both_ways() {
    let points = [[1, 2, 2, 0], [2, 1, 2, 0], [2, 2, 1, 0], [1, 1, 3, 0]];
    let flat = points.as_flattened();
    let reference = [4, 4, 4, 1];
    let counts = Counts4 { total: 21, contributions: vec![2, 2, 4, 1] };
    assert_eq!(count4(reference, &points), Ok(counts));
    assert_eq!(words::count4_needed(points.len()), 5);
    let mut out = [9; 7];
    assert_eq!(words::count4(reference, flat, &mut out[..4]), Err(Refusal::OutputShort));
    assert_eq!(words::count4(reference, &flat[..15], &mut out), Err(Refusal::BadLength));
    assert_eq!(out, [9; 7]);
    assert_eq!(words::count4(reference, flat, &mut out), Ok(()));
    assert_eq!(out, [21, 2, 2, 4, 1, 9, 9]);
    assert_eq!(count4(reference, &[]), Ok(Counts4 { total: 0, contributions: vec![] }));
    let origins = Counts4 { total: 64, contributions: vec![0; 512] };
    assert_eq!(count4(reference, &[[0; 4]; 512]), Ok(origins));
    assert_eq!(count4(reference, &[[0; 4]; 513]), Err(Refusal::TooManyPoints));
    assert_eq!(count4(reference, &[[0, 32_769, 0, 0]]), Err(Refusal::BadCoordinate));
    assert_eq!(count4([4, 4, 4, 0], &points), Err(Refusal::BadStart));
    // Four numbers that differ stand for x, y, z and w.
    let counts = Counts4 { total: 2 * 3 * 3 * 5, contributions: vec![90] };
    assert_eq!(count4([3, 5, 7, 11], &[[1, 2, 4, 6]]), Ok(counts));
}

/// Names, numbers, letters and inverses belong together.
#[test]
fn orders_of_the_axes() {
    let orders = [
        (AxisOrder::Xyz, ['x', 'y', 'z'], AxisOrder::Xyz),
        (AxisOrder::Xzy, ['x', 'z', 'y'], AxisOrder::Xzy),
        (AxisOrder::Yxz, ['y', 'x', 'z'], AxisOrder::Yxz),
        (AxisOrder::Yzx, ['y', 'z', 'x'], AxisOrder::Zxy),
        (AxisOrder::Zxy, ['z', 'x', 'y'], AxisOrder::Yzx),
        (AxisOrder::Zyx, ['z', 'y', 'x'], AxisOrder::Zyx),
    ];
    for (number, (order, letters, inverse)) in (0..).zip(orders) {
        assert_eq!(order.number(), number);
        assert_eq!(AxisOrder::from_number(number), Some(order));
        assert_eq!(AxisOrder::ALL[number as usize], order);
        assert_eq!(order.rearrange(['x', 'y', 'z']), letters);
        assert_eq!(order.inverse(), inverse);
        assert_eq!(order.inverse().rearrange(letters), ['x', 'y', 'z']);
    }
    for number in [6, 7, 256, 1 << 32, 3 | 1 << 32, u64::MAX] {
        assert_eq!(AxisOrder::from_number(number), None);
    }
}

/// As an archive of its own and into a slice, which alone can be too short.
#[test]
fn rearranged_both_ways() {
    let mut archive = Archive::start([4, 5, 6], 2).unwrap();
    archive.insert(1, [1, 2, 3]).unwrap();
    archive.insert(2, [3, 0, 5]).unwrap();
    let rearranged = archive.rearranged(AxisOrder::Yzx).unwrap();
    let expected = [2, 2, 5, 6, 4, 29, 2, 0, 1, 2, 3, 1, 24, 2, 0, 5, 3, 2];
    assert_eq!(rearranged.words(), expected);
    assert_eq!(rearranged.rearranged(AxisOrder::Zxy), Ok(archive.clone()));
    let mut second = [9; 20];
    let call = |words: &[u64], second: &mut [u64]| words::rearrange(words, AxisOrder::Yzx, second);
    assert_eq!(call(archive.words(), &mut second[..17]), Err(Refusal::SliceShort));
    assert_eq!(second, [9; 20]);
    assert_eq!(call(archive.words(), &mut second), Ok(()));
    assert_eq!(second[..18], expected);
    assert_eq!(second[18..], [9, 9]);
    // A source that nobody counted, which an owner can have from words kept elsewhere.
    let mut words = archive.into_words();
    words[5] -= 1;
    assert_eq!(call(&words, &mut []), Err(Refusal::Miscount));
    let foreign = Archive::from_words(words).unwrap();
    assert_eq!(foreign.rearranged(AxisOrder::Xyz), Err(Refusal::Miscount));
}

/// From archives that own their words and from a slice that holds them, which alone can be too short.
#[test]
fn figures_both_ways() {
    let mut runs: Vec<Archive> =
        [8, 1, 3, 512].map(|capacity| Archive::start([4, 4, 4], capacity).unwrap()).to_vec();
    for (run, z) in runs.iter_mut().zip([2, 0, 4, 1]) {
        run.insert(7, [0, 2, z]).unwrap();
    }
    let due = |numbers: [u64; 5], audits: bool| {
        let [sum, least, greatest, median, share] = numbers;
        Ok(Figures { sum, least, greatest, median, share, audits })
    };
    // The totals are 16, 32, 0 and 24.
    assert_eq!(Figures::of(&runs), due([72, 0, 32, 16, 250_000], true));
    assert_eq!(Figures::of(&runs[..3]), due([48, 0, 32, 16, 250_000], true));
    assert_eq!(Figures::of(runs.iter().rev().take(2)), due([24, 0, 24, 0, 0], true));
    assert_eq!(Figures::of([&runs[1], &runs[3]]), due([56, 24, 32, 24, 375_000], true));
    assert_eq!(Figures::of([&runs[1]; 15]), due([480, 32, 32, 32, 500_000], true));
    assert_eq!(Figures::of([&runs[1]; 16]), Err(Refusal::BadRuns));
    assert_eq!(Figures::of([]), Err(Refusal::BadRuns));
    // One that never ends is given up at the sixteenth.
    assert_eq!(Figures::of(runs.iter().cycle()), Err(Refusal::BadRuns));
    for reference in [[5, 4, 4], [4, 5, 4], [4, 4, 5]] {
        let other = Archive::start(reference, 8).unwrap();
        assert_eq!(Figures::of(runs.iter().chain([&other])), Err(Refusal::BadRuns));
    }

    let mut slice: Vec<u64> = runs.iter().flat_map(|run| run.words()).copied().collect();
    assert_eq!(slice.len(), [8, 1, 3, 512].map(words::needed).iter().sum());
    assert_eq!(words::figures(&slice, 4), Figures::of(&runs));
    assert_eq!(words::figures(&slice, 3), Figures::of(&runs[..3]));
    assert_eq!(words::figures(&slice, 5), Err(Refusal::SliceShort));
    assert_eq!(words::figures(&slice[..slice.len() - 1], 4), Err(Refusal::SliceShort));
    assert_eq!(words::figures(&slice, 0), Err(Refusal::BadRuns));
    assert_eq!(words::figures(&[], 16), Err(Refusal::BadRuns));
    assert_eq!(words::figures(&[], 1), Err(Refusal::SliceShort));
    // A total that nobody counted: its figure as kept, and an audit that says no.
    slice[5] = 17;
    runs[0] = Archive::from_words(slice.clone()).unwrap();
    assert_eq!(words::figures(&slice, 4), due([73, 0, 32, 17, 265_625], false));
    assert_eq!(Figures::of(&runs), due([73, 0, 32, 17, 265_625], false));
    let last = slice.len() - 1;
    slice[last] = 1;
    assert_eq!(words::figures(&slice, 4), Err(Refusal::BadRecords));
    slice[words::needed(8) + 7] = 1;
    assert_eq!(words::figures(&slice, 4), Err(Refusal::BadHeader));
    assert_eq!(words::figures(&slice, 1), due([17, 17, 17, 17, 265_625], false));
}

/// 21 and 24 are not given yet.
#[test]
fn refusals_have_their_numbers() {
    let numbers: Vec<u64> = Refusal::ALL.iter().map(|r| r.number()).collect();
    assert_eq!(numbers, (1..=20).chain([22, 23]).collect::<Vec<u64>>());
    assert_eq!([21, 24].map(Refusal::from_number), [None, None]);
    for refusal in Refusal::ALL {
        assert_eq!(Refusal::from_number(refusal.number()), Some(refusal));
    }
    assert_eq!(Refusal::from_number(0), None);
    let mut texts: Vec<String> = Refusal::ALL.iter().map(Refusal::to_string).collect();
    texts.sort();
    texts.dedup();
    assert_eq!(texts.len(), Refusal::ALL.len());
}
