//! What a replacement would change (document 02, W-202): against the totals of archives that are made
//! so, the extremes, equal points, trials beyond the reference, and archives whose audit says no.

use crate::lend::{expect, Call};
use crate::reference::{Point, MAX_REFERENCE};
use crate::rng::{scenes, Rng};
use crate::scenes::{foreign, Shape, Size};
use trial_archive::{Archive, Refusal};

fn effect(words: &[u64], number: u64, point: Point) -> i64 {
    expect(&Call::ReplaceEffect { number, point }, words, 0).answer[1] as i64
}

/// The whole box against a point at the reference, on each axis, and the other way round.
#[test]
fn the_extremes() {
    let most = MAX_REFERENCE as u32;
    for axis in 0..3 {
        let mut edge = [0; 3];
        edge[axis] = most;
        let mut archive = Archive::start([most; 3], 2).unwrap();
        archive.insert(1, [0; 3]).unwrap();
        assert_eq!(archive.replace_effect(1, edge), Ok(-(1 << 60)));
        assert_eq!(archive.replace_effect(1, [0; 3]), Ok(0));
        archive.remove(1).unwrap();
        archive.insert(1, edge).unwrap();
        assert_eq!(archive.replace_effect(1, [0; 3]), Ok(1 << 60));
        archive.insert(2, [0; 3]).unwrap();
        assert_eq!(archive.replace_effect(1, [0; 3]), Ok(0));
        assert_eq!(archive.replace_effect(2, edge), Ok(-(1 << 60)));
    }
}

/// Document 01's card: what its trials would become, and one beyond the reference.
#[test]
fn the_card() {
    let mut archive = Archive::start([4, 4, 4], 8).unwrap();
    for (number, point) in [(1, [1, 2, 2]), (2, [2, 1, 2]), (3, [2, 2, 1]), (4, [1, 1, 3])] {
        archive.insert(number, point).unwrap();
    }
    assert_eq!(archive.replace_effect(4, [0, 0, 0]), Ok(43));
    assert_eq!(archive.replace_effect(4, [5, 0, 0]), Ok(-1));
    assert_eq!(archive.replace_effect(4, [1, 1, 1]), Ok(6));
    assert_eq!(archive.replace_effect(3, [4, 4, 4]), Ok(-4));
    assert_eq!(archive.replace_effect(3, [2, 1, 2]), Ok(-4));
    assert_eq!(archive.replace_effect(5, [1_048_577, 0, 0]), Err(Refusal::NotHeld));
    assert_eq!(archive.replace_effect(4, [1_048_577, 0, 0]), Err(Refusal::BadCoordinate));
    // A twin has no cells of its own to lose.
    archive.insert(5, [1, 1, 3]).unwrap();
    assert_eq!(archive.replace_effect(4, [4, 4, 4]), Ok(0));
    assert_eq!(archive.replace_effect(5, [0, 0, 0]), Ok(43));
}

/// What the replacement, once made, has changed; also in words whose sums nobody counted.
#[test]
fn as_it_is_made() {
    scenes(3, |rng: &mut Rng| {
        let size = rng.pick(&[Size::Tiny, Size::Middle, Size::Large]);
        let shape = Shape::random(rng, size);
        let words = shape.archive(rng);
        if words[0] == 0 {
            return 1;
        }
        let at = 8 + 5 * rng.index(words[0] as usize);
        let (number, own) = (words[at], [words[at + 1], words[at + 2], words[at + 3]]);
        let point = shape.point(rng, &[]);
        let difference = effect(&words, number, point);
        let removed = expect(&Call::Remove { number }, &words, 0).words;
        let made = expect(&Call::Insert { number, point }, &removed, 0).words;
        assert_eq!(made[5] as i64 - words[5] as i64, difference);
        assert_eq!(effect(&words, number, own), 0);
        assert_eq!(effect(&made, number, own), -difference);
        let mut kept = words.clone();
        foreign(rng, &mut kept);
        assert_eq!(effect(&kept, number, point), difference);
        7
    });
}
