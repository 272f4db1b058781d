//! Random calls on archives of all kinds: counted, foreign (the form right, the sums wrong),
//! damaged, and lent in part.

use crate::lend::{Call, Tally};
use crate::rng::{full_run, scenes, Rng};
use crate::scenes::{call, damage, foreign, part, tight, Shape, Size};

/// A row of calls on one archive, each on the words that the last one left.
fn scene(rng: &mut Rng, size: Size, tally: &mut Tally) -> u64 {
    let shape = Shape::random(rng, size);
    let mut words = shape.archive(rng);
    if rng.chance(25) {
        foreign(rng, &mut words);
    }
    let needed = words.len();
    words.extend((0..rng.within(0..=6)).map(|_| rng.next()).collect::<Vec<u64>>());
    let steps = rng.within(8..=40);
    for _ in 0..steps {
        let call = call(rng, &shape, &words);
        let mut lent = words.clone();
        // Damaged or partly lent words, and a start, are for one call; the next one has the
        // archive as it was.
        let mut goes_on = !matches!(call, Call::Start { .. });
        match rng.within(0..=19) {
            0 | 1 => {
                damage(rng, &mut lent);
                if rng.chance(20) {
                    damage(rng, &mut lent);
                }
                goes_on = false;
            }
            2 => {
                lent.truncate(part(rng, &words, needed));
                goes_on = false;
            }
            3 | 4 => {
                tight(rng, &mut lent, &call);
                goes_on = false;
            }
            _ => {}
        }
        let outcome = tally.compare(&call, &lent);
        if goes_on {
            words = outcome.words;
        }
    }
    steps
}

fn run(percent: u64, size: Size) {
    let mut tally = Tally::default();
    scenes(percent, |rng| scene(rng, size, &mut tally));
    if !full_run() || matches!(size, Size::Large | Size::Full) {
        return;
    }
    tally.covers("start", &[0, 1, 4]);
    tally.covers("insert", &[0, 1, 2, 3, 5, 6, 7, 8, 13]);
    tally.covers("insert_grid", &[0, 1, 2, 3, 17]);
    tally.covers("remove", &[0, 1, 2, 3, 9, 13]);
    tally.covers("least", &[0, 1, 2, 3, 14, 18]);
    tally.covers("reduce", &[0, 1, 2, 3, 11, 12, 13, 18]);
    tally.covers("joint", &[0, 1, 2, 3, 9, 10]);
    tally.covers("gain", &[0, 1, 2, 3, 6]);
    tally.covers("replace_effect", &[0, 1, 2, 3, 6, 9]);
    tally.covers("share", &[0, 1, 2, 3]);
    tally.covers("audit", &[0, 1, 2, 3]);
    tally.covers("write_card", &[0, 1, 2, 3, 16]);
    tally.covers("report", &[0, 1, 2, 3, 16]);
    tally.covers("rearrange", &[0, 1, 2, 3, 13, 22]);
    tally.covers("figures", &[0, 1, 2, 3, 23]);
    for call in ["start", "insert", "insert_grid", "gain", "replace_effect"] {
        tally.covers_wide(call);
    }
    let all = [
        "insert",
        "insert_grid",
        "remove",
        "least",
        "reduce",
        "joint",
        "gain",
        "replace_effect",
        "share",
        "audit",
        "write_card",
        "report",
        "rearrange",
        "figures",
    ];
    for call in all {
        tally.covers_beyond(call);
    }
}

#[test]
fn tiny_archives() {
    run(36, Size::Tiny);
}

#[test]
fn middle_archives() {
    run(28, Size::Middle);
}

#[test]
fn large_archives() {
    run(2, Size::Large);
}

#[test]
fn full_archives() {
    run(1, Size::Full);
}
