//! A small generator (splitmix64) and the runs that draw from it.
//!
//! `TRIAL_ARCHIVE_CALLS` sets how many random calls the whole run makes, `TRIAL_ARCHIVE_SEED`
//! where they begin. A run is a row of scenes, each from a seed of its own. A scene that fails
//! names its seed, and a run that begins there fails in its first scene.

use std::env;
use std::ops::RangeInclusive;

const CALLS: u64 = 600_000;
const SEED: u64 = 0x0001_0203_0405_0607;
const STEP: u64 = 0x9e37_79b9_7f4a_7c15;

pub struct Rng(u64);

impl Rng {
    pub fn next(&mut self) -> u64 {
        self.0 = self.0.wrapping_add(STEP);
        let mut z = self.0;
        z = (z ^ (z >> 30)).wrapping_mul(0xbf58_476d_1ce4_e5b9);
        z = (z ^ (z >> 27)).wrapping_mul(0x94d0_49bb_1331_11eb);
        z ^ (z >> 31)
    }

    /// A number of the range; the slight bias of the remainder does not matter here.
    pub fn within(&mut self, range: RangeInclusive<u64>) -> u64 {
        let (low, high) = range.into_inner();
        match (high - low).checked_add(1) {
            Some(width) => low + self.next() % width,
            None => self.next(),
        }
    }

    pub fn chance(&mut self, percent: u64) -> bool {
        self.within(1..=100) <= percent
    }

    pub fn pick<T: Clone>(&mut self, from: &[T]) -> T {
        from[self.within(0..=from.len() as u64 - 1) as usize].clone()
    }

    pub fn index(&mut self, len: usize) -> usize {
        self.within(0..=len as u64 - 1) as usize
    }

    pub fn shuffle<T>(&mut self, list: &mut [T]) {
        for i in (1..list.len()).rev() {
            list.swap(i, self.index(i + 1));
        }
    }
}

fn variable(name: &str) -> Option<u64> {
    let text = env::var(name).ok()?;
    let plain = text.replace('_', "");
    let value = match plain.strip_prefix("0x") {
        Some(digits) => u64::from_str_radix(digits, 16),
        None => plain.parse(),
    };
    Some(value.unwrap_or_else(|_| panic!("{name} is a number, not {text}")))
}

/// Whether this run makes at least the usual number of calls.
pub fn full_run() -> bool {
    variable("TRIAL_ARCHIVE_CALLS").unwrap_or(CALLS) >= CALLS
}

/// Names the scene's seed where the scene fails.
struct Scene(u64);

impl Drop for Scene {
    fn drop(&mut self) {
        if std::thread::panicking() {
            eprintln!("this scene again: TRIAL_ARCHIVE_SEED={:#x}", self.0);
        }
    }
}

/// Runs scenes, each of which says how many calls it made, until they have made this many
/// hundredths of the run's calls.
pub fn scenes(percent: u64, scene: impl FnMut(&mut Rng) -> u64) {
    long_scenes(10_000 * percent, scene);
}

/// As `scenes`, by millionths of the run's calls: for scenes that take long.
pub fn long_scenes(millionths: u64, mut scene: impl FnMut(&mut Rng) -> u64) {
    let calls = variable("TRIAL_ARCHIVE_CALLS").unwrap_or(CALLS) * millionths / 1_000_000;
    let mut seed = variable("TRIAL_ARCHIVE_SEED").unwrap_or(SEED);
    let mut made = 0;
    while made < calls.max(1) {
        let guard = Scene(seed);
        made += scene(&mut Rng(guard.0)).max(1);
        seed = seed.wrapping_add(0x632b_e59b_d9b4_e019);
    }
    println!("{made} random calls compared");
}
