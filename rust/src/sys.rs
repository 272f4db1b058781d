//! The library's C interface as `include/trial_archive.h` declares it, in the same order.
//!
//! A slice is a pointer and a length in elements. The pointer is never null and is aligned, also
//! where the length is 0, which is what Rust's own slices give. The slices lent to one call share
//! no memory.

/// A refusal, or 0 and one number.
#[repr(C)]
#[derive(Clone, Copy, Debug, PartialEq, Eq)]
pub struct Answer {
    pub refusal: u64,
    pub value: u64,
}

/// A refusal, or 0 and the least contributor.
#[repr(C)]
#[derive(Clone, Copy, Debug, PartialEq, Eq)]
pub struct LeastAnswer {
    pub refusal: u64,
    pub number: u64,
    pub contribution: u64,
}

/// A refusal, or 0, how many trials of a grid went in, and the refusal number that stopped it, or 0.
#[repr(C)]
#[derive(Clone, Copy, Debug, PartialEq, Eq)]
pub struct GridAnswer {
    pub refusal: u64,
    pub inserted: u64,
    pub stop: u64,
}

/// A refusal, or 0 and a difference of two counts of cells.
#[repr(C)]
#[derive(Clone, Copy, Debug, PartialEq, Eq)]
pub struct Change {
    pub refusal: u64,
    pub difference: i64,
}

/// A refusal and its card line, or 0, 0 and the count of trials loaded.
#[repr(C)]
#[derive(Clone, Copy, Debug, PartialEq, Eq)]
pub struct LoadAnswer {
    pub refusal: u64,
    pub line: u64,
    pub count: u64,
}

/// A refusal, or 0 and the figures of several archives: of their totals, of the median's share, and 1
/// where every audit says yes, else 0.
#[repr(C)]
#[derive(Clone, Copy, Debug, PartialEq, Eq)]
pub struct FiguresAnswer {
    pub refusal: u64,
    pub sum: u64,
    pub least: u64,
    pub greatest: u64,
    pub median: u64,
    pub share: u64,
    pub audits: u64,
}

/// The reference corner of a volume.
#[repr(C)]
#[derive(Clone, Copy, Debug, PartialEq)]
pub struct Corner {
    pub x: f64,
    pub y: f64,
    pub z: f64,
}

/// A refusal, or 0 and a volume.
#[repr(C)]
#[derive(Clone, Copy, Debug, PartialEq)]
pub struct VolumeAnswer {
    pub refusal: u64,
    pub volume: f64,
}

extern "C" {
    pub fn ta_start(words: *mut u64, len: usize, rx: u64, ry: u64, rz: u64, capacity: u64) -> u64;

    pub fn ta_insert(words: *mut u64, len: usize, number: u64, x: u64, y: u64, z: u64) -> u64;

    pub fn ta_insert_grid(
        words: *mut u64,
        len: usize,
        grid: *const u64,
        grid_len: usize,
    ) -> GridAnswer;

    pub fn ta_remove(words: *mut u64, len: usize, number: u64) -> u64;

    pub fn ta_least(words: *const u64, len: usize, rule: u64) -> LeastAnswer;

    pub fn ta_reduce(
        words: *mut u64,
        len: usize,
        k: u64,
        rule: u64,
        log: *mut u64,
        log_len: usize,
    ) -> Answer;

    pub fn ta_joint(words: *const u64, len: usize, first: u64, second: u64) -> Answer;

    pub fn ta_gain(words: *const u64, len: usize, x: u64, y: u64, z: u64) -> Answer;

    pub fn ta_replace_effect(
        words: *const u64,
        len: usize,
        number: u64,
        x: u64,
        y: u64,
        z: u64,
    ) -> Change;

    pub fn ta_share(words: *const u64, len: usize) -> Answer;

    pub fn ta_audit(words: *const u64, len: usize) -> Answer;

    pub fn ta_card_check(card: *const u8, len: usize) -> u64;

    pub fn ta_card_load(
        words: *mut u64,
        len: usize,
        card: *const u8,
        card_len: usize,
    ) -> LoadAnswer;

    pub fn ta_card_write(words: *const u64, len: usize, out: *mut u8, out_len: usize) -> Answer;

    pub fn ta_report(words: *const u64, len: usize, out: *mut u8, out_len: usize) -> Answer;

    pub fn ta_rearrange(
        words: *const u64,
        len: usize,
        order: u64,
        second: *mut u64,
        second_len: usize,
    ) -> u64;

    pub fn ta_figures(words: *const u64, len: usize, number: u64) -> FiguresAnswer;

    pub fn ta_volume(reference: Corner, points: *const f64, len: usize) -> VolumeAnswer;

    pub fn ta_count4(
        rx: u64,
        ry: u64,
        rz: u64,
        rw: u64,
        coords: *const u64,
        len: usize,
        out: *mut u64,
        out_len: usize,
    ) -> u64;
}
