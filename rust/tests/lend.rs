//! One call, made three times on equal memory: by the reference, by the bare C interface on
//! fenced memory, and by the safe functions. Answers and all lent memory must agree, that which
//! is only read included. The safe functions take coordinates of 32 bits, one of the two tie rules,
//! one of the six orders of the axes and grids of whole trials; a call with wider ones, another rule,
//! order or length is made two ways. Doubles are compared by their bits. To a count on four axes the
//! words are its output; in a rearranging the second slice stands in the log's place.

use crate::reference::four::{self, Point4};
use crate::reference::{axes, calls, cards, figures, volume, Point};
use std::collections::BTreeMap;
use trial_archive::{check_card, sys, words, Archive, AxisOrder, CardRefusal};
use trial_archive::{Figures, Refusal, TieRule};

#[derive(Clone, Debug)]
pub enum Call {
    Start { reference: Point, capacity: u64 },
    Insert { number: u64, point: Point },
    InsertGrid { grid: Vec<u64> },
    Remove { number: u64 },
    Least { rule: u64 },
    Reduce { k: u64, rule: u64, log: Vec<u64> },
    Joint { first: u64, second: u64 },
    Gain { point: Point },
    ReplaceEffect { number: u64, point: Point },
    Share,
    Audit,
    Check { card: Vec<u8> },
    Load { card: Vec<u8> },
    WriteCard { out: Vec<u8> },
    Report { out: Vec<u8> },
    Rearrange { order: u64, second: Vec<u64> },
    Figures { number: u64 },
    Volume { reference: [f64; 3], points: Vec<f64> },
    Count4 { reference: Point4, coords: Vec<u64> },
}

impl Call {
    pub fn name(&self) -> &'static str {
        match self {
            Call::Start { .. } => "start",
            Call::Insert { .. } => "insert",
            Call::InsertGrid { .. } => "insert_grid",
            Call::Remove { .. } => "remove",
            Call::Least { .. } => "least",
            Call::Reduce { .. } => "reduce",
            Call::Joint { .. } => "joint",
            Call::Gain { .. } => "gain",
            Call::ReplaceEffect { .. } => "replace_effect",
            Call::Share => "share",
            Call::Audit => "audit",
            Call::Check { .. } => "check",
            Call::Load { .. } => "load",
            Call::WriteCard { .. } => "write_card",
            Call::Report { .. } => "report",
            Call::Rearrange { .. } => "rearrange",
            Call::Figures { .. } => "figures",
            Call::Volume { .. } => "volume",
            Call::Count4 { .. } => "count4",
        }
    }

    /// The coordinates or the reference that the call is given.
    fn point(&self) -> Option<Point> {
        match self {
            Call::Start { reference: point, .. }
            | Call::Insert { point, .. }
            | Call::Gain { point }
            | Call::ReplaceEffect { point, .. } => Some(*point),
            _ => None,
        }
    }

    /// Whether the call's point, or a trial that the words hold, has a coordinate beyond the
    /// words' reference; of a volume and of a count on four axes, one of its points beyond its own.
    fn meets_beyond(&self, words: &[u64]) -> bool {
        let past = |p: &[u64]| (0..3).any(|axis| p[axis] > words[2 + axis]);
        match self {
            Call::Start { .. } | Call::Check { .. } | Call::Load { .. } => false,
            Call::InsertGrid { grid } => grid.chunks_exact(4).any(|t| past(&t[1..])),
            Call::Volume { reference, points } => {
                points.chunks_exact(3).any(|p| (0..3).any(|axis| p[axis] > reference[axis]))
            }
            Call::Count4 { reference, coords } => {
                coords.chunks_exact(4).any(|p| (0..4).any(|axis| p[axis] > reference[axis]))
            }
            Call::Insert { point, .. }
            | Call::Gain { point }
            | Call::ReplaceEffect { point, .. } => past(point),
            _ => words[8..8 + 5 * words[0] as usize].chunks(5).any(|r| past(&r[1..4])),
        }
    }

    /// The tie rule that it is given.
    fn rule(&self) -> u64 {
        match self {
            Call::Least { rule } | Call::Reduce { rule, .. } => *rule,
            _ => 0,
        }
    }

    /// Whether one of its coordinates, or of its reference's numbers, has more than 32 bits.
    fn is_wide(&self) -> bool {
        match self {
            Call::Count4 { reference, coords } => {
                reference.iter().chain(coords).any(|&c| c > u64::from(u32::MAX))
            }
            Call::InsertGrid { grid } => {
                grid.chunks(4).flat_map(|t| t.iter().skip(1)).any(|&c| c > u64::from(u32::MAX))
            }
            _ => self.point().is_some_and(|point| narrow(point).is_none()),
        }
    }

    /// Whether only the C interface can be asked it.
    fn is_bare(&self) -> bool {
        match self {
            Call::InsertGrid { grid } => fours(grid).is_none(),
            Call::Rearrange { order, .. } => *order > 5,
            Call::Count4 { .. } => false,
            _ => self.is_wide() || self.rule() > 1,
        }
    }
}

/// The trials of a grid or the points, of four words each, where the length is a multiple of four.
fn fours(words: &[u64]) -> Option<&[[u64; 4]]> {
    let (fours, rest) = words.as_chunks();
    rest.is_empty().then_some(fours)
}

/// The points of three doubles each, where their number is a multiple of three.
fn threes(points: &[f64]) -> Option<&[[f64; 3]]> {
    let (threes, rest) = points.as_chunks();
    rest.is_empty().then_some(threes)
}

/// Words that hold anything, to be lent.
pub fn anything(length: usize) -> Vec<u64> {
    (1..=length as u64).map(|i| i.wrapping_mul(0x0101_0101_0101_0101)).collect()
}

/// The point in 32 bits, as far as it fits.
pub fn narrow(point: Point) -> Option<[u32; 3]> {
    let [x, y, z] = point.map(|c| u32::try_from(c).ok());
    Some([x?, y?, z?])
}

/// Inserts a trial by the safe function, or by the C interface where a coordinate is wide, and
/// answers the refusal number.
pub fn insert(words: &mut [u64], number: u64, point: Point) -> u64 {
    let [x, y, z] = point;
    match narrow(point) {
        Some(point) => words::insert(words, number, point).err().map_or(0, Refusal::number),
        // SAFETY: pointer and length are those of one slice borrowed for the call.
        None => unsafe { sys::ta_insert(words.as_mut_ptr(), words.len(), number, x, y, z) },
    }
}

/// Reduces by the safe function, or by the C interface where the tie rule is neither of the two.
pub fn reduce(words: &mut [u64], k: u64, rule: u64, log: &mut [u64]) -> Result<u64, Refusal> {
    match rule {
        0 => words::reduce(words, k, TieRule::Lowest, log),
        1 => words::reduce(words, k, TieRule::Highest, log),
        _ => {
            let (len, log_len) = (words.len(), log.len());
            // SAFETY: pointers and lengths are those of two slices borrowed mutably for the call.
            let answer = unsafe {
                sys::ta_reduce(words.as_mut_ptr(), len, k, rule, log.as_mut_ptr(), log_len)
            };
            match answer.refusal {
                0 => Ok(answer.value),
                row => Err(Refusal::from_number(row).expect("a row of the table")),
            }
        }
    }
}

/// The answer as the C struct's fields, the refusal first, and what lent memory holds.
#[derive(Clone, Debug, PartialEq, Eq)]
pub struct Outcome {
    pub answer: Vec<u64>,
    pub words: Vec<u64>,
    pub log: Vec<u64>,
    pub out: Vec<u8>,
    pub card: Vec<u8>,
}

impl Outcome {
    /// The refusal number, 0 where the call is done.
    pub fn refusal(&self) -> u64 {
        self.answer[0]
    }
}

type Way = fn(&Call, &[u64]) -> Outcome;

/// Makes the call all three ways and compares.
pub fn compare(call: &Call, lent: &[u64]) -> Outcome {
    let expected = by_reference(call, lent);
    agree(call, lent, &expected);
    expected
}

/// The C interface and, where they can be asked, the safe functions come to this outcome.
pub fn agree(call: &Call, lent: &[u64], expected: &Outcome) {
    let ways: [(&str, Way); 2] = [("C interface", by_c), ("safe functions", by_safe)];
    for (way, run) in &ways[..if call.is_bare() { 1 } else { 2 }] {
        let found = run(call, lent);
        assert!(
            found == *expected,
            "{way}\ncall: {call:?}\nwords lent: {lent:?}\nexpected: {expected:?}\nfound: {found:?}"
        );
    }
}

/// Compares, and asserts the refusal number (0: done) that the document itself gives.
pub fn expect(call: &Call, lent: &[u64], refusal: u64) -> Outcome {
    let outcome = compare(call, lent);
    assert_eq!(outcome.refusal(), refusal, "call: {call:?}\nwords lent: {lent:?}");
    outcome
}

/// How often each call met each refusal, how often it was given a wide coordinate, and how often
/// it was done on trials or a point of which some lie beyond the reference.
#[derive(Default)]
pub struct Tally {
    met: BTreeMap<(&'static str, u64), u64>,
    wide: BTreeMap<&'static str, u64>,
    beyond: BTreeMap<&'static str, u64>,
}

impl Tally {
    pub fn compare(&mut self, call: &Call, lent: &[u64]) -> Outcome {
        let outcome = compare(call, lent);
        let refusal = match call {
            Call::Check { .. } => outcome.answer[0] / 65_536,
            _ => outcome.refusal(),
        };
        *self.met.entry((call.name(), refusal)).or_default() += 1;
        if call.is_wide() {
            *self.wide.entry(call.name()).or_default() += 1;
        }
        if refusal == 0 && call.meets_beyond(lent) {
            *self.beyond.entry(call.name()).or_default() += 1;
        }
        outcome
    }

    /// The call was often done where some trial or its point lies beyond the reference.
    pub fn covers_beyond(&self, call: &'static str) {
        let times = self.beyond.get(call).copied().unwrap_or(0);
        assert!(times >= 500, "{call} was done beyond the reference only {times} times");
        println!("{call} beyond the reference: {times}");
    }

    /// Every one of these rows of the call has been met often, and no other.
    pub fn covers(&self, call: &'static str, rows: &[u64]) {
        let of_call = self.met.iter().filter(|((name, _), _)| *name == call);
        let met: Vec<u64> = of_call.clone().map(|((_, row), _)| *row).collect();
        assert_eq!(met, rows, "rows that {call} met");
        for ((_, row), times) in of_call {
            assert!(*times >= 50, "{call} met row {row} only {times} times");
        }
    }

    /// The call was often given a coordinate of more than 32 bits.
    pub fn covers_wide(&self, call: &'static str) {
        let times = self.wide.get(call).copied().unwrap_or(0);
        assert!(times >= 50, "{call} was given a wide coordinate only {times} times");
        println!("{call} with a wide coordinate: {times}");
    }
}

/// What is lent beside the words: the log, the grid, the second slice, the coordinates or the bits of
/// points, the output and the card.
fn lists(call: &Call) -> (Vec<u64>, Vec<u8>, Vec<u8>) {
    match call {
        Call::Reduce { log: list, .. }
        | Call::Rearrange { second: list, .. }
        | Call::InsertGrid { grid: list }
        | Call::Count4 { coords: list, .. } => (list.clone(), Vec::new(), Vec::new()),
        Call::Volume { points, .. } => {
            (points.iter().map(|double| double.to_bits()).collect(), Vec::new(), Vec::new())
        }
        Call::WriteCard { out } | Call::Report { out } => (Vec::new(), out.clone(), Vec::new()),
        Call::Check { card } | Call::Load { card } => (Vec::new(), Vec::new(), card.clone()),
        _ => (Vec::new(), Vec::new(), Vec::new()),
    }
}

fn by_reference(call: &Call, lent: &[u64]) -> Outcome {
    let mut words = lent.to_vec();
    let (mut log, mut out, card) = lists(call);
    let answer = match call {
        Call::Start { reference, capacity } => {
            single(calls::start(&mut words, *reference, *capacity))
        }
        Call::Insert { number, point } => single(calls::insert(&mut words, *number, *point)),
        Call::InsertGrid { grid } => match calls::insert_grid(&mut words, grid) {
            Ok((inserted, stop)) => vec![0, inserted, stop],
            Err(refusal) => vec![refusal, 0, 0],
        },
        Call::Remove { number } => single(calls::remove(&mut words, *number)),
        Call::Least { rule } => match calls::least(&words, *rule) {
            Ok((number, contribution)) => vec![0, number, contribution],
            Err(refusal) => vec![refusal, 0, 0],
        },
        Call::Reduce { k, rule, .. } => double(calls::reduce(&mut words, *k, *rule, &mut log)),
        Call::Joint { first, second } => double(calls::joint(&words, *first, *second)),
        Call::Gain { point } => double(calls::gain(&words, *point)),
        Call::ReplaceEffect { number, point } => {
            change(calls::replace_effect(&words, *number, *point))
        }
        Call::Share => double(calls::share(&words)),
        Call::Audit => double(calls::audit(&words).map(u64::from)),
        Call::Check { .. } => vec![cards::check(&card)],
        Call::Load { .. } => match cards::load(&mut words, &card) {
            Ok(count) => vec![0, 0, count],
            Err((refusal, line)) => vec![refusal, line, 0],
        },
        Call::WriteCard { .. } => double(cards::write(&words, &mut out)),
        Call::Report { .. } => double(calls::report(&words, &mut out)),
        Call::Rearrange { order, .. } => single(axes::rearrange(&words, *order, &mut log)),
        Call::Figures { number } => sevenfold(figures::figures(&words, *number)),
        Call::Volume { reference, points } => {
            double(volume::volume(*reference, points).map(f64::to_bits))
        }
        Call::Count4 { reference, coords } => single(four::count4(*reference, coords, &mut words)),
    };
    Outcome { answer, words, log, out, card }
}

fn single(result: Result<(), u64>) -> Vec<u64> {
    vec![result.err().unwrap_or(0)]
}

/// A difference stands as the word that has its bits.
fn change(result: Result<i64, u64>) -> Vec<u64> {
    double(result.map(|difference| difference as u64))
}

fn double(result: Result<u64, u64>) -> Vec<u64> {
    match result {
        Ok(value) => vec![0, value],
        Err(refusal) => vec![refusal, 0],
    }
}

/// The answer of figures, from those of a call that is done or from a refusal number.
pub fn sevenfold(result: Result<[u64; 6], u64>) -> Vec<u64> {
    match result {
        Ok(figures) => [&[0], &figures[..]].concat(),
        Err(refusal) => vec![refusal, 0, 0, 0, 0, 0, 0],
    }
}

/// Memory lent between two fences that nobody may touch.
struct Fenced<T> {
    all: Vec<T>,
    fence: T,
}

const FENCE: usize = 6;

impl<T: Copy + PartialEq> Fenced<T> {
    fn new(lent: &[T], fence: T) -> Fenced<T> {
        let mut all = vec![fence; FENCE];
        all.extend_from_slice(lent);
        all.extend([fence; FENCE]);
        Fenced { all, fence }
    }

    fn len(&self) -> usize {
        self.all.len() - 2 * FENCE
    }

    fn ptr(&self) -> *const T {
        self.all[FENCE..].as_ptr()
    }

    fn mut_ptr(&mut self) -> *mut T {
        self.all[FENCE..].as_mut_ptr()
    }

    /// What the lent part holds, the fences being whole.
    fn open(self) -> Vec<T> {
        let (before, rest) = self.all.split_at(FENCE);
        let (lent, behind) = rest.split_at(rest.len() - FENCE);
        let whole = before.iter().chain(behind).all(|element| *element == self.fence);
        assert!(whole, "memory around a lent slice was written");
        lent.to_vec()
    }
}

fn by_c(call: &Call, lent: &[u64]) -> Outcome {
    let mut words = Fenced::new(lent, 0x5e5e_5e5e_5e5e_5e5e);
    let (log, out, card) = lists(call);
    let mut log = Fenced::new(&log, 0x5e5e_5e5e_5e5e_5e5e);
    let mut out = Fenced::new(&out, 0x5e);
    let card = Fenced::new(&card, 0x5e);
    let len = words.len();
    // SAFETY: each pointer and length are those of the lent part of one vector of its own.
    let answer = unsafe {
        match call {
            Call::Start { reference: [rx, ry, rz], capacity } => {
                vec![sys::ta_start(words.mut_ptr(), len, *rx, *ry, *rz, *capacity)]
            }
            Call::Insert { number, point: [x, y, z] } => {
                vec![sys::ta_insert(words.mut_ptr(), len, *number, *x, *y, *z)]
            }
            Call::InsertGrid { .. } => {
                let answer = sys::ta_insert_grid(words.mut_ptr(), len, log.ptr(), log.len());
                vec![answer.refusal, answer.inserted, answer.stop]
            }
            Call::Remove { number } => vec![sys::ta_remove(words.mut_ptr(), len, *number)],
            Call::Least { rule } => {
                let answer = sys::ta_least(words.ptr(), len, *rule);
                vec![answer.refusal, answer.number, answer.contribution]
            }
            Call::Reduce { k, rule, .. } => {
                let log_len = log.len();
                fields(sys::ta_reduce(words.mut_ptr(), len, *k, *rule, log.mut_ptr(), log_len))
            }
            Call::Joint { first, second } => {
                fields(sys::ta_joint(words.ptr(), len, *first, *second))
            }
            Call::Gain { point: [x, y, z] } => fields(sys::ta_gain(words.ptr(), len, *x, *y, *z)),
            Call::ReplaceEffect { number, point: [x, y, z] } => {
                let answer = sys::ta_replace_effect(words.ptr(), len, *number, *x, *y, *z);
                vec![answer.refusal, answer.difference as u64]
            }
            Call::Share => fields(sys::ta_share(words.ptr(), len)),
            Call::Audit => fields(sys::ta_audit(words.ptr(), len)),
            Call::Check { .. } => vec![sys::ta_card_check(card.ptr(), card.len())],
            Call::Load { .. } => {
                let answer = sys::ta_card_load(words.mut_ptr(), len, card.ptr(), card.len());
                vec![answer.refusal, answer.line, answer.count]
            }
            Call::WriteCard { .. } => {
                let out_len = out.len();
                fields(sys::ta_card_write(words.ptr(), len, out.mut_ptr(), out_len))
            }
            Call::Report { .. } => {
                let out_len = out.len();
                fields(sys::ta_report(words.ptr(), len, out.mut_ptr(), out_len))
            }
            Call::Rearrange { order, .. } => {
                let second_len = log.len();
                vec![sys::ta_rearrange(words.ptr(), len, *order, log.mut_ptr(), second_len)]
            }
            Call::Figures { number } => {
                let answer = sys::ta_figures(words.ptr(), len, *number);
                let sys::FiguresAnswer { refusal, sum, least, greatest, .. } = answer;
                vec![refusal, sum, least, greatest, answer.median, answer.share, answer.audits]
            }
            Call::Volume { reference: [x, y, z], .. } => {
                let reference = sys::Corner { x: *x, y: *y, z: *z };
                // Words and doubles have the same size and alignment.
                let answer = sys::ta_volume(reference, log.ptr().cast(), log.len());
                vec![answer.refusal, answer.volume.to_bits()]
            }
            Call::Count4 { reference: [rx, ry, rz, rw], .. } => {
                let (coords, coords_len, out) = (log.ptr(), log.len(), words.mut_ptr());
                vec![sys::ta_count4(*rx, *ry, *rz, *rw, coords, coords_len, out, len)]
            }
        }
    };
    Outcome { answer, words: words.open(), log: log.open(), out: out.open(), card: card.open() }
}

fn fields(answer: sys::Answer) -> Vec<u64> {
    vec![answer.refusal, answer.value]
}

fn by_safe(call: &Call, lent: &[u64]) -> Outcome {
    let mut memory = lent.to_vec();
    let (mut log, mut out, card) = lists(call);
    let point = narrow(call.point().unwrap_or_default()).expect("no wide coordinate");
    let rule = if call.rule() == 1 { TieRule::Highest } else { TieRule::Lowest };
    let answer = match call {
        Call::Start { capacity, .. } => {
            single(numbered(words::start(&mut memory, point, *capacity)))
        }
        Call::Insert { number, .. } => single(numbered(words::insert(&mut memory, *number, point))),
        Call::InsertGrid { grid } => {
            match words::insert_grid(&mut memory, fours(grid).expect("whole trials")) {
                Ok(filled) => vec![0, filled.inserted, filled.stop.map_or(0, Refusal::number)],
                Err(refusal) => vec![refusal.number(), 0, 0],
            }
        }
        Call::Remove { number } => single(numbered(words::remove(&mut memory, *number))),
        Call::Least { .. } => match words::least(&memory, rule) {
            Ok(least) => vec![0, least.number, least.contribution],
            Err(refusal) => vec![refusal.number(), 0, 0],
        },
        Call::Reduce { k, .. } => double(numbered(words::reduce(&mut memory, *k, rule, &mut log))),
        Call::Joint { first, second } => double(numbered(words::joint(&memory, *first, *second))),
        Call::Gain { .. } => double(numbered(words::gain(&memory, point))),
        Call::ReplaceEffect { number, .. } => {
            change(numbered(words::replace_effect(&memory, *number, point)))
        }
        Call::Share => double(numbered(words::share(&memory))),
        Call::Audit => double(numbered(words::audit(&memory)).map(u64::from)),
        Call::Check { .. } => match check_card(&card) {
            Ok(()) => vec![0],
            Err(CardRefusal { refusal, line }) => vec![refusal.number() * 65_536 + line],
        },
        Call::Load { .. } => match words::load_card(&mut memory, &card) {
            Ok(count) => vec![0, 0, count],
            Err(CardRefusal { refusal, line }) => vec![refusal.number(), line, 0],
        },
        Call::WriteCard { .. } => double(numbered(words::write_card(&memory, &mut out))),
        Call::Report { .. } => double(numbered(words::report(&memory, &mut out))),
        Call::Rearrange { order, .. } => single(rearrange(&memory, *order, &mut log)),
        Call::Figures { number } => sevenfold(safe_figures(&memory, *number)),
        Call::Volume { reference, points } => {
            let volume = match threes(points) {
                Some(threes) => trial_archive::volume(*reference, threes),
                None => words::volume(*reference, points),
            };
            double(numbered(volume).map(f64::to_bits))
        }
        Call::Count4 { reference, coords } => single(count4(*reference, coords, &mut memory)),
    };
    Outcome { answer, words: memory, log, out, card }
}

/// By the slices lent, and by an archive that owns its words, where they are one; it finds room.
fn rearrange(words: &[u64], order: u64, second: &mut [u64]) -> Result<(), u64> {
    let order = AxisOrder::from_number(order).expect("one of the six");
    let lent = numbered(words::rearrange(words, order, second));
    if let Ok(archive) = Archive::from_words(words.to_vec()) {
        let owned = numbered(archive.rearranged(order)).map(Archive::into_words);
        match lent {
            Ok(()) => assert_eq!(owned.as_deref(), Ok(&second[..archive.words().len()])),
            Err(1) => assert!(owned.is_ok()),
            Err(row) => assert_eq!(owned, Err(row)),
        }
    }
    lent
}

/// By the slice lent, and by archives that own their words, where so many are in it. Of sixteen and more
/// the first sixteen stand for all.
fn safe_figures(words: &[u64], number: u64) -> Result<[u64; 6], u64> {
    let fields = |f: Figures| [f.sum, f.least, f.greatest, f.median, f.share, u64::from(f.audits)];
    let lent = numbered(words::figures(words, number)).map(fields);
    let mut rest = words;
    let mut archives = Vec::new();
    for _ in 0..number.min(16) {
        let Ok(archive) = Archive::from_words(rest.to_vec()) else {
            return lent;
        };
        rest = &rest[archive.words().len()..];
        archives.push(archive);
    }
    assert_eq!(numbered(Figures::of(&archives)).map(fields), lent);
    lent
}

/// By the slices lent, and by points, where they are whole and no output is too short.
fn count4(reference: Point4, coords: &[u64], out: &mut [u64]) -> Result<(), u64> {
    let lent = numbered(words::count4(reference, coords, out));
    if let (Some(points), false) = (fours(coords), lent == Err(16)) {
        let counts = numbered(trial_archive::count4(reference, points));
        let figures = counts.map(|counts| [vec![counts.total], counts.contributions].concat());
        assert_eq!(figures, lent.map(|()| out[..words::count4_needed(points.len())].to_vec()));
    }
    lent
}

fn numbered<T>(result: Result<T, Refusal>) -> Result<T, u64> {
    result.map_err(Refusal::number)
}
