//! Random archives, damage to them, and arguments at the places where answers change.

use crate::lend::Call;
use crate::reference::book::Book;
use crate::reference::calls::{self, Archive};
use crate::reference::{box_of, gain_and_joints, Point};
use crate::reference::{MAX_CAPACITY, MAX_COORDINATE, MAX_NUMBER, MAX_REFERENCE};
use crate::rng::Rng;

/// How large a scene's archives are.
#[derive(Clone, Copy)]
pub enum Size {
    /// A box of at most 125 cells and a few trials.
    Tiny,
    /// Any reference, up to 24 trials.
    Middle,
    /// Any reference, up to 64 trials.
    Large,
    /// Any reference, capacity 200 to 512, coordinates on a coarse grid.
    Full,
}

/// What a scene draws from.
pub struct Shape {
    pub size: Size,
    pub reference: Point,
    pub capacity: u64,
    /// Coordinates are whole steps of the reference where this is given.
    steps: Option<u64>,
    /// New points lie near one plane, so that few dominate others.
    front: bool,
    /// A third of the new points' coordinates lie beyond the reference.
    beyond: bool,
}

impl Shape {
    pub fn random(rng: &mut Rng, size: Size) -> Shape {
        let axis = |rng: &mut Rng| match size {
            Size::Tiny => rng.within(1..=5),
            _ => match rng.within(0..=5) {
                0 => rng.within(1..=3),
                1 => rng.within(4..=40),
                2 => rng.within(1..=MAX_REFERENCE),
                3 => rng.pick(&[MAX_REFERENCE, MAX_REFERENCE - 1, 65_535, 65_536, 65_537]),
                _ => rng.within(1_000..=200_000),
            },
        };
        let mut reference = [0; 3].map(|_: u64| axis(rng));
        if rng.chance(10) && !matches!(size, Size::Tiny) {
            reference = [MAX_REFERENCE; 3];
        }
        let capacity = match size {
            Size::Tiny => rng.within(1..=9),
            Size::Middle => rng.within(1..=24),
            Size::Large => rng.within(25..=64),
            Size::Full => rng.pick(&[200, 511, 512]),
        };
        let front = rng.chance(30);
        let steps = match size {
            Size::Full if front => Some(rng.within(20..=40)),
            Size::Full => Some(rng.within(2..=12)),
            _ => rng.chance(40).then(|| rng.within(1..=6)),
        };
        let beyond = rng.chance(40);
        Shape { size, reference, capacity, steps, front, beyond }
    }

    fn coordinate(&self, rng: &mut Rng, axis: usize) -> u64 {
        let reference = self.reference[axis];
        match self.steps {
            Some(steps) => rng.within(0..=steps) * reference / steps,
            None => rng.within(0..=reference),
        }
    }

    /// A coordinate beyond the reference, where there is one: the next, the last or any other.
    fn past(&self, rng: &mut Rng, axis: usize) -> u64 {
        let next = (self.reference[axis] + 1).min(MAX_COORDINATE);
        let any = rng.within(next..=MAX_COORDINATE);
        rng.pick(&[next, next, any, MAX_COORDINATE])
    }

    /// A point for a trial, often equal to, dominated by or level with another one.
    pub fn point(&self, rng: &mut Rng, held: &[Point]) -> Point {
        let mut fresh = [0, 1, 2].map(|axis| self.coordinate(rng, axis));
        if self.front {
            let [rx, ry, rz] = self.reference;
            fresh[2] = rz - (rz * fresh[0] / rx + rz * fresh[1] / ry) / 2;
        }
        for axis in 0..3 {
            if self.beyond && rng.within(1..=3) == 1 {
                fresh[axis] = self.past(rng, axis);
            }
        }
        if held.is_empty() || rng.chance(40) {
            return fresh;
        }
        let other = rng.pick(held);
        match rng.within(0..=9) {
            0 | 1 => other,
            2 | 3 => [0, 1, 2].map(|axis| fresh[axis].max(other[axis])),
            4 => [0, 1, 2].map(|axis| fresh[axis].min(other[axis])),
            5 => [0, 1, 2].map(|axis| rng.pick(&[0, fresh[axis], self.reference[axis]])),
            6 => [0, 1, 2].map(|axis| rng.pick(held)[axis]),
            _ => {
                let mut point = other;
                let axis = rng.index(3);
                point[axis] = fresh[axis];
                point
            }
        }
    }

    /// A trial number: small, near the largest, or one of many that agree in their low bits.
    fn number(&self, rng: &mut Rng) -> u64 {
        match rng.within(0..=3) {
            0 => MAX_NUMBER - rng.within(0..=2 * self.capacity),
            1 => 65_536 * rng.within(0..=152) + rng.within(1..=3),
            _ => rng.within(1..=2 * self.capacity),
        }
    }

    /// The words of an archive as the library would keep it.
    pub fn archive(&self, rng: &mut Rng) -> Vec<u64> {
        let most = if rng.chance(30) { self.capacity } else { rng.within(0..=self.capacity) };
        let mut book = Book::start(self.reference, self.capacity);
        for _ in 0..most {
            let held: Vec<Point> = book.trials().iter().map(|t| t.1).collect();
            let point = self.point(rng, &held);
            book.insert(usize::MAX, self.number(rng), point);
        }
        book.fresh()
    }
}

/// Total, front or contributions as nobody counted them, but within the box and the count. One in
/// four is as an archive kept from before the front: word 6 is zero and all else is counted.
pub fn foreign(rng: &mut Rng, words: &mut [u64]) {
    let cells = words[2] * words[3] * words[4];
    if rng.chance(25) {
        words[6] = 0;
        return;
    }
    if rng.chance(30) {
        let front = [0, just_below(words[6]), just_above(words[6]), rng.within(0..=words[0])];
        words[6] = rng.pick(&front).min(words[0]);
    }
    for _ in 0..rng.within(1..=3) {
        let record = rng.within(0..=words[0]) as usize;
        let at = if record == 0 { 5 } else { 7 + 5 * record };
        let old = words[at];
        let values =
            [0, 1, cells, cells - 1, old.saturating_sub(1), old + 1, rng.within(0..=cells)];
        words[at] = rng.pick(&values).min(cells);
    }
}

/// Kept values at which row 13 is just given, or just not, for this insertion or removal.
pub fn tight(rng: &mut Rng, words: &mut [u64], call: &Call) {
    let Ok(archive) = calls::read(words) else {
        return;
    };
    let cells = box_of(archive.reference);
    let mut points = archive.points();
    let mut places: Vec<usize> = (0..points.len()).map(|i| 12 + 5 * i).collect();
    let (point, inserts) = match call {
        Call::Insert { point, .. } => (*point, true),
        Call::Remove { number } => match archive.position(*number) {
            Some(position) => {
                places.remove(position);
                (points.remove(position), false)
            }
            None => return,
        },
        _ => return,
    };
    if !calls::coordinates_allowed(point) {
        return;
    }
    let (gain, joints) = gain_and_joints(point, &points, archive.reference);
    // An insertion raises the total and lowers contributions, a removal the other way round; what
    // rises may end at the box, what falls at 0.
    let before = |count: u64, rises: bool| if rises { cells - count } else { count };
    words[5] = before(gain, inserts);
    for (&place, &joint) in places.iter().zip(&joints) {
        words[place] = before(joint, !inserts);
    }
    if rng.chance(60) {
        let place = if rng.chance(50) || places.is_empty() { 5 } else { rng.pick(&places) };
        let rises = (place == 5) == inserts;
        let further = if rises { words[place] + 1 } else { words[place].saturating_sub(1) };
        words[place] = further.min(cells);
    }
}

/// Damage of a kind that rows 2 and 3 name, or just short of it. Values with high bits set are
/// such as a cut to 32 bits would let through.
pub fn damage(rng: &mut Rng, words: &mut [u64]) {
    if rng.chance(40) {
        damage_header(rng, words);
    } else {
        damage_records(rng, words);
    }
}

fn high(rng: &mut Rng, old: u64) -> u64 {
    rng.pick(&[old | 1 << 32, old | 1 << 63, u64::MAX])
}

fn just_below(value: u64) -> u64 {
    value.saturating_sub(1)
}

fn just_above(value: u64) -> u64 {
    value.saturating_add(1)
}

/// The box, as far as it fits a word where the header is damaged already.
fn cells_of(words: &[u64]) -> u64 {
    words[2..5].iter().fold(1, |product: u64, &r| product.saturating_mul(r))
}

fn damage_header(rng: &mut Rng, words: &mut [u64]) {
    let at = rng.index(8);
    let old = words[at];
    let near = match at {
        0 | 1 => {
            vec![0, 1, just_below(old), just_above(old), words[1], just_above(words[1]), 512, 513]
        }
        2..=4 => vec![0, 1, just_below(old), just_above(old), MAX_REFERENCE, MAX_REFERENCE + 1],
        5 => vec![cells_of(words), just_above(cells_of(words))],
        6 => vec![0, words[0], just_above(words[0]), words[1]],
        _ => vec![1],
    };
    words[at] = if rng.chance(20) { high(rng, old) } else { rng.pick(&near) };
}

fn damage_records(rng: &mut Rng, words: &mut [u64]) {
    let slots = (words[1] as usize).clamp(1, (words.len() - 8) / 5);
    let count = (words[0] as usize).clamp(1, slots);
    let (one, other) = (8 + 5 * rng.index(count), 8 + 5 * rng.index(count));
    match rng.within(0..=5) {
        0 => {
            let near = [0, 1, MAX_NUMBER, MAX_NUMBER + 1, words[other]];
            words[one] = if rng.chance(20) { high(rng, words[one]) } else { rng.pick(&near) };
        }
        1 => {
            let axis = rng.index(3);
            let at = one + 1 + axis;
            let reference = words[2 + axis];
            let limit = rng.pick(&[MAX_COORDINATE, MAX_COORDINATE + 1]);
            let near = [0, reference, just_above(reference), just_above(words[at]), limit, limit];
            words[at] = if rng.chance(20) { high(rng, words[at]) } else { rng.pick(&near) };
        }
        2 => words[one + 4] = rng.pick(&[cells_of(words), just_above(cells_of(words)), u64::MAX]),
        3 => (0..5).for_each(|i| words.swap(one + i, other + i)),
        4 => {
            let width = rng.pick(&[1, 5]);
            words.copy_within(one..one + width, other);
        }
        _ => {
            let (first, end) = (8 + 5 * (words[0] as usize).min(slots), 8 + 5 * slots);
            let any = first + rng.index((end - first).max(1));
            let at = rng.pick(&[first, end - 1, any]).min(end - 1);
            words[at] = rng.pick(&[1, 1 << 63]);
        }
    }
}

/// How many of the words are lent, near the limits.
pub fn part(rng: &mut Rng, words: &[u64], needed: usize) -> usize {
    let near = [0, 1, 7, 8, 9, needed - 1, needed, needed + 1, rng.index(needed)];
    rng.pick(&near).min(words.len())
}

/// A call with arguments at the places where answers change.
pub fn call(rng: &mut Rng, shape: &Shape, words: &[u64]) -> Call {
    let archive =
        calls::read(words).unwrap_or_else(|_| Archive::empty(shape.reference, shape.capacity));
    match rng.within(0..=35) {
        0..=6 => Call::Insert {
            number: number(rng, shape, &archive, 25),
            point: point(rng, shape, &archive),
        },
        7..=10 => Call::Remove { number: number(rng, shape, &archive, 85) },
        11 => Call::Least { rule: rule(rng) },
        12..=14 => reduce(rng, shape, &archive),
        15 | 16 => {
            let first = number(rng, shape, &archive, 90);
            let second = if rng.chance(10) { first } else { number(rng, shape, &archive, 90) };
            Call::Joint { first, second }
        }
        17..=19 => Call::Gain { point: point(rng, shape, &archive) },
        20 => Call::Share,
        21 => Call::Audit,
        22 => start(rng, shape),
        23 | 24 => Call::WriteCard { out: output(rng, &archive, 33) },
        25 | 26 => Call::Report { out: output(rng, &archive, 53) },
        27..=29 => insert_grid(rng, shape, &archive),
        30 | 31 => replace_effect(rng, shape, &archive),
        32 | 33 => rearrange(rng, &archive),
        _ => Call::Figures { number: runs(rng) },
    }
}

/// A grid of up to a few trials more than there is room for, now and then with some words more.
fn insert_grid(rng: &mut Rng, shape: &Shape, archive: &Archive) -> Call {
    let free = archive.capacity - archive.count();
    let most = match shape.size {
        Size::Full | Size::Large => free.min(6),
        _ => free + 2,
    };
    let trials = rng.within(0..=most);
    let held = rng.pick(&[0, 0, 0, 10]);
    let mut grid = Vec::new();
    for _ in 0..trials {
        grid.push(number(rng, shape, archive, held));
        grid.extend(if rng.chance(80) {
            shape.point(rng, &archive.points())
        } else {
            point(rng, shape, archive)
        });
    }
    if rng.chance(8) {
        grid.extend((0..rng.within(1..=3)).map(|_| 1));
    }
    Call::InsertGrid { grid }
}

/// A trial that is mostly held, and a point: any, or the trial's own.
fn replace_effect(rng: &mut Rng, shape: &Shape, archive: &Archive) -> Call {
    let number = number(rng, shape, archive, 90);
    let own = archive.position(number).map(|position| archive.points()[position]);
    let point = match own {
        Some(own) if rng.chance(10) => own,
        _ => point(rng, shape, archive),
    };
    Call::ReplaceEffect { number, point }
}

/// An order of the axes, now and then one that there is not, and a second slice that holds anything,
/// now and then too short.
fn rearrange(rng: &mut Rng, archive: &Archive) -> Call {
    let order = match rng.within(0..=7) {
        0 => rng.pick(&[6, 7, 255, 256, 1 << 32, 3 | 1 << 32, 1 << 63, u64::MAX]),
        _ => rng.within(0..=5),
    };
    let exact = 8 + 5 * archive.capacity;
    let length = rng.pick(&[exact, exact, exact, exact + 1, exact + 9, exact - 1, exact - 5, 8, 0]);
    Call::Rearrange { order, second: (0..length).map(|_| rng.next()).collect() }
}

/// A number of archives: mostly the one that there is, now and then one more or what row 23 turns down.
fn runs(rng: &mut Rng) -> u64 {
    match rng.within(0..=9) {
        0 => rng.pick(&[2, 3, 15]),
        1 | 2 => rng.pick(&[0, 16, 17, 256, 1 << 32, 1 | 1 << 32, 1 << 63, u64::MAX]),
        _ => 1,
    }
}

/// A number of more than 32 bits, often one that a cut to 32 bits would make 0, 1 or this one.
pub fn wide(rng: &mut Rng, narrow: u64) -> u64 {
    let high = 1 << rng.within(32..=63);
    let any = rng.next() | 1 << 32;
    rng.pick(&[high, high + 1, high + narrow, any, u64::MAX])
}

/// The point of an insertion or a gain, now and then at a limit or past it.
fn point(rng: &mut Rng, shape: &Shape, archive: &Archive) -> Point {
    let mut point = shape.point(rng, &archive.points());
    let axis = rng.index(3);
    if rng.chance(6) {
        let reference = archive.reference[axis];
        let limit = [MAX_COORDINATE, MAX_COORDINATE + 1];
        let near = [reference, reference + 1, limit[0], limit[1], 1 << 31, u64::from(u32::MAX)];
        point[axis] = rng.pick(&near);
    } else if rng.chance(4) {
        point[axis] = wide(rng, point[axis]);
    }
    point
}

/// A number that is held in so many of a hundred cases.
fn number(rng: &mut Rng, shape: &Shape, archive: &Archive, held: u64) -> u64 {
    if archive.count() > 0 && rng.chance(held) {
        return rng.pick(&archive.records).number;
    }
    let some = shape.number(rng);
    match rng.within(0..=9) {
        0 => rng.pick(&[0, MAX_NUMBER + 1, u64::MAX, 1 << 32, some | 1 << 32, some | 1 << 63]),
        1 => rng.pick(&[1, MAX_NUMBER]),
        _ => some,
    }
}

/// A tie rule, now and then one that there is not.
fn rule(rng: &mut Rng) -> u64 {
    match rng.within(0..=11) {
        0 => rng.pick(&[2, 3, 1 << 32, 1 | 1 << 32, 1 << 63, u64::MAX]),
        n => n % 2,
    }
}

fn reduce(rng: &mut Rng, shape: &Shape, archive: &Archive) -> Call {
    let count = archive.count();
    let few = rng.within(0..=count.min(4));
    let k = match rng.within(0..=9) {
        0 => count,
        1 => count + 1,
        2 => rng.pick(&[u64::MAX, 1 << 63, count + (1 << 63), count + (1 << 32)]),
        3 if !matches!(shape.size, Size::Full) => 0,
        _ => count - few,
    };
    let drops = count.saturating_sub(k);
    let exact = 2 * drops;
    let length =
        rng.pick(&[exact, exact, exact, exact + 1, exact + 5, exact.saturating_sub(1), exact / 2]);
    Call::Reduce { k, rule: rule(rng), log: (0..length).map(|_| rng.next()).collect() }
}

fn start(rng: &mut Rng, shape: &Shape) -> Call {
    let mut reference = shape.reference;
    let axis = rng.index(3);
    if rng.chance(30) {
        let near = [0, 1, MAX_REFERENCE, MAX_REFERENCE + 1, u64::from(u32::MAX)];
        reference[axis] = rng.pick(&near);
    } else if rng.chance(10) {
        reference[axis] = wide(rng, reference[axis]);
    }
    // For some of these 8 + 5 × capacity is small again where it wraps.
    let wraps = [u64::MAX / 5 - 1, u64::MAX / 5, u64::MAX / 5 + 1, u64::MAX];
    let near = [0, 1, shape.capacity, shape.capacity + 1, MAX_CAPACITY, MAX_CAPACITY + 1];
    let capacity = match rng.within(0..=9) {
        0 => rng.pick(&wraps),
        1..=4 => rng.pick(&near),
        _ => rng.within(1..=shape.capacity),
    };
    Call::Start { reference, capacity }
}

/// An output for a line of so many bytes and one more for each trial, now and then too short.
fn output(rng: &mut Rng, archive: &Archive, line: u64) -> Vec<u8> {
    let exact = line * (archive.count() + 1);
    let length = rng.pick(&[exact, exact, exact + 1, exact + 60, exact - 1, exact - line, 0]);
    (0..length).map(|_| rng.next() as u8).collect()
}
