//! The calls on words, written from document 01's text: "The archive's words", "Calls" and
//! "Where each call is turned down", with document 02's changes. An `Err` is a refusal number; lent
//! memory is written only when nothing can be refused any more.

use super::{box_of, front, gain_and_joints, totals, Point};
use super::{MAX_CAPACITY, MAX_COORDINATE, MAX_NUMBER, MAX_REFERENCE};

#[derive(Clone, Debug)]
pub struct Record {
    pub number: u64,
    pub point: Point,
    pub contribution: u64,
}

/// What words say that have passed rows 1 to 3.
#[derive(Clone, Debug)]
pub struct Archive {
    pub capacity: u64,
    pub reference: Point,
    pub total: u64,
    pub front: u64,
    pub records: Vec<Record>,
}

fn refuse_if(condition: bool, number: u64) -> Result<(), u64> {
    if condition {
        Err(number)
    } else {
        Ok(())
    }
}

pub fn reference_allowed(reference: Point) -> bool {
    reference.iter().all(|r| (1..=MAX_REFERENCE).contains(r))
}

/// "Row 6 is given only above 1,048,576; row 3 allows the same range" (document 02, W-201).
pub fn coordinates_allowed(point: Point) -> bool {
    point.iter().all(|&coordinate| coordinate <= MAX_COORDINATE)
}

pub fn capacity_allowed(capacity: u64) -> bool {
    (1..=MAX_CAPACITY).contains(&capacity)
}

/// Rows 1 to 3, and what the words say.
pub fn read(words: &[u64]) -> Result<Archive, u64> {
    refuse_if(words.len() < 8, 1)?;
    let reference = [words[2], words[3], words[4]];
    refuse_if(!capacity_allowed(words[1]) || !reference_allowed(reference), 2)?;
    // Document 02, W-209: "Row 2 now refuses word 6 above the count; word 7 is still zero."
    refuse_if(words[6] > words[0] || words[7] != 0, 2)?;
    refuse_if(words[0] > words[1] || words[5] > box_of(reference), 2)?;
    let (count, capacity) = (words[0] as usize, words[1] as usize);
    refuse_if(words.len() < 8 + 5 * capacity, 1)?;

    let (used, unused) = words[8..8 + 5 * capacity].split_at(5 * count);
    let record = |r: &[u64]| Record { number: r[0], point: [r[1], r[2], r[3]], contribution: r[4] };
    let records: Vec<Record> = used.chunks(5).map(record).collect();
    for record in &records {
        refuse_if(!(1..=MAX_NUMBER).contains(&record.number), 3)?;
        refuse_if(!coordinates_allowed(record.point), 3)?;
        refuse_if(record.contribution > box_of(reference), 3)?;
    }
    refuse_if(records.windows(2).any(|pair| key(&pair[0]) >= key(&pair[1])), 3)?;
    let mut numbers: Vec<u64> = records.iter().map(|r| r.number).collect();
    numbers.sort_unstable();
    refuse_if(numbers.windows(2).any(|pair| pair[0] == pair[1]), 3)?;
    refuse_if(unused.iter().any(|&word| word != 0), 3)?;
    Ok(Archive { capacity: words[1], reference, total: words[5], front: words[6], records })
}

/// What records are in order of.
fn key(record: &Record) -> [u64; 4] {
    let [x, y, z] = record.point;
    [z, y, x, record.number]
}

impl Archive {
    pub fn empty(reference: Point, capacity: u64) -> Archive {
        Archive { capacity, reference, total: 0, front: 0, records: Vec::new() }
    }

    /// The words of the archive, all 8 + 5 × capacity of them.
    pub fn words(&self) -> Vec<u64> {
        let [rx, ry, rz] = self.reference;
        let mut words =
            vec![self.records.len() as u64, self.capacity, rx, ry, rz, self.total, self.front, 0];
        for record in &self.records {
            words.push(record.number);
            words.extend(record.point);
            words.push(record.contribution);
        }
        words.resize(8 + 5 * self.capacity as usize, 0);
        words
    }

    fn write(&self, words: &mut [u64]) {
        let own = self.words();
        words[..own.len()].copy_from_slice(&own);
    }

    pub fn count(&self) -> u64 {
        self.records.len() as u64
    }

    pub fn points(&self) -> Vec<Point> {
        self.records.iter().map(|r| r.point).collect()
    }

    pub fn position(&self, number: u64) -> Option<usize> {
        self.records.iter().position(|r| r.number == number)
    }

    /// Rows 5 to 8 and 13, then the insertion.
    pub fn insert(&mut self, number: u64, point: Point) -> Result<(), u64> {
        refuse_if(!(1..=MAX_NUMBER).contains(&number), 5)?;
        refuse_if(!coordinates_allowed(point), 6)?;
        refuse_if(self.position(number).is_some(), 7)?;
        refuse_if(self.count() == self.capacity, 8)?;
        let (gain, joints) = gain_and_joints(point, &self.points(), self.reference);
        refuse_if(self.total + gain > box_of(self.reference), 13)?;
        let falls_below =
            self.records.iter().zip(&joints).any(|(r, joint)| r.contribution < *joint);
        refuse_if(falls_below, 13)?;
        for (record, joint) in self.records.iter_mut().zip(joints) {
            record.contribution -= joint;
        }
        self.total += gain;
        self.records.push(Record { number, point, contribution: gain });
        self.records.sort_by_key(key);
        self.front = front(&self.points());
        Ok(())
    }

    /// Rows 9 and 13, then the removal.
    pub fn remove(&mut self, number: u64) -> Result<(), u64> {
        let position = self.position(number).ok_or(9_u64)?;
        let mut others = self.records.clone();
        let removed = others.remove(position);
        let points: Vec<Point> = others.iter().map(|r| r.point).collect();
        let (gain, joints) = gain_and_joints(removed.point, &points, self.reference);
        refuse_if(self.total < gain, 13)?;
        for (record, joint) in others.iter_mut().zip(joints) {
            record.contribution += joint;
            refuse_if(record.contribution > box_of(self.reference), 13)?;
        }
        self.total -= gain;
        self.records = others;
        self.front = front(&points);
        Ok(())
    }

    /// The least kept contribution; among equals the lowest trial number by rule 0, the highest by 1.
    fn least(&self, rule: u64) -> Option<(u64, u64)> {
        let least = self.records.iter().map(|r| r.contribution).min()?;
        let among = self.records.iter().filter(|r| r.contribution == least);
        let numbers = among.map(|r| r.number);
        Some((if rule == 0 { numbers.min()? } else { numbers.max()? }, least))
    }

    pub fn audit(&self) -> bool {
        let counts = totals(&self.points(), self.reference);
        let kept: Vec<u64> = self.records.iter().map(|r| r.contribution).collect();
        let front = front(&self.points());
        self.total == counts.covered && self.front == front && kept == counts.alone
    }
}

pub fn start(words: &mut [u64], reference: Point, capacity: u64) -> Result<(), u64> {
    refuse_if(!reference_allowed(reference) || !capacity_allowed(capacity), 4)?;
    refuse_if((words.len() as u64) < 8 + 5 * capacity, 1)?;
    Archive::empty(reference, capacity).write(words);
    Ok(())
}

pub fn insert(words: &mut [u64], number: u64, point: Point) -> Result<(), u64> {
    let mut archive = read(words)?;
    archive.insert(number, point)?;
    archive.write(words);
    Ok(())
}

/// Document 02, W-203: how many went in, and the row that stopped it, or 0. "17: slice length not a
/// multiple of four; checked first."
pub fn insert_grid(words: &mut [u64], grid: &[u64]) -> Result<(u64, u64), u64> {
    refuse_if(grid.len() % 4 != 0, 17)?;
    read(words)?;
    for (inserted, trial) in grid.chunks(4).enumerate() {
        if let Err(row) = insert(words, trial[0], [trial[1], trial[2], trial[3]]) {
            return Ok((inserted as u64, row));
        }
    }
    Ok((grid.len() as u64 / 4, 0))
}

pub fn remove(words: &mut [u64], number: u64) -> Result<(), u64> {
    let mut archive = read(words)?;
    archive.remove(number)?;
    archive.write(words);
    Ok(())
}

/// Number and kept contribution.
pub fn least(words: &[u64], rule: u64) -> Result<(u64, u64), u64> {
    let archive = read(words)?;
    refuse_if(rule > 1, 18)?;
    archive.least(rule).ok_or(14)
}

pub fn reduce(words: &mut [u64], k: u64, rule: u64, log: &mut [u64]) -> Result<u64, u64> {
    let mut archive = read(words)?;
    refuse_if(rule > 1, 18)?;
    refuse_if(k > archive.count(), 11)?;
    let drops = archive.count() - k;
    refuse_if((log.len() as u64) < 2 * drops, 12)?;
    refuse_if(!archive.audit(), 13)?;
    for pair in log.chunks_mut(2).take(drops as usize) {
        let (number, contribution) = archive.least(rule).expect("more than k trials are held");
        pair.copy_from_slice(&[number, contribution]);
        archive.remove(number).expect("the audit has said yes");
    }
    archive.write(words);
    Ok(drops)
}

pub fn joint(words: &[u64], first: u64, second: u64) -> Result<u64, u64> {
    let archive = read(words)?;
    let (a, b) = (archive.position(first).ok_or(9_u64)?, archive.position(second).ok_or(9_u64)?);
    refuse_if(a == b, 10)?;
    let mut points = archive.points();
    let own = points.remove(a);
    let (_, joints) = gain_and_joints(own, &points, archive.reference);
    Ok(joints[if b > a { b - 1 } else { b }])
}

pub fn gain(words: &[u64], point: Point) -> Result<u64, u64> {
    let archive = read(words)?;
    refuse_if(!coordinates_allowed(point), 6)?;
    Ok(gain_and_joints(point, &archive.points(), archive.reference).0)
}

/// Of the two numbers next to the quotient the nearer one; where both are as near, the even one.
fn nearest(dividend: u128, divisor: u128) -> u128 {
    let below = dividend / divisor;
    let from = |number: u128| (number * divisor).abs_diff(dividend);
    [below, below + 1].into_iter().min_by_key(|&number| (from(number), number % 2)).unwrap()
}

/// "What replacing trial a by a new point would do: the total afterwards less the total before"; both are
/// counted from nothing. "Order: rows 1 to 3, 9, 6."
pub fn replace_effect(words: &[u64], number: u64, point: Point) -> Result<i64, u64> {
    let archive = read(words)?;
    let position = archive.position(number).ok_or(9_u64)?;
    refuse_if(!coordinates_allowed(point), 6)?;
    let mut points = archive.points();
    let before = totals(&points, archive.reference).covered;
    points[position] = point;
    let after = totals(&points, archive.reference).covered;
    Ok(after as i64 - before as i64)
}

pub fn share(words: &[u64]) -> Result<u64, u64> {
    let archive = read(words)?;
    let millionths = u128::from(archive.total) * 1_000_000;
    Ok(nearest(millionths, u128::from(box_of(archive.reference))) as u64)
}

pub fn audit(words: &[u64]) -> Result<bool, u64> {
    Ok(read(words)?.audit())
}

/// A number right-justified behind spaces in eight bytes, four times, one in twenty, a line end.
pub fn report(words: &[u64], out: &mut [u8]) -> Result<u64, u64> {
    let archive = read(words)?;
    let mut text = line(archive.count(), archive.reference, archive.total);
    for record in &archive.records {
        text += &line(record.number, record.point, record.contribution);
    }
    refuse_if(out.len() < text.len(), 16)?;
    out[..text.len()].copy_from_slice(text.as_bytes());
    Ok(text.len() as u64)
}

fn line(first: u64, [x, y, z]: Point, last: u64) -> String {
    format!("{first:8}{x:8}{y:8}{z:8}{last:20}\n")
}
