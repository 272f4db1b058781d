//! Cards, written from document 01's section "Card and report" and document 02's W-205.

use super::calls::{self, capacity_allowed, reference_allowed, Archive};
use super::Point;

/// A refusal number and the card line that it is for.
pub type Refused = (u64, u64);

/// The number in a field: the one that, printed right-justified, gives these bytes.
fn field(bytes: &[u8]) -> Option<u64> {
    let text = std::str::from_utf8(bytes).ok()?;
    let number: u64 = text.trim_start_matches(' ').parse().ok()?;
    (format!("{number:8}") == text).then_some(number)
}

/// The numbers of a line.
pub fn fields(line: &[u8]) -> Option<[u64; 4]> {
    if line.len() != 33 || line[32] != 10 {
        return None;
    }
    Some([field(&line[..8])?, field(&line[8..16])?, field(&line[16..24])?, field(&line[24..32])?])
}

/// The archive that a card describes, for a slice of `room` words; `None` is room enough.
fn read(card: &[u8], room: Option<usize>) -> Result<Archive, Refused> {
    let mut lines = card.chunks(33).zip(1..);
    let (first, _) = lines.next().ok_or((15, 1))?;
    let [capacity, rx, ry, rz] = fields(first).ok_or((15, 1))?;
    if !capacity_allowed(capacity) || !reference_allowed([rx, ry, rz]) {
        return Err((4, 1));
    }
    if room.is_some_and(|room| (room as u64) < 8 + 5 * capacity) {
        return Err((1, 1));
    }
    let mut archive = Archive::empty([rx, ry, rz], capacity);
    for (line, at) in lines {
        let [number, x, y, z] = fields(line).ok_or((15, at))?;
        archive.insert(number, [x, y, z]).map_err(|refusal| (refusal, at))?;
    }
    Ok(archive)
}

/// 0, or refusal number × 65,536 + card line.
pub fn check(card: &[u8]) -> u64 {
    match read(card, None) {
        Ok(_) => 0,
        Err((refusal, line)) => refusal * 65_536 + line,
    }
}

/// The count of trials loaded.
pub fn load(words: &mut [u64], card: &[u8]) -> Result<u64, Refused> {
    let archive = read(card, Some(words.len()))?;
    let own = archive.words();
    words[..own.len()].copy_from_slice(&own);
    Ok(archive.count())
}

/// Four numbers right-justified behind spaces in eight bytes each, a line end.
pub fn line(fields: [u64; 4]) -> Vec<u8> {
    let text: String = fields.iter().map(|field| format!("{field:8}")).collect();
    format!("{text}\n").into_bytes()
}

pub fn card(lines: &[[u64; 4]]) -> Vec<u8> {
    lines.iter().flat_map(|&fields| line(fields)).collect()
}

/// What stands on an archive's card: capacity and reference, then the trials as they are held.
pub fn lines(archive: &Archive) -> Vec<[u64; 4]> {
    let line = |first, [x, y, z]: Point| [first, x, y, z];
    let trials = archive.records.iter().map(|r| line(r.number, r.point));
    [line(archive.capacity, archive.reference)].into_iter().chain(trials).collect()
}

/// Puts the trials of a card in archive order: ascending z, then y, then x, then number.
pub fn in_order(lines: &mut [[u64; 4]]) {
    lines[1..].sort_by_key(|&[number, x, y, z]| [z, y, x, number]);
}

/// The length in bytes. Rows 1 to 3, then 16; no audit is asked.
pub fn write(words: &[u64], out: &mut [u8]) -> Result<u64, u64> {
    let card = card(&lines(&calls::read(words)?));
    let place = out.get_mut(..card.len()).ok_or(16_u64)?;
    place.copy_from_slice(&card);
    Ok(card.len() as u64)
}
